#!/usr/bin/env python3
"""Brings the names of this repository's own definitions and lemmas to one spelling: words in snake case, an underscore between words, a dash only
beside a sign. Run once, at the top, after /opt/rattle/port/port.py: it reads which names crates/ declares, and respells them in crates/ (also in
backquotes of comments). Functions of src/, types, facts, modules and what comes from a library keep their names."""

import os
import re

FOLDERS = [os.path.join(d, f) for d, ds, fs in os.walk("crates") for f in fs if "out" not in d.split(os.sep)]
FILES = sorted(p for p in FOLDERS if p.endswith((".antt", ".rt")))
TEXTS = {p: open(p, encoding="utf-8").read() for p in FILES}
OWN = set(os.listdir("crates"))
DECLARED = re.compile(r"^\s*(?:abbrev |unfoldable |pub |ruleset )*([^\s(){}:;,◌]+)(?: \{[^}]*\})? :(?: |$)", re.M)
NEEDED = re.compile(r"^(?:abbrev |pub )*([^\s(){}:;,]+) : (?:tie\.|\{M : Type 1\} → statement)", re.M)
IMPORTED = re.compile(r"use ([^\s{;]+)\.\{([^}]*)\}")
TOKEN = re.compile(r"[^\s(){}\[\];,.⟨⟩«»\"`λ:→←∷◌]+")


def code(text, path):
    """The text without comments."""
    return re.sub(r"(?m)(--|//).*$" if path.endswith(".rt") else r"(?m)--.*$", "", text)


def spelled(name):
    parts = name.split("-")
    new = []
    for p in parts:
        p = "get_or" if p == "getD" else p
        if re.match(r"[a-z]", p):
            p = re.sub(r"(?<=[a-z0-9])([A-Z])(?=[a-z0-9_'-]|$)", lambda m: "_" + m[1].lower(), p)
        new.append(p)
    words = all(re.fullmatch(r"\w[\w']*", p) for p in new)
    return ("_" if words else "-").join(new)


declared, stated, needed, imported = set(), set(), set(), set()
for path, text in TEXTS.items():
    plain = code(text, path)
    if path.endswith(".antt"):
        declared |= set(DECLARED.findall(plain))
        if "/specs/" in path:
            stated |= set(DECLARED.findall(plain))
        needed |= set(NEEDED.findall(plain))
    for module, names in IMPORTED.findall(plain):
        first = module.split(".")
        if not (first[0] == "Rattle" and len(first) > 1 and first[1] in OWN):
            imported |= {n.split(" as ")[0].strip() for n in names.split(",")}
        imported |= {n.split(" as ")[1].strip() for n in names.split(",") if " as " in n} & imported
        declared |= {n.split(" as ")[1].strip() for n in names.split(",") if " as " in n and first[0] == "Rattle"}
renamed = {}
for name in sorted(declared - imported - needed):
    if not (re.match(r"[A-Z]", name) and "-" not in name) and spelled(name) != name:
        renamed[name] = spelled(name)
# Names that fall together: a definition of specs/ has the name, a lemma gets _lem.
FALL = []
for new in sorted(set(renamed.values())):
    old = sorted((n for n in declared if renamed.get(n, n) == new), key=lambda n: (n not in stated, "-" in n, n))
    for n in old[1:]:
        renamed[n] = new + "_lem"
    if len(old) > 1:
        FALL.append((new, old))


def respell(text):
    # in a function's proof, a step of the generated proof, as `.over-ends`, is no name of ours
    steps = path.endswith("/Proof.antt")
    return TOKEN.sub(lambda m: m[0] if steps and "-" in m[0] and text[m.start() - 1 : m.start()] == "." else renamed.get(m[0], m[0]), text)


for path in FILES:
    lines = []
    sign = "//" if path.endswith(".rt") else "--"
    for line in TEXTS[path].split("\n"):
        at = line.find(sign)
        if path.endswith(".antt") and at > 0 and not line[:at].isspace():
            at = -1
        if at >= 0 and '"' not in line[:at]:
            note = re.sub(r"`[^`]*`", lambda m: respell(m[0]), line[at:])
            line = respell(line[:at]) + note
        elif path.endswith(".rt") and '"' in line:
            pass
        else:
            line = respell(line)
        lines.append(line)
    new = "\n".join(lines)
    if new != TEXTS[path]:
        with open(path, "w", encoding="utf-8") as f:
            f.write(new)
print(len(renamed), "names respelled")
for new, old in FALL:
    print("fell together:", new, *old)
for n in sorted(renamed):
    print(" ", n, renamed[n])
