# The files of definitions that a definition reaches, by the names in it and in those that it names, its own among them: -v from=crates/NAME/specs/File.antt
# -v name=Definition. Structs (specs.declared) are made from the source, and what is of no crate of the repository is the kit's.

# Reads a file: what each name that it declares says (`said`), a case of a data type as that type; and the names that it takes from elsewhere (`taken`).
function load(path,    line, name, parts, words, size, i, module) {
    if (path in loaded) return
    loaded[path] = 1
    while ((getline line < path) > 0) {
        sub(/(^|[ ])--.*/, "", line)
        if (match(line, /^(pub )?use Rattle\.[a-z0-9_]+\.specs\.[A-Za-z0-9]+/)) {
            split(substr(line, 1, RLENGTH), parts, ".")
            module = "crates/" parts[2] "/specs/" parts[4] ".antt"
            if (match(line, / as [A-Za-z0-9]+$/)) alias[path, substr(line, RSTART + 4)] = module
            sub(/^[^{]*\{/, "", line)
            size = split(line, parts, /[,}]+ */)
            for (i = 1; i <= size; i++) if (split(parts[i], words, / as /)) taken[path, plain(words[2] == "" ? words[1] : words[2])] = module SUBSEP plain(words[1])
        } else if (line ~ /^[^ ]/ && line !~ /^(use|pub use|mod|pub mod|infix[lr]?) /) {
            while (sub(/^(pub|abbrev|unfoldable|opaque|record|data) /, "", line)) {}
            if (!((path, plain(line)) in said)) name = plain(line)
            said[path, name] = said[path, name] " " line
        } else if (line ~ /^ /) {
            said[path, name] = said[path, name] " " line
            if (line ~ /^  [^ ]+ : /) said[path, plain(substr(line, 3))] = name
        }
    }
    close(path)
}

# the first word; of an operator, the first word in it
function plain(text) { sub(/^◌/, "", text); sub(/(◌| ).*/, "", text); return text }

function visit(path, name,    parts, size, i, word, before) {
    load(path)
    if ((path, name) in taken) { split(taken[path, name], parts, SUBSEP); visit(parts[1], parts[2]); return }
    if (!((path, name) in said) || (path, name) in met) return
    met[path, name] = files[path] = 1
    size = split(said[path, name], parts, /[][ (){},;]+/)
    for (i = 1; i <= size; i++) {
        word = parts[i]
        before = word
        if (sub(/\..*/, "", before) && (path, before) in alias) { sub(/^[^.]*\./, "", word); visit(alias[path, before], plain(word)) }
        else visit(path, plain(before))
    }
}
BEGIN { visit(from, name); for (path in files) print path }
