# What README, docs/ and the comments of specs/ and src/ cite, and whether it is there: sections of docs/SPECIFICATION.md with their numbers, cards, links, and
# what stands in backquotes: files, edits, make targets, and names of the code. A name must be declared; in the file that is named with it, in the crate
# before its ::, and in the contract that is said to promise it. Files come with a mode before them: spec, heads, names, words, targets, cites.

# ---- what there is

mode == "spec" && /^## / { section = substr($0, 4); sections[section] = 1 }
mode == "spec" && match($0, /^(\| )?[0-9]+\. /) { number = $0; gsub(/^\| |\. .*/, "", number); numbers[section, number] = 1 }
mode == "spec" && section == "Change requests" && match($0, /^\| [0-9]+ /) { cards[$2] = 1 }

# headings, as links name them
mode == "heads" && /^#+ / { head = tolower($0); sub(/^#+ /, "", head); gsub(/[^a-z0-9 -]/, "", head); gsub(/ /, "-", head); heads[FILENAME, head] = 1 }

# what a line of .antt takes from the kit's library
mode == "names" && /^(pub )?use (Rattle\.std|mathlib|lib|Prim)\./ { size = split($0, parts, /[^-A-Za-z0-9_]+/); for (i = 1; i <= size; i++) names[parts[i]] = 1 }

# the word that a line of .antt begins with, after its modifiers: what it declares or defines
mode == "names" {
    sub(/^ +/, "")
    while (sub(/^(pub|abbrev|unfoldable|record|data|mod) /, "")) {}
    sub(/[ :({].*/, "")
    names[$0] = declared[FILENAME, $0] = 1
}

# of other files each word of the code counts; and those of an ensures are promised by its function
mode == "words" && FNR == 1 { remark = 0; function_name = "" }
mode == "words" {
    if (FILENAME ~ /\.rt$/) sub(/\/\/.*/, "")
    else if (FILENAME ~ /\.[ch]$/) {
        gsub(/\/\*[^*]*\*\//, "")
        if (remark) { if (!sub(/.*\*\//, "")) next; remark = 0 }
        if (sub(/\/\*.*/, "")) remark = 1
    }
    crate = FILENAME
    gsub(/^crates\/|\/.*/, "", crate)
    if (match($0, /fn [A-Za-z0-9_]+/)) function_name = substr($0, RSTART + 3, RLENGTH - 3)
    promise = /ensures/
    size = split($0, parts, /[^-A-Za-z0-9_]+/)
    for (i = 1; i <= size; i++) {
        names[parts[i]] = of_crate[crate, parts[i]] = 1
        if (promise) promised[crate, function_name, parts[i]] = 1
    }
}
mode == "targets" { makefile = makefile $0 "\n" }
mode == "targets" && match($0, /^[a-z][-a-z ]*:/) { size = split(substr($0, 1, RLENGTH - 1), parts, " "); for (i = 1; i <= size; i++) targets[parts[i]] = 1 }

# ---- what is cited

mode == "cites" && FNR == 1 { look(); file = FILENAME; text = "" }
mode == "cites" && file ~ /\.(antt|rt)$/ { if (sub(/^ *(--|\/\/) /, "")) text = text " " $0 }
mode == "cites" && file ~ /\.md$/ { if (/^    make /) look_word($1 " " $2); sub(/^ +/, ""); text = text " " $0 }
END {
    look()
    printf "references: %d cited, %d not there\n", cited, missing
    exit missing > 0
}

function tell(what) { printf "%s: %s is not there\n", file, what; missing++ }

function there(path,    glob) {
    if (path ~ /[^-A-Za-z0-9_.\/]/) return 0
    glob = path
    gsub(/NAME/, "*", glob)
    if (!(glob in seen)) seen[glob] = system("set -- " glob "; test -e \"$1\"") == 0
    return seen[glob]
}

# the numbers that a citation of a section or card goes on with: 3, or 3 and 5, or 5, 6 and 7, or 4 to 6
function number_list(rest, list,    count) {
    count = 0
    while (match(rest, count ? "^(, |,? and |,? or | to |-|–)[0-9]+" : "^ [0-9]+")) {
        list[++count] = substr(rest, 1, RLENGTH)
        gsub(/[^0-9]/, "", list[count])
        rest = substr(rest, RLENGTH + 1)
    }
    return count
}

function look_section(rest,    name, best, i, count, list) {
    best = ""
    for (name in sections) if (index(rest, name) == 1 && substr(rest, length(name) + 1) !~ /^[a-z]/ && length(name) > length(best)) best = name
    cited++
    if (best == "") { tell("section " substr(rest, 1, 40)); return }
    count = number_list(substr(rest, length(best) + 1), list)
    for (i = 1; i <= count; i++) if (!((best, list[i]) in numbers)) tell("section " best " " list[i])
}

function look_cards(rest,    i, count, list) {
    count = number_list(rest, list)
    for (i = 1; i <= count; i++) { cited++; if (!(list[i] in cards)) tell("card " list[i]) }
}

# a word in backquotes: a command of make, a path, a file, a name, or names with :: between them, of which a crate's stand in its code
function look_word(word,    i, size, parts) {
    if (word ~ /^make /) {
        size = split(word, parts, " ")
        for (i = 2; i <= size; i++) { cited++; if (parts[i] !~ /=/ && !(parts[i] in targets) && !made(parts[i]) && !(parts[2] == "edits" && there("crates/" parts[i]))) tell(word) }
        return
    }
    if (word ~ /[ =&]|·/ || word !~ /[A-Za-z]/) return
    cited++
    if (word ~ /\//) { if (!(made(word) || there(word) || there("crates/" word) || edit(word) || word ~ /\/$/ && there("crates/NAME/" word))) tell(word); return }
    if (word ~ /\.antt$/) { if (!(there("crates/NAME/specs/" word) || there("crates/NAME/proofs/" word))) tell(word); return }
    if (word ~ /\.(md|rt|awk|sh|c|h|txt|blocks|out)$/) { if (!there(word)) tell(word); return }
    size = split(word, parts, /::|\.|\(.*/)
    for (i = 1; i <= size; i++) if (parts[i] != "" && !(parts[i] in names) && !there("crates/" parts[i])) tell(word)
    if (word ~ /::/ && there("crates/" parts[1])) for (i = 2; i <= size; i++) if (!((parts[1], parts[i]) in of_crate)) tell(word)
}

# what a program makes: it is named in the Makefile
function made(path) { return path ~ /^(build|crates\/[a-z0-9_]+\/out)\// && index(makefile, path) }

# crate/edit: 1 in the gate, 2 beside it
function edit(word,    crate, name) {
    crate = name = word
    sub(/\/.*/, "", crate)
    sub(/[^\/]*\//, "", name)
    return there("crates/" crate "/must-fail/" name ".edit") ? 1 : there("crates/" crate "/more-edits/" name ".edit") ? 2 : 0
}

# names that a file is said to have, as in `A`, `B` (`crate/specs/File.antt`)
function look_declared(path, run,    i, size, parts) {
    sub(/^crates\//, "", path)
    size = split(run, parts, " ")
    for (i = 1; i <= size; i++) if (parts[i] !~ /::|\// && !(("crates/" path, parts[i]) in declared)) tell(parts[i] " of " path)
}

# and that a function of a crate is said to promise, as in `A`, `B`, promised by `crate::function`
function look_promised(path, run,    i, size, parts, of, last) {
    last = split(path, of, "::")
    if (last < 2 || !there("crates/" of[1])) return
    size = split(run, parts, " ")
    for (i = 1; i <= size; i++) if (!((of[1], of[last], parts[i]) in promised)) tell(parts[i] " promised by " path)
}

function look(    rest, size, parts, i, place, run, before, word) {
    if (text == "") return
    size = split(text, parts, "`")
    if (size % 2 == 0) tell("a backquote's other half")
    run = ""
    for (i = 2; i <= size; i += 2) {
        before = parts[i - 1]
        word = parts[i]
        look_word(word)
        if (before ~ /^( \(| in )$/ && word ~ /\.antt$/) look_declared(word, run)
        else if (before ~ /^\)?, (promised )?by $/) look_promised(word, run)
        else run = (before ~ /^(, | and )$/ ? run " " : "") word
        if (file == "docs/CLAIMS.md" && edit(word) && (edit(word) == 2) != (parts[i + 1] ~ /^\*/)) tell(word " as it is marked")
    }
    for (rest = text; place = index(rest, "§"); ) { rest = substr(rest, place + length("§ ")); look_section(substr(rest, 1, 60)) }
    for (rest = text; match(rest, /(^|[^a-z])[Cc]ards? [0-9]/); ) { rest = substr(rest, RSTART + RLENGTH - 2); look_cards(substr(rest, 1, 40)) }
    for (rest = text; match(rest, /\]\([^)]*\)/); rest = substr(rest, place)) {
        place = RSTART + RLENGTH
        look_link(substr(rest, RSTART + 2, RLENGTH - 3))
    }
}

# a link, from the folder of the file, and the heading in it
function look_link(path,    folder, head) {
    if (path ~ /^https?:/) return
    cited++
    head = path
    if (!sub(/.*#/, "", head)) head = ""
    sub(/#.*/, "", path)
    folder = file
    if (!sub(/\/[^\/]*$/, "/", folder)) folder = ""
    path = path == "" ? file : folder path
    if (!there(path)) tell(path)
    if (head != "" && !((path, head) in heads)) tell(path "#" head)
}
