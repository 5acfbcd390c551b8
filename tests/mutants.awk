# Draws must-fail edits from a crate's source files: `count` of all changes of one place in a line of code whose text stands in its file once.

# Keeps a change of the line: from `at`, `size` characters become `text`.
function change(at, size, text) { line[++changes] = FNR; path[changes] = FILENAME; new[changes] = substr($0, 1, at - 1) text substr($0, at + size) }

# Each place of a word in the line.
function replace(word, text,    at, from) {
    from = 1
    while (at = index(substr($0, from), word)) {
        change(from + at - 1, length(word), text)
        from += at
    }
}

# Each number that is no part of a name, of a type, of a pattern or of a number with a suffix: one more, and one less.
function numbers(    at, size, from, before, after) {
    from = 1
    while (match(substr($0, from), /[0-9]+/)) {
        at = from + RSTART - 1
        size = RLENGTH
        before = substr($0, at - 1, 1)
        after = substr($0, at + size, 1)
        if (before !~ /[A-Za-z_.]/ && after !~ /[A-Za-z_]/ && substr($0, at - 2, 2) != "; " && substr($0, at + size, 3) != " =>" && size < 10) {
            change(at, size, substr($0, at, size) + 1)
            if (substr($0, at, size) > 0) change(at, size, substr($0, at, size) - 1)
        }
        from = at + size
    }
}

{ text[FILENAME, FNR] = $0; last[FILENAME] = FNR }

/^ *(\/\/|ghost|use|pub|mod|fn|impl|requires|ensures|#|[{}])|io::/ { next }

{
    replace(" < ", " <= ")
    replace(" <= ", " < ")
    replace(" == ", " != ")
    replace(" != ", " == ")
    replace(" + ", " - ")
    replace(" - ", " + ")
    replace("true", "false")
    replace("false", "true")
    numbers()
}

function trimmed(s) { gsub(/^ +/, "", s); return s }

# A text stands in a file once.
function once(file, s,    k, n) {
    for (k = 1; k <= last[file]; k++) n += index(text[file, k], s) > 0
    return n == 1
}

END {
    srand(seed)
    while (drawn < count && changes > 0) {
        c = 1 + int(rand() * changes)
        file = path[c]
        old = trimmed(text[file, line[c]])
        if (once(file, old)) {
            drawn++
            out = crate "/must-fail/" drawn ".edit"
            short = file
            sub(/^.*\/src\//, "src/", short)
            printf "# drawn: line %d\nfile: %s\nold: %s\nnew: %s\n", line[c], short, old, trimmed(new[c]) > out
            close(out)
        }
        line[c] = line[changes]
        path[c] = path[changes]
        new[c] = new[changes]
        changes--
    }
}
