# Makes the replacements of must-fail edits and checks nothing more, in seconds: each `old:` text must stand in its file once, as the replacements before it
# left it, and become another. The edits come as crates/NAME/FOLDER/LABEL.edit.

function tell(what) { printf "%s: %s\n", edit, what; faults++ }

# the text of a file, read once; none where it is not there
function text_of(path,    line, text) {
    if (!(path in texts)) {
        while ((getline line < path) > 0) text = text line "\n"
        close(path)
        texts[path] = text
    }
    return texts[path]
}

function places(part, text,    at, n) {
    while (at = index(text, part)) { n++; text = substr(text, at + 1) }
    return n + 0
}

function ended() { if (edit != "" && !pairs) tell("nothing is replaced") }

FNR == 1 {
    ended()
    edit = crate = FILENAME
    sub(/\/[^\/]*\/[^\/]*$/, "", crate)
    pairs = 0
    old = path = ""
    split("", edited)
    count++
    if (!/^# ./) tell("its first line does not say what is wrong in it")
}
/^file: / {
    path = crate "/" substr($0, 7)
    if (!(path in edited) && (edited[path] = text_of(path)) == "") tell(path " is not there")
}
/^old: / { old = substr($0, 6) }
/^new:/ {
    new = substr($0, 5)
    sub(/^ /, "", new)
    pairs++
    n = old == "" ? 0 : places(old, edited[path])
    if (n != 1) tell(path " has it in " n " places: " old)
    else if (new == old) tell("replaced by itself: " old)
    else {
        at = index(edited[path], old)
        edited[path] = substr(edited[path], 1, at - 1) new substr(edited[path], at + length(old))
    }
    old = ""
}
!/^(#|file: |old: |new:|$)/ { tell("this line is not read: " $0) }
END {
    ended()
    printf "applies: %d edits, %d faults\n", count, faults
    exit faults > 0
}
