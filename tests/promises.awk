# A must-fail edit can name what it breaks, in a line `# breaks: NAME ..`: each NAME must be promised by its crate, as a function, as a theorem (a statement that a
# function without code promises) or as a worked number of specs/. Files come with a mode before them: src, specs, edits.

function tell(what) { print what; faults++ }

# crates/NAME/..
function crate_of(path) { sub(/.*crates\//, "", path); sub(/\/.*/, "", path); return path }

mode == "src" && match($0, /fn [a-z_0-9]+/) { promised[crate_of(FILENAME), substr($0, RSTART + 3, RLENGTH - 3)] = 1; statements = "" }
mode == "src" && /^ *ensures / { sub(/^[^{]*\{/, ""); sub(/\}[^}]*$/, ""); statements = statements " " $0 }
mode == "src" && /^\{\}/ {
    size = split(statements, parts, /[ ()×]+/)
    for (i = 1; i <= size; i++) if (parts[i] ~ /^[A-Z]/) promised[crate_of(FILENAME), parts[i]] = 1
}
mode == "specs" && match($0, /^pub [a-z_0-9]+ :/) { promised[crate_of(FILENAME), substr($0, 5, RLENGTH - 6)] = 1 }
mode == "edits" && /^# breaks: / {
    named++
    size = split(substr($0, 11), parts, " ")
    for (i = 1; i <= size; i++) if (!((crate_of(FILENAME), parts[i]) in promised)) tell(FILENAME ": " crate_of(FILENAME) " does not promise " parts[i])
}
END {
    printf "promises: %d edits name what they break, %d faults\n", named, faults
    exit faults > 0
}
