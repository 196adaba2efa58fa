# Every path and every name that docs/PROMISES.md cites in backticks is in the repository. Each that is not is written, with its line.
#
# A path is that of a file or folder, from the root or below crates/; a must-fail edit is cited without `.edit`. crate::name, with modules or types
# between, is a function or type in that crate's sources. A name that follows one of these in a list is looked for there: in that file of
# definitions or laws, in that folder of edits, in that crate's sources. Any other name is a crate, or a function, type, definition, law or test
# anywhere.
set -u
export LC_ALL=C
room=$PWD
cd "$ROOT" || exit 1

# ---- what is there: its kind, where it stands, its name
{
    find .ci crates docs include rust tests 2>"$room/none" | sed 's/^/path - /'
    find crates -name '*.antt' -exec awk '{
        sub(/^ +/, "")
        marks = 0
        while (sub(/^(abbrev|unfoldable|pub|record|data) /, "")) marks++
        # a declaration: its name, then its type; or its name, parameters, and its type
        if (/^[^ ]+ :/ || (marks && /^[^ ]+ [({]/)) print "definition", FILENAME, $1
    }' {} +
    find crates -path '*/src/*' -name '*.rt' -exec awk '{
        gsub(/^ +|pub(\(crate\))? |extern "C" /, "")
        if (!/^(fn|struct|enum|const|mod) /) next
        split($0, word, /[ (:<;{]+/)
        split(FILENAME, part, "/")
        print "source", part[2], word[2]
    }' {} +
    find rust/tests -name '*.rs' -exec sed -n 's/^fn \([a-z0-9_]*\).*/test - \1/p' {} +
} >"$room/there"

# ---- what is cited: its line, what it follows in a list or -, itself
awk '{
    parts = split($0, part, "`")
    for (p = 2; p <= parts; p += 2) {
        if (part[p - 1] !~ /^(,| |and )*$/) before = "-"
        print FNR "\t" before "\t" part[p]
        if (part[p] ~ /\/|::/) before = part[p]
    }
    before = "-"
}' docs/PROMISES.md >"$room/cited"

awk -F '\t' '
function is_path(p) { return ("path", "-", p) in there || ("path", "-", "crates/" p) in there || ("path", "-", "crates/" p ".edit") in there }
# a name of a crate, behind modules and types of that crate
function is_source(cited,   n, k, part) {
    n = split(cited, part, "::")
    for (k = 2; k <= n; k++) if (!(("source", part[1], part[k]) in there)) return 0
    return 1
}
# a name in a list behind a path or a name of a crate
function is_behind(before, name,   part) {
    split(before, part, /\/|::/)
    if (before ~ /::/) return ("source", part[1], name) in there
    if (before ~ /\.antt$/) return ("definition", "crates/" before, name) in there
    if (before ~ /\/must-fail/) return is_path(part[1] "/must-fail/" name)
    return name in anywhere
}
FNR == NR { split($0, word, " "); there[word[1], word[2], word[3]] = 1; if (word[1] != "path") anywhere[word[3]] = 1; next }
{
    cited++
    if ($3 ~ / /) said = "is no name"
    else if ($3 ~ /::/) said = is_source($3) ? "" : "is in no source"
    else if ($3 ~ /\//) said = is_path($3) ? "" : "is no file or folder"
    else if (is_path("crates/" $3)) said = ""
    else if ($2 != "-") said = is_behind($2, $3) ? "" : "is not in " $2
    else said = $3 in anywhere ? "" : "is nowhere"
    if (said != "") { printf "docs/PROMISES.md:%s: %s %s\n", $1, $3, said; missing++ }
}
END {
    printf "%d names cited, %d missing\n", cited, missing
    exit missing > 0 || cited < 300
}' "$room/there" "$room/cited"
