# The front door hands on each entry under its own name: `entries` and `fourstate` are lists of `pub use` without another name, every entry of
# `entries` stands in one module of `fourstate`, with a line of comment, and `fourstate` has no others.
set -u
export LC_ALL=C
entries=$ROOT/crates/entries/src/lib.rt
page=$ROOT/crates/fourstate/src/lib.rt
failed=0

# other FILE LINES: lines of a file that are none of these, empty, a comment or the choice of tactic
other() {
    grep -vE "^($2|\\s*//.*|#!\[tactic\(auto\)\]|)\$" "$1" && printf '%s has other lines\n' "$1" && failed=1
}
# apart FILE: a file with each name of a list in braces on a line of its own
apart() {
    sed -E ':list; /^ *pub use [^;]*$/ { N; s/\n */ /; b list }' "$1" | awk '
        /^ *pub use .*\{.*\};$/ {
            brace = index($0, "{")
            count = split(substr($0, brace + 1, length($0) - brace - 2), name, ",")
            for (i = 1; i <= count; i++) {
                gsub(/^ +| +$/, "", name[i])
                if (name[i] != "") print substr($0, 1, brace - 1) name[i] ";"
            }
            next
        }
        { print }'
}
apart "$entries" >apart_entries
other apart_entries 'pub use [a-z_]+::[A-Za-z0-9_]+;'
other "$page" 'pub mod [a-z]+ \{|\}|    pub use entries::[A-Za-z0-9_]+;'

sed -n 's/^pub use [a-z_]*::\(.*\);/\1/p' apart_entries | sort >listed
sed -n 's/^    pub use entries::\(.*\);/\1/p' "$page" | sort >handed_on
diff listed handed_on || failed=1
awk '/pub use/ && before !~ /^ *\/\// { print FILENAME ": no comment on " $0; failed = 1 } { before = $0 } END { exit failed }' "$page" || failed=1
[ "$(wc -l <listed)" -ge 50 ] || { printf 'there are fewer than 50 entries\n' && failed=1; }
[ "$failed" -eq 0 ]
