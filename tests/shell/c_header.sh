# include/vowherunga.h is what the static libraries export. A C program that calls them by it gets the right answers; the header, the binding's
# declarations and the crates' exports have the same functions, parameters and structs; the archives export these functions and no others; the
# header's numbers are the binding's, and those of refusals, ops and rules the definitions'.
set -u
export LC_ALL=C
header=$ROOT/include/vowherunga.h
failed=0

# same ONE OTHER: two lists have the same lines
same() {
    sort "$1" >sorted && sort "$2" | diff sorted - >difference && return
    printf '%s and %s differ:\n' "$1" "$2" && cat difference && failed=1
}

# ---- calls
set --
for library in ffi ffi_answers ffi_decide ffi_decide_vectors ffi_decide_wildcard ffi_arm ffi_words ffi_literal ffi_store ffi_run; do
    set -- "$@" "$ROOT/target/staticlib/lib$library.a"
done
gcc -std=c11 -Wall -Wextra -Werror -pedantic -I "$ROOT/include" "$ROOT/tests/c/calls.c" "$@" -o calls && ./calls || failed=1
if command -v g++ >compiler; then
    g++ -std=c++11 -Wall -Wextra -Werror -pedantic -fsyntax-only -x c++ "$header" || failed=1
fi

# ---- what each declares

# flat: the text without comments and lifetimes, on one line, without blanks in front of brackets and inside them
flat() { sed "s,//.*,,; s/<'a>//; s/&'a /\&/g" | tr -s ' \n' ' ' | sed 's/ *\([({]\) */\1/g; s/,* *\([)}]\)/\1/g'; }
# in_c: each function and each struct of flat Rust or Rattle as a line of C. A slice is a pointer and a length; `alike!` gives one list of
# parameters to several names, of which each run has an answer behind it; a function is brought to that form.
in_c() {
    grep -aoE 'fn vowherunga_\w+\([^)]*\) -> \w+|alike!\{\w+: [^(]*\([^)]*\)|#\[repr\(C\)\] [^{]*\{[^}]*\}' | sed -E '
        s/^fn (\w+)(.*) -> (\w+)$/\1 -> \3:\2/; s/^alike!\{\w+: //
        s/(\w+): &\[(\w+)\]/\1: *const \2, \1_len: usize/g
        s/(\w+): &mut \[(\w+)\]/\1: *mut \2, \1_len: usize/g
        s/(\w+): (\*|&)mut \[(\w+); (\w+)\]/\3 \1[\4]/g
        s/(\w+): \*const (\w+)/const \2 *\1/g
        s/(\w+): \*mut (\w+)/\2 *\1/g
        s/(\w+): (\w+)/\2 \1/g
        s/\b([A-Z][a-z]+)([A-Z][a-z]+)\b/vowherunga_\L\1_\2/g
        s/\b(Header|Word)\b/vowherunga_\L\1/g
        s/\bu(8|32|64)\b/uint\1_t/g; s/\busize\b/size_t/g; s/\bf64\b/double/g
        s/.*struct (\w+)\{(.*)\}/typedef struct{\2;} \1;/
        /^typedef/s/pub //g; /^typedef/s/,/;/g' | awk '
        /^typedef/ { print; next }
        {
            parameters = $0
            sub(/^[^(]*/, "", parameters)
            sub(/:\(.*/, "")
            gsub(/,/, "")
            for (i = 1; i <= NF; i++) {
                if ($i != "->") name[++count] = $i
                else for (i++; count > 0; count--) print $i " " name[count] parameters ";"
            }
        }'
}
# the header as a compiler reads it
gcc -std=c11 -E -P "$header" | sed 's/\b_Bool\b/bool/g' | flat >flat_header
find "$ROOT/rust/src" -name '*.rs' -exec cat {} + | flat >flat_binding
find "$ROOT"/crates/*/src -name '*.rt' -exec cat {} + | flat >flat_crates

# constants: names with their numbers, as the header has them
constants() { sed -E 's/[A-Z]/_&/g; s/^(\w+)/VOWHERUNGA\U\1/'; }

# ---- numbers: the constants, and the codes of bits, refusals, ops and rules
grep -oE 'VOWHERUNGA_[A-Z0-9_]+ = [0-9]+' flat_header >header_numbers
{
    grep -oE 'pub const [A-Z0-9_]+: u[a-z0-9]+ = [0-9_]+' flat_binding |
        sed -E 's/pub const (\w+): \w+ = /VOWHERUNGA_\1 = /; s/([0-9])_/\1/g'
    {
        grep -oE 'pub enum (LogicBit|Refusal|Op)\{[^}]*\}' flat_binding | sed 's/pub enum //; s/LogicBit/Bit/' | awk -F'[{},]' '{
            for (i = 2; i < NF; i++) {
                gsub(/ /, "", $i)
                sub(/=/, " = ", $i)
                print $1 $i
            }
        }'
        grep -oE '[0-9]+ => Rule::\w+' flat_binding | sed -E 's/([0-9]+) => Rule::(\w+)/Rule\2 = \1/'
    } | constants
} >binding_numbers
same header_numbers binding_numbers
# and those of refusals, ops and rules are the ones of the definitions
grep -E 'VOWHERUNGA_(REFUSAL|OP|RULE)_' header_numbers >header_codes
sed -nE '
    s/^refusal_number (\w+) = ([0-9]+)$/Refusal\1 = \2/p
    s/^op_code (\w+) = ([0-9]+)$/Op\1 = \2/p
    s/^rule_number \(?(\w+)( \w+\))? = ([0-9]+)$/Rule\1 = \3/p' \
    "$ROOT/crates/refusal/specs/Refusals.antt" "$ROOT/crates/ops/specs/Names.antt" "$ROOT/crates/abi/specs/Coded.antt" |
    constants >defined_codes
same header_codes defined_codes
sed -n 's/^\(VOWHERUNGA_\)\(MAX_CELLS\|OUTPUT_BYTES\) = \(.*\)/s,\\b\\(\1\\)*\2\\b,\3,g/p' header_numbers >lengths

# ---- functions and structs
grep -oE '\w+ vowherunga_\w+\([^)]*\);|typedef struct\{[^}]*\} vowherunga_\w+;' flat_header | sed -f lengths >header
in_c <flat_binding | sed -f lengths >binding
in_c <flat_crates >crates
same header binding
same header crates

# ---- names in the archives
nm -g --defined-only "$@" | sed -n 's/^[0-9a-f]* T //p' >archives
sed -n 's/.* \(vowherunga_[a-z0-9_]*\)(.*/\1/p' header >names
same names archives

# nothing was passed over
for list in 'names 53' 'header 63' 'header_numbers 41'; do
    [ "$(wc -l <"${list% *}")" -ge "${list#* }" ] || { printf 'there are fewer %s\n' "$list" && failed=1; }
done
[ "$failed" -eq 0 ]
