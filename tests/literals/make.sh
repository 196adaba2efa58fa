# Icarus Verilog's reading of the literals in icarus.txt, to standard output: for each a line with the literal, s if it is signed, else u, and its
# bits as %b prints them. The table was made by version 11.0; at the repository's root
#
#     sh tests/literals/make.sh | diff tests/literals/icarus.txt -
#
# says whether the version that is installed reads the same. To add a literal, put it on a line of its own, and write the table again.
#
# Left out is what Icarus takes and the library refuses: white space inside a literal, a size with a leading 0, above 4,096 or, as 4294967304'hff,
# taken modulo 2 to the 32. The widest is 256 bits: Icarus 11.0 stops at a %b of 4,096.
set -eu
export LC_ALL=C
table=$(cd "$(dirname "$0")" && pwd -P)/icarus.txt
work=$(mktemp -d)
trap 'rm -rf "$work"' EXIT

# A literal is signed if a choice between it and a signed 0 is; then that 0 is above -1, which is all ones otherwise.
sed 's/ .*//' "$table" | awk '
    BEGIN { print "module literals;\ninitial begin" }
    { printf "$display(\"%s %%s %%b\", (1\047b1 ? 2\047sd0 : %s) > -2\047sd1 ? \"s\" : \"u\", %s);\n", $0, $0, $0 }
    END { print "end\nendmodule" }' >"$work/literals.v"
iverilog -g2012 -o "$work/literals" "$work/literals.v" 2>"$work/said" || { cat "$work/said" >&2 && exit 1; }
vvp -n "$work/literals"
