# Icarus Verilog's answers to the expressions in icarus.txt, to standard output: for each a line with its left operand, its operator, its right
# operand, and its value as %b prints it. `?:` stands for a choice of the two operands by an unknown condition. The table was made by version
# 11.0; at the repository's root
#
#     sh tests/extension/make.sh | diff tests/extension/icarus.txt -
#
# says whether the version that is installed answers the same. To add an expression, put it on a line of its own, and write the table again.
#
# Left out is a choice with z on both sides at a place: there Icarus gives z, and the standard x (11.4.11). An operand with a size is a variable,
# so that it is extended when the expression is run.
set -eu
export LC_ALL=C
table=$(cd "$(dirname "$0")" && pwd -P)/icarus.txt
work=$(mktemp -d)
trap 'rm -rf "$work"' EXIT

awk '
    function operand(name, text,    parts) {
        if (text ~ /^\047/) return text
        split(text, parts, "\047")
        printf "reg %s [%d:0] %s = %s;\n", (parts[2] ~ /^s/ ? "signed" : ""), parts[1] - 1, name, text
        return name
    }
    BEGIN { print "module expressions;" }
    {
        a = operand("a" NR, $1)
        b = operand("b" NR, $3)
        value = $2 == "?:" ? "1\047bx ? " a " : " b : a " " $2 " " b
        show[NR] = sprintf("$display(\"%s %s %s %%b\", %s);", $1, $2, $3, value)
    }
    END {
        print "initial begin"
        for (k = 1; k <= NR; k++) print show[k]
        print "end\nendmodule"
    }' "$table" >"$work/expressions.v"
iverilog -g2012 -o "$work/expressions" "$work/expressions.v" 2>"$work/said" || { cat "$work/said" >&2 && exit 1; }
vvp -n "$work/expressions"
