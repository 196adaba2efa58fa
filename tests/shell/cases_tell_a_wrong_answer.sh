# The program `worked_cases` writes the lines of its tables that are wrong, and counts the others. A wrong line is a right one with one part
# spoiled, so that a program that passes over this part, or is content if another part is right, is found out.
set -u
export LC_ALL=C

# spoil PATTERN EDIT..: the first line of the tables of a kind with that pattern, once with each edit of sed
spoil() {
    line=$(sed -n "/$1/{p;q;}" $tables)
    [ -n "$line" ] || { printf 'no line has %s\n' "$1" && exit 1; }
    shift
    for edit; do
        wrong=$(printf '%s\n' "$line" | sed "$edit")
        [ "$wrong" != "$line" ] || { printf '%s spoils nothing: %s\n' "$edit" "$line" && exit 1; }
        printf '%s\n' "$wrong" >>spoiled
    done
}

# 0 and 1, x and z differ in the value plane alone, 0 and x, 1 and z in the unknown plane alone. An answer of 65 bits has two words.

# the header of an unsigned answer: sign, fill, and the width, since a zero in front leaves the planes as they are
header() { spoil "^u[01xz]* = $1" 's/^u/s/' 's/^u/f/' 's/^u/u0/'; }
# the number of a refusal, its mark, or both; nothing else differs, since a refused call gives bit 0 and a header of zeros, and so is an
# answer without bits read
refusal() { spoil "^!. = $1" 's/!./!9/' 's/!./!/' 's/!//' 's/!.//'; }

# a bit in word 65 of lent planes, where zeros are expected whatever the line says: it tells that planes are compared behind a refusal too
above() { spoil "^!. = $1 1048577:16385:.*:" "s/.*:/&1$(printf %04160d 0)/"; }

# a bit behind the planes of an answer of 3 or 4 bits, in a word that they do not have
behind() { spoil "^u$1 = $2" "s/^u[^ ]*/u${#1}:2:2:1$(printf %0$((64 - ${#1}))d 0)$1/"; }

bits() {
    spoil '^0 = get' 's/^0/1/' 's/^0/x/' 's/^0/10/' 's/^/!/'
    spoil '^z = get' 's/^z/x/' 's/^z/1/'
    spoil '^xz10 = extract64' 's/^x/z/' 's/^x/0/' 's/0 = /1 = /' 's/0 = /x = /'
    spoil '^z0\{64\} = set' 's/^z/x/' 's/^z/1/' 's/0 = /1 = /' 's/0 = /x = /'
    spoil '^0xz0 = splice64' 's/^0/1/' 's/^0/x/'
    spoil '^1000 = splice_bits64 .* 1$' 's/^1/0/' 's/^1/z/' 's/1$/0/'
    spoil '^1000 = splice_bits64 .* 0$' 's/^1/0/' 's/^1/z/' 's/0$/1/'
    spoil '^11x = mask_top' 's/^1/0/' 's/^1/z/' 's/mask_top/mask/'
    spoil '^0000 = set 0000' 's/^/!/' "s/^/1$(printf %060d 0)/"
    refusal 'get 0:0:1:'
    refusal 'extract64 0:0:1:'
    refusal 'set 0:0:1:'
    refusal 'splice64 0:0:1:'
    refusal 'splice_bits64 f0:1:1:'
    refusal 'mask_top 0:0:1:'
    above set
    spoil '^!1 = get 1048577:1:2:' 's/:1:2:/:16386:2:/' 's/:1:2:/:1:16386:/'
}

constructors() {
    header new
    header zero
    header from_u64
    header from_real_wrapped
    spoil '^ux\{65\} = new' 's/^ux/uz/' 's/^ux/u0/' 's/x = /z = /' 's/x = /0 = /'
    spoil '^u000 = zero' 's/^u0/u1/' 's/^u0/ux/'
    spoil '^u101 = from_u64' 's/^u1/u0/' 's/^u1/uz/'
    spoil '^u1\{63\}01 = from_real_wrapped' 's/^u1/u0/' 's/^u1/uz/' 's/1 = /0 = /' 's/1 = /z = /'
    spoil '^u000 = zero' 's/^u000\(.*:\)[^:]*$/!000\1000/'
    refusal 'new 0:0:1:'
    refusal 'zero 0:0:1:'
    refusal 'from_u64 0:0:1:'
    above new
    behind 000 zero
    spoil '= from_real_wrapped' 's/from_real_wrapped/get/' 's/from_real_wrapped/from_real/'
    spoil '^!1 = from_real_wrapped 1048577:16385:16385:' 's/16385:/16386:/' 's/16385:/16386:/2'
}

vectors() {
    for call in bitwise_and bitwise_or bitwise_xor merge_unknown bitwise_not; do header $call; done
    spoil '^s10 = merge_unknown' 's/^s/u/' 's/^s/g/' 's/^s1/s0/' 's/^s1/sz/'
    spoil '^s1x0 = bitwise_not' 's/^s/u/' 's/^s/g/' 's/x/z/' 's/x/0/'
    spoil '^u01xx = bitwise_and' 's/^u0/u1/' 's/^u0/ux/'
    spoil '^u111x = bitwise_or' 's/^u1/u0/' 's/^u1/uz/'
    spoil '^u0x = bitwise_xor' 's/^u0/u1/' 's/^u0/ux/'
    spoil '^u1x0 = bitwise_not 0z1' 's/^u\([^ ]*\)\(.*\) [^ ]*/!\1\2 \1/'
    behind 01xx bitwise_and
    refusal 'bitwise_and 1048577:'
    refusal 'bitwise_not f0:1:1:'
    spoil '= bitwise_not' 's/bitwise_not/get/' 's/bitwise_not/bitwise/'
    spoil '^!1 = bitwise_and 1048577:16385:16385:' 's/16385:/16386:/' 's/16385:/16386:/2'
    spoil '^!2 = bitwise_and 000 3:2:1:0 000' 's/:2:1:/:66:1:/' 's/:2:1:/:1:66:/'
    spoil '^!5 = bitwise_and 000 000 3:2:1:' 's/:2:1:/:66:1:/' 's/:2:1:/:1:66:/'
}

answer_bits() {
    for call in reduce_and reduce_or reduce_xor is_nonzero logic_and logic_or is_equal case_eq casez_eq casex_eq wildcard_eq; do
        spoil "^0 = $call" 's/^0/1/' 's/^0/x/'
        spoil "^1 = $call" 's/^1/0/' 's/^1/z/'
    done
    spoil '^x = reduce_and' 's/^x/z/' 's/^x/0/' 's/^x/1x/'
    spoil '^0 = reduce_and' 's/^/!/'
    refusal reduce_and
    refusal logic_and
    refusal case_eq
    spoil '^1 = is_nonzero x1' 's/is_nonzero/reduce_and/'
    spoil '^1 = wildcard_eq' 's/wildcard_eq/wildcard/'
    spoil '^!1 = reduce_and 1048577:16385:16385:' 's/16385:/16386:/' 's/16385:/16386:/2'
    spoil '^!3 = casez_eq 000 3:1:1:' 's/!3\(.*\):1:1:/!2\1:66:1:/' 's/!3\(.*\):1:1:/!2\1:1:66:/'
}

# the bit, the rule and the place of each rule; a decision that is refused has neither rule nor place
decisions() {
    for call in decide_equal decide_wildcard; do
        spoil "^0 = $call .* 1 1$" 's/^0/1/' 's/^0/x/' 's/1 1$/2 1/' 's/1 1$/257 1/' 's/1$/0/' 's/1$/4294967297/' 's/ 1$//' 's/ 1 1$//'
        spoil "^0 = $call .* 1 69$" 's/1 69$/2 69/' 's/69$/5/' 's/69$/3/'
        spoil "^x = $call .* 2 1$" 's/^x/z/' 's/^x/0/' 's/2 1$/1 1/' 's/1$/0/'
        spoil "^1 = $call .* 3 0$" 's/^1/0/' 's/^1/z/' 's/3 0$/4 0/' 's/0$/1/' 's/^/!/'
        refusal $call
    done
    spoil '^0 = decide_equal r' 's/^0/1/' 's/4 0$/1 0/' 's/4 0$/3 0/' 's/0$/1/'
    spoil '^1 = decide_wildcard xx zx' 's/decide_wildcard/decide_equal/' 's/decide_wildcard/decide/'
    spoil '^x = decide_equal z110 1x10' 's/decide_equal/decide_wildcard/'
    spoil '^!4 = decide_equal 000 ' 's/!4\(.*\) f0:1:1:/!2\1 3:66:1:/' 's/!4\(.*\) f0:1:1:/!2\1 3:1:66:/'
}

# the words of each plane, how many they are, the arm and the condition
arms() {
    spoil '^1x0 = chosen_arm .* 1$' 's/^1/0/' 's/^1/z/' 's/^1x0/3:2:1:1x0/' 's/^1x0/3:1:2:1x0/' 's/1$/0/' 's/1$/x/' 's/ 1$//'
    spoil '^0z11 = chosen_arm .* 0$' 's/^0/1/' 's/^0/x/' 's/m \([^ ]*\) \([^ ]*\)/m \2 \1/' 's/0$/1/' 's/0$/z/' 's/0$/f0:1:1:/'
    spoil '^0:0:0: = chosen_arm 1x0 .* x$' 's/^0:0:0:/0:1:0:/' 's/^0:0:0:/0:0:1:/' 's/^0:0:0:/1x0/' 's/x$/f0:1:1:/'
    spoil '^65:2:2:z1 = ' 's/:2:2:/:1:2:/' 's/:2:2:/:2:1:/' 's/chosen_arm/chosen/'
    spoil '^0:0:0: = chosen_arm 0:0:0: 1x x' 's/m 0:0:0:/m 0:16386:0:/' 's/m 0:0:0:/m 0:0:16386:/' 's/1x/0:66:0:/' 's/1x/0:0:66:/'
}

# work: the program on the tables that stand here
work() { "$BIN/worked_cases" >said || exit 1; }

data=$ROOT/crates/worked_cases/data
for kind in bits constructors vectors answer_bits decisions arms; do
    tables=$(cd "$data" && find worked answers -name "$kind") || exit 1
    cp -R "$data"/* . && : >spoiled || exit 1
    $kind
    for table in $tables; do
        cp -R "$data"/* . && cat spoiled >>"$table" && work || exit 1
        sed -n 's/^differs: //p' said | diff spoiled - || exit 1
        grep -qx "$table: $(wc -l <"$data/$table") agree" said || exit 1
    done
    # where no worked case agrees, nothing is told of the answers
    cp -R "$data"/* . && cp spoiled "worked/$kind" && work || exit 1
    grep -qx "worked/$kind: 0 agree" said && ! grep -q "^answers/$kind:" said || exit 1
done
