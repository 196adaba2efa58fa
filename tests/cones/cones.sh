# The program `cones` on whole files: each NAME.in gives NAME.out, each file in broken/ is refused by 6, then lists that this script makes,
# since they are long, input that comes in pieces, without end or not at all, and output that is not taken. What each has to write is worked
# out without the program.
set -u
export LC_ALL=C
cases=$ROOT/tests/cones
failed=0 count=0
printf 'refused=6\nstep=0\n' >format

# told NAME WANT STATUS [SAID]: the program, which wrote out and err and ended with STATUS, wrote what stands in WANT, and to err what
# stands in SAID, or nothing.
told() {
    count=$((count + 1))
    if ! cmp -s out "$2" || ! cmp -s err "${4-/dev/null}" || [ "$3" -ne 0 ]; then
        failed=$((failed + 1))
        printf '%s: status %s, wrote:\n' "$1" "$3"
        tail -n 4 out err | cut -c 1-100
    fi
}

# gives NAME INPUT WANT
gives() {
    "$BIN/cones" <"$2" >out 2>err
    told "$1" "$3" $?
}

# ---- files
for input in "$cases"/*.in; do
    gives "$input" "$input" "${input%.in}.out"
done
for input in "$cases"/broken/*.in; do
    gives "$input" "$input" format
done
[ "$count" -ge 100 ] || { echo "$count files" && failed=$((failed + 1)); }

# ---- lists that are made here

# digits PATTERN N: the first N characters of the pattern over and over
digits() { awk -v p="$1" -v n="$2" 'BEGIN { for (i = 0; i < n; i++) printf "%s", substr(p, i % length(p) + 1, 1) }'; }
# input KIND BITS
input() { printf 'width=%s\nkind=%s\nbits=%s\n' "${#2}" "$1" "$2"; }
# step OP A B C
step() { printf 'op=%s\na=%s\nb=%s\nc=%s\n' "$@"; }
# begin INPUTS STEPS
begin() { printf 'inputs=%s\nsteps=%s\n' "$1" "$2"; }
# cell NUMBER BITS
cell() { printf 'cell=%s\nbits=%s\n' "$1" "$2"; }

# the widest inputs
for n in 4095 4096; do
    bits=$(digits 01xz1 $n)
    { begin 1 4 && input s "$bits" && step not 0 0 0 && step and 0 0 0 && step rxor 0 0 0 && step ceq 0 0 0; } >list
    {
        cell 1 "$(printf %s "$bits" | tr 01xz 10xx)"
        cell 2 "$(printf %s "$bits" | tr z x)"
        cell 3 x
        cell 4 1
        echo done=4
    } >want
    gives "an input of $n bits" list want
done

# every cell is filled: each step is the xor of an input and the cell before
{
    begin 64 256
    awk 'BEGIN {
        for (k = 0; k < 64; k++) printf "width=1\nkind=u\nbits=%d\n", k % 3 == 1
        for (k = 0; k < 256; k++) printf "op=xor\na=%d\nb=%d\nc=0\n", k % 64, 63 + k
    }'
} >list
awk 'BEGIN {
    for (k = 0; k < 64; k++) bit[k] = k % 3 == 1
    for (k = 0; k < 256; k++) {
        bit[64 + k] = (bit[k % 64] + bit[63 + k]) % 2
        printf "cell=%d\nbits=%d\n", 64 + k, bit[64 + k]
    }
    print "done=256"
}' >want
gives '64 inputs and 256 steps' list want

# not upon not of zeros of a width, then the or of the input's bits, until the 2,048 words of the arenas are full. No input can ask for a
# word too many: the bits in 65,536 bytes take 1,024 words, and 64 inputs at most 64 more. Nor can a list tell scratch planes of 2,048 words
# from others of at least 64 words, which is what the widest result takes.
fills() { # NAME WIDTH NOTS ORS RUN, the number of steps that find room
    awk -v zeros="$(digits 0 "$2")" -v ones="$(digits 1 "$2")" -v nots="$3" -v steps=$(($3 + $4)) -v run="$5" 'BEGIN {
        printf "inputs=1\nsteps=%d\nwidth=%d\nkind=u\nbits=%s\n", steps, length(zeros), zeros >"list"
        for (k = 1; k <= steps; k++) {
            printf "op=%s\na=%d\nb=0\nc=0\n", (k <= nots ? "not" : "ror"), (k <= nots ? k - 1 : 0) >"list"
            if (k <= run) printf "cell=%d\nbits=%s\n", k, (k <= nots ? k % 2 ? ones : zeros : 0) >"want"
        }
        if (run < steps) printf "refused=13\nstep=%d\n", run + 1 >"want"
        else printf "done=%d\n", steps >"want"
    }' || failed=$((failed + 1))
    gives "$1" list want
}
fills '256 cells of 8 words' 449 255 0 255
fills '257 cells of 8 words' 449 256 0 255
fills '257 cells of 7 words' 448 256 0 256
fills '32 cells of 64 words' 4096 31 0 31
fills '33 cells of 64 words' 4096 40 0 31
fills '32 cells of 64 words and one of 1 word' 4096 31 1 31
fills '31 cells of 64 words and 64 of 1 word' 4096 30 64 94
fills '31 cells of 64 words and 65 of 1 word' 4096 30 65 94

# 65,536 bytes, and one more: fifteen inputs of 4,096 bits and one that fills up
sized() { # BYTES
    bits=$(digits 0 4096)
    begin 16 1
    for k in 1 2 3 4 5 6 7 8 9 10 11 12 13 14 15; do input u "$bits"; done
    input u "$(digits 0 $(($1 - 61862)))"
    step ror 15 0 0
}
{ cell 16 0 && echo done=1; } >want
for bytes in 65535 65536 65537; do
    sized $bytes >list
    [ "$(wc -c <list)" -eq $bytes ] || { echo "a list of $(wc -c <list) bytes" && failed=$((failed + 1)); }
    if [ $bytes -le 65536 ]; then
        gives "$bytes bytes" list want
    else
        gives "$bytes bytes" list format
    fi
done
sized 65536 >list
echo >>list
gives '65536 bytes and a line feed' list format

# ---- where the input comes from
gives 'no input' /dev/null format
dd if="$cases/whole_case.in" bs=1 2>dd | "$BIN/cones" >out 2>err
told 'single bytes' "$cases/whole_case.out" $?
{ head -c 21 "$cases/whole_case.in" && sleep 0.2 && tail -c +22 "$cases/whole_case.in" && sleep 0.2; } | "$BIN/cones" >out 2>err
told 'two pieces' "$cases/whole_case.out" $?
sized 65536 >list
{ head -c 40000 list && sleep 0.2 && tail -c +40001 list; } | "$BIN/cones" >out 2>err
told '65536 bytes in pieces' want $?
yes 2>yes | timeout 10 "$BIN/cones" >out 2>err
told 'input without end' format $?

# ---- input that cannot be read: nothing is run, and a line on standard error says so
echo 'cones: standard input cannot be read' >unread
"$BIN/cones" >out 2>err <&-
told 'standard input closed' /dev/null $? unread
"$BIN/cones" >out 2>err <"$cases"
told 'a folder as standard input' /dev/null $? unread

# ---- output that cannot be written: a line on standard error says so
echo 'cones: standard output cannot be written' >unwritten
: >out
"$BIN/cones" <list >/dev/full 2>err
told 'a full device as standard output' /dev/null $? unwritten
"$BIN/cones" <list 2>err >&-
told 'standard output closed' /dev/null $? unwritten
(trap '' XFSZ && ulimit -f 1 && exec "$BIN/cones") <"$cases/one_bit_each.in" >out 2>err
status=$?
head -c "$(wc -c <out)" "$cases/one_bit_each.out" >front
told 'a file that takes the front of the output' front $status unwritten

echo "$count cases, $failed failed"
[ "$failed" -eq 0 ]
