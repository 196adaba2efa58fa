// Calls from C: each struct passes by value, each kind of pointer reaches its memory, and the results are those of document 01.
#include "vowherunga.h"
#include <stdio.h>
#include <string.h>

static int failed = 0;

#define EXPECT(condition) ((condition) ? (void)0 : (void)(failed = 1, printf("line %d: not so: %s\n", __LINE__, #condition)))

static const vowherunga_header none = {0, false, false};
static const vowherunga_header four = {4, false, false};
static const vowherunga_header signed_one = {1, true, false};
static const vowherunga_header signed_two = {2, true, false};
static const vowherunga_header fill_one = {1, false, true};

// Bits and words of 01xz with a z put above it.
static void planes(void)
{
    uint64_t v[2] = {5, 0}, u[2] = {3, 0};
    EXPECT(vowherunga_set(66, v, 2, u, 2, 65, VOWHERUNGA_BIT_Z) == 0);
    EXPECT(v[0] == 5 && v[1] == 2 && u[0] == 3 && u[1] == 2);
    vowherunga_bit_result bit = vowherunga_get(66, v, 2, u, 2, 1);
    EXPECT(bit.refusal == 0 && bit.bit == VOWHERUNGA_BIT_X);
    vowherunga_word_result word = vowherunga_extract64(66, v, 2, u, 2, 2, 64);
    EXPECT(word.refusal == 0 && word.value == 0x8000000000000001u && word.unknown == 0x8000000000000000u);
    word = vowherunga_extract64(66, v, 2, u, 1, 2, 64);
    EXPECT(word.refusal == VOWHERUNGA_REFUSAL_PLANE_LENGTH && word.value == 0 && word.unknown == 0);
    EXPECT(vowherunga_check_vector((vowherunga_header){0, false, true}, v + 2, 0, u + 2, 0) == VOWHERUNGA_REFUSAL_PLANE_LENGTH);
    EXPECT(vowherunga_check_vector((vowherunga_header){2, true, true}, u, 1, v + 1, 1) == 0);
}

// 01xz and 1111; a signed 1, whose header comes back and which is extended beside a signed 00; a fill; a real.
static void operators(void)
{
    const uint64_t av[1] = {5}, au[1] = {3}, bv[1] = {15}, bu[1] = {0}, one[1] = {1};
    uint64_t ov[2] = {7, 7}, ou[2] = {9, 9};
    vowherunga_header_result h = vowherunga_bitwise_and(four, av, 1, au, 1, four, bv, 1, bu, 1, ov, 1, ou, 1);
    EXPECT(h.refusal == 0 && h.width == 4 && !h.is_signed && !h.is_fill);
    EXPECT(ov[0] == 4 && ou[0] == 3 && ov[1] == 7 && ou[1] == 9);
    h = vowherunga_bitwise_and(four, av, 1, au, 1, four, bv, 1, bu, 1, ov, 2, ou, 1);
    EXPECT(h.refusal == VOWHERUNGA_REFUSAL_OUTPUT_LENGTH && h.width == 0 && ov[0] == 4);
    h = vowherunga_merge_unknown(signed_one, one, 1, bu, 1, signed_one, one, 1, bu, 1, ov, 1, ou, 1);
    EXPECT(h.refusal == 0 && h.width == 1 && h.is_signed && !h.is_fill && ov[0] == 1 && ou[0] == 0);
    h = vowherunga_bitwise_or(signed_one, one, 1, bu, 1, signed_two, bu, 1, bu, 1, ov, 1, ou, 1);
    EXPECT(h.refusal == 0 && h.width == 2 && !h.is_signed && !h.is_fill && ov[0] == 3 && ou[0] == 0);
    h = vowherunga_merge_unknown(four, bv, 1, bu, 1, fill_one, one, 1, bu, 1, ov, 1, ou, 1);
    EXPECT(h.refusal == 0 && h.width == 4 && !h.is_signed && !h.is_fill && ov[0] == 15 && ou[0] == 0);
    h = vowherunga_from_real_wrapped(2.5, 4, ov, 1, ou, 1);
    EXPECT(h.refusal == 0 && h.width == 4 && ov[0] == 3 && ou[0] == 0);

    vowherunga_bit_result bit = vowherunga_is_equal(false, four, 0.0, bv, 1, bu, 1, true, none, 15.0, ov, 0, ou, 0);
    EXPECT(bit.refusal == 0 && bit.bit == VOWHERUNGA_BIT_ONE);
    bit = vowherunga_is_equal(true, none, 14.0, ov, 0, ou, 0, false, four, 15.0, bv, 1, bu, 1);
    EXPECT(bit.refusal == 0 && bit.bit == VOWHERUNGA_BIT_ZERO);
    bit = vowherunga_is_equal(false, signed_one, 0.0, one, 1, bu, 1, true, none, -1.0, ov, 0, ou, 0);
    EXPECT(bit.refusal == 0 && bit.bit == VOWHERUNGA_BIT_ONE);
    bit = vowherunga_wildcard_eq(four, av, 1, au, 1, four, av, 1, bu, 1);
    EXPECT(bit.refusal == 0 && bit.bit == VOWHERUNGA_BIT_X);
    bit = vowherunga_wildcard_eq(four, bv, 1, bu, 1, fill_one, one, 1, bu, 1);
    EXPECT(bit.refusal == 0 && bit.bit == VOWHERUNGA_BIT_ONE);

    vowherunga_word word = vowherunga_and_word((vowherunga_word){5, 3}, (vowherunga_word){15, 0});
    EXPECT(word.value == 4 && word.unknown == 3);
    EXPECT(vowherunga_reduce_and_word(4, (vowherunga_word){15, 0}) == VOWHERUNGA_BIT_ONE);
}

// Whether a call was done and gave this.
static bool decided(vowherunga_decision_result d, uint8_t bit, uint8_t rule, uint32_t place)
{
    return d.refusal == 0 && d.bit == bit && d.rule == rule && d.place == place;
}

// 01xz beside 1101, 11x1, 01x1 and itself; a vector of 66 bits whose top bit is z; a signed 1, extended beside a signed 0x; reals beside 1111.
static void decisions(void)
{
    const uint64_t av[1] = {5}, au[1] = {3}, bv[1] = {13}, bu[1] = {2}, zero[2] = {0, 0}, top[2] = {0, 2}, ones[1] = {15}, one[1] = {1};
    const vowherunga_header wide = {66, false, false};
    vowherunga_decision_result d = vowherunga_decide_equal_vectors(four, av, 1, au, 1, four, bv, 1, zero, 1);
    EXPECT(decided(d, VOWHERUNGA_BIT_ZERO, VOWHERUNGA_RULE_KNOWN_MISMATCH, 3));
    d = vowherunga_decide_equal_vectors(wide, top, 2, top, 2, wide, zero, 2, zero, 2);
    EXPECT(decided(d, VOWHERUNGA_BIT_X, VOWHERUNGA_RULE_UNKNOWN, 65));
    d = vowherunga_decide_equal_vectors(four, bv, 1, zero, 1, four, bv, 1, zero, 1);
    EXPECT(decided(d, VOWHERUNGA_BIT_ONE, VOWHERUNGA_RULE_ALL_EQUAL, 0));
    d = vowherunga_decide_equal_vectors(four, av, 1, au, 1, wide, top, 1, top, 2);
    EXPECT(d.refusal == VOWHERUNGA_REFUSAL_PLANE_LENGTH && d.bit == 0 && d.rule == 0 && d.place == 0);

    d = vowherunga_decide_wildcard(four, av, 1, au, 1, four, bv, 1, bu, 1);
    EXPECT(decided(d, VOWHERUNGA_BIT_ZERO, VOWHERUNGA_RULE_KNOWN_MISMATCH, 3));
    d = vowherunga_decide_wildcard(four, av, 1, au, 1, four, av, 1, bu, 1);
    EXPECT(decided(d, VOWHERUNGA_BIT_X, VOWHERUNGA_RULE_UNKNOWN, 0));
    d = vowherunga_decide_wildcard(four, av, 1, au, 1, four, av, 1, au, 1);
    EXPECT(decided(d, VOWHERUNGA_BIT_ONE, VOWHERUNGA_RULE_ALL_EQUAL, 0));
    d = vowherunga_decide_wildcard(signed_one, bu, 1, zero, 1, four, av, 1, au, 1);
    EXPECT(d.refusal == VOWHERUNGA_REFUSAL_BIT_ABOVE_WIDTH && d.bit == 0 && d.rule == 0 && d.place == 0);

    d = vowherunga_decide_equal(false, signed_one, 0.0, one, 1, zero, 1, false, signed_two, 0.0, zero, 1, one, 1);
    EXPECT(decided(d, VOWHERUNGA_BIT_ZERO, VOWHERUNGA_RULE_KNOWN_MISMATCH, 1));
    d = vowherunga_decide_equal(false, four, 0.0, ones, 1, zero, 1, true, none, 15.0, zero, 0, zero, 0);
    EXPECT(decided(d, VOWHERUNGA_BIT_ONE, VOWHERUNGA_RULE_NUMERIC, 0));
    d = vowherunga_decide_equal(true, none, 14.0, zero, 0, zero, 0, false, four, 15.0, ones, 1, zero, 1);
    EXPECT(decided(d, VOWHERUNGA_BIT_ZERO, VOWHERUNGA_RULE_NUMERIC, 0));
    d = vowherunga_decide_equal(true, none, 14.0, zero, 0, zero, 1, false, four, 15.0, ones, 1, zero, 1);
    EXPECT(d.refusal == VOWHERUNGA_REFUSAL_PLANE_LENGTH && d.bit == 0 && d.rule == 0 && d.place == 0);
}

// Whether an answer tells so many words of the first arm, or of the second.
static bool part(vowherunga_arm_result r, bool is_second, size_t length)
{
    return r.is_second == is_second && r.length == length;
}

// Planes of three words and of one, and empty ones; the part that is told; the truth of 0x, which is unknown; codes above 3.
static void arms(void)
{
    const uint64_t first[3] = {1, 2, 3}, second[1] = {4}, zero[1] = {0}, one[1] = {1};
    EXPECT(part(vowherunga_chosen_arm(VOWHERUNGA_BIT_ONE, first, 3, second, 1), false, 3));
    EXPECT(part(vowherunga_chosen_arm(VOWHERUNGA_BIT_ZERO, first, 3, second, 1), true, 1));
    EXPECT(part(vowherunga_chosen_arm(VOWHERUNGA_BIT_X, first, 3, second, 1), false, 0));
    EXPECT(part(vowherunga_chosen_arm(VOWHERUNGA_BIT_Z, first, 3, second, 1), false, 0));
    EXPECT(part(vowherunga_chosen_arm(VOWHERUNGA_BIT_ONE, first, 0, second, 1), false, 0));
    EXPECT(part(vowherunga_chosen_arm(VOWHERUNGA_BIT_ZERO, first, 3, second, 0), true, 0));
    vowherunga_arm_result r = vowherunga_chosen_arm(VOWHERUNGA_BIT_ONE, first, 3, second, 1);
    const uint64_t *chosen = r.is_second ? second : first;
    EXPECT(chosen == first && chosen[r.length - 1] == 3);
    EXPECT(part(vowherunga_chosen_arm(4, first, 3, second, 1), true, 1));
    EXPECT(part(vowherunga_chosen_arm(253, first, 3, second, 1), false, 3));
    vowherunga_bit_result truth = vowherunga_is_nonzero(false, signed_two, 0.0, zero, 1, one, 1);
    EXPECT(truth.refusal == 0 && part(vowherunga_chosen_arm(truth.bit, first, 3, second, 1), false, 0));
}

static size_t starts[VOWHERUNGA_MAX_CELLS];
static uint32_t widths[VOWHERUNGA_MAX_CELLS];
static bool signs[VOWHERUNGA_MAX_CELLS];
static bool fills[VOWHERUNGA_MAX_CELLS];

// 1x as a signed cell and as a fill, then the or of both: the fill is stretched to xx, which gives 1x.
static void store(void)
{
    const uint64_t v[1] = {2}, u[1] = {1};
    uint64_t av[3] = {7, 7, 7}, au[3] = {9, 9, 9}, sv[2] = {7, 7}, su[2] = {9, 9};
    const vowherunga_header h = {2, true, false}, fill = {2, false, true};
    vowherunga_cell_result r = vowherunga_add_input(0, starts, widths, signs, fills, h, v, 1, u, 1, av, 3, au, 3);
    EXPECT(r.refusal == 0 && r.cell == 0);
    r = vowherunga_add_input(1, starts, widths, signs, fills, fill, v, 1, u, 1, av, 3, au, 3);
    EXPECT(r.refusal == 0 && r.cell == 1);
    r = vowherunga_add_step(2, starts, widths, signs, fills, VOWHERUNGA_OP_OR, 0, 1, 0, av, 3, au, 3, sv, 2, su, 2);
    EXPECT(r.refusal == 0 && r.cell == 2);
    EXPECT(starts[1] == 1 && starts[2] == 2 && widths[0] == 2 && widths[2] == 2);
    EXPECT(signs[0] && !signs[1] && !signs[2] && !fills[0] && fills[1] && !fills[2]);
    EXPECT(av[1] == 2 && au[1] == 1 && av[2] == 2 && au[2] == 1 && sv[0] == 2 && su[0] == 1 && sv[1] == 7 && su[1] == 9);
    r = vowherunga_add_step(3, starts, widths, signs, fills, VOWHERUNGA_OP_NOT, 0, 0, 0, av, 3, au, 3, sv, 2, su, 2);
    EXPECT(r.refusal == VOWHERUNGA_REFUSAL_NO_ROOM && r.cell == 0);
    r = vowherunga_add_step(2, starts, widths, signs, fills, VOWHERUNGA_OP_INSERT + 1, 0, 0, 0, av, 3, au, 3, sv, 2, su, 2);
    EXPECT(r.refusal == VOWHERUNGA_NO_SUCH_OP && av[2] == 2 && au[2] == 1 && starts[2] == 2);
}

static uint8_t out[VOWHERUNGA_OUTPUT_BYTES];

// A run of a text, whose output is compared.
static vowherunga_run_result run(const char *text, const char *output)
{
    uint64_t av[4] = {0}, au[4] = {0}, sv[1] = {0}, su[1] = {0};
    vowherunga_run_result r =
        vowherunga_run((const uint8_t *)text, strlen(text), av, 4, au, 4, sv, 1, su, 1, starts, widths, signs, fills, out);
    EXPECT(r.length == strlen(output) && memcmp(out, output, r.length) == 0);
    return r;
}

// The whole case of document 01, a step that names no cell, and a text that is no list.
static void runs(void)
{
    const char *whole = "inputs=2\nsteps=2\nwidth=2\nkind=u\nbits=1x\nwidth=2\nkind=u\nbits=01\n"
                        "op=and\na=0\nb=1\nc=0\nop=ror\na=2\nb=0\nc=0\n";
    vowherunga_run_result r = run(whole, "cell=2\nbits=0x\ncell=3\nbits=x\ndone=2\n");
    EXPECT(r.count == 4 && r.refusal == 0 && r.step == 2);
    EXPECT(starts[3] == 3 && widths[2] == 2 && widths[3] == 1);
    r = run("inputs=1\nsteps=2\nwidth=1\nkind=s\nbits=z\nop=not\na=0\nb=0\nc=0\nop=not\na=2\nb=0\nc=0\n",
            "cell=1\nbits=x\nrefused=11\nstep=2\n");
    EXPECT(r.count == 2 && r.refusal == VOWHERUNGA_REFUSAL_NO_SUCH_CELL && r.step == 2 && signs[0] && signs[1]);
    r = run("inputs=1\n", "refused=6\nstep=0\n");
    EXPECT(r.count == 0 && r.refusal == VOWHERUNGA_REFUSAL_BAD_FORMAT && r.step == 0 && signs[0] && signs[1]);
}

// 8'Shzx read, and written again; a text that is no literal, a text too short, and a vector that has no literal.
static void literals(void)
{
    const uint8_t *source = (const uint8_t *)"8'Shzx";
    uint64_t v[2] = {7, 7}, u[2] = {9, 9};
    uint8_t text[13] = "............";
    vowherunga_header_result h = vowherunga_literal_header(source, 6);
    EXPECT(h.refusal == 0 && h.width == 8 && h.is_signed && !h.is_fill);
    h = vowherunga_read_literal(source, 6, v, 1, u, 1);
    EXPECT(h.refusal == 0 && h.width == 8 && h.is_signed && !h.is_fill);
    EXPECT(v[0] == 0xf0 && u[0] == 0xff && v[1] == 7 && u[1] == 9);
    h = vowherunga_read_literal(source, 6, v, 2, u, 1);
    EXPECT(h.refusal == VOWHERUNGA_REFUSAL_OUTPUT_LENGTH && h.width == 0 && !h.is_signed);
    h = vowherunga_read_literal(source, 4, v, 1, u, 1);
    EXPECT(h.refusal == VOWHERUNGA_REFUSAL_BAD_LITERAL && v[0] == 0xf0 && u[0] == 0xff);

    const vowherunga_header signed_eight = {8, true, false}, fill = {8, false, true};
    vowherunga_length_result n = vowherunga_literal_length(signed_eight);
    EXPECT(n.refusal == 0 && n.length == 12);
    n = vowherunga_literal_length(fill);
    EXPECT(n.refusal == VOWHERUNGA_REFUSAL_BAD_LITERAL && n.length == 0);
    EXPECT(vowherunga_write_literal(signed_eight, v, 1, u, 1, text, 11) == VOWHERUNGA_REFUSAL_OUTPUT_LENGTH && text[0] == '.');
    EXPECT(vowherunga_write_literal(signed_eight, v, 1, u, 1, text, 12) == 0 && strcmp((const char *)text, "8'sbzzzzxxxx") == 0);
}

int main(void)
{
    planes();
    operators();
    decisions();
    arms();
    store();
    runs();
    literals();
    return failed;
}
