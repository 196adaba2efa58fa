// Four-state vectors (0, 1, x, z) for C: the exports of the proved library.
//
// A vector is a header and two planes of 64-bit words, value and unknown. Bit i is bit i mod 64 of word i div 64 of each plane: 0 is stored
// as (0,0), 1 as (1,0), x as (0,1) and z as (1,1); bits at or above the width are 0. A plane has exactly the larger of 1 and width / 64,
// rounded up, words. Each plane is passed as a pointer and its number of words.
//
// Whatever the numbers and words are, a call gives its result, or the number of one refusal and then nothing that it was lent has changed; the run
// of a step list, below, keeps what it did before a refusal and writes its output either way. What C cannot say is asked of the caller: a
// pointer is not null and points to as many elements as it says, also where that is none; what is written overlaps nothing else that is
// passed; a bool is false or true.
#ifndef VOWHERUNGA_H
#define VOWHERUNGA_H

#include <stdbool.h>
#include <stddef.h>
#include <stdint.h>

#ifdef __cplusplus
extern "C" {
#endif

enum {
    VOWHERUNGA_MAX_WIDTH = 1048576,   // bits of the widest vector
    VOWHERUNGA_MAX_CELLS = 320,       // places of a store
    VOWHERUNGA_OUTPUT_BYTES = 1052436 // bytes of the buffer of a run, in which every output has room
};

// The code of a bit. A truth is false, true or unknown by the codes of 0, 1 and x.
enum {
    VOWHERUNGA_BIT_ZERO = 0,
    VOWHERUNGA_BIT_ONE = 1,
    VOWHERUNGA_BIT_X = 2,
    VOWHERUNGA_BIT_Z = 3
};

// Why a call was not done; 0 is done.
enum {
    VOWHERUNGA_REFUSAL_TOO_WIDE = 1,        // the width is above 1,048,576
    VOWHERUNGA_REFUSAL_PLANE_LENGTH = 2,    // a plane does not have exactly the words of its width, or a real comes with words
    VOWHERUNGA_REFUSAL_BIT_ABOVE_WIDTH = 3, // a bit is set at or above the width
    VOWHERUNGA_REFUSAL_EMPTY_FILL = 4,      // a fill has width 0
    VOWHERUNGA_REFUSAL_OUTPUT_LENGTH = 5,   // an output plane does not have exactly the words of the result, or an output text its bytes
    VOWHERUNGA_REFUSAL_BAD_FORMAT = 6,      // the text is no step list, or it is longer than 65,536 bytes
    VOWHERUNGA_REFUSAL_BAD_ARMS = 7,        // the arms of a selection differ in width, or one of them is a fill
    VOWHERUNGA_REFUSAL_NO_SUCH_CELL = 11,   // an operand names a cell that is not filled
    VOWHERUNGA_REFUSAL_STORE_FULL = 12,     // all 320 cells of the store are filled
    VOWHERUNGA_REFUSAL_NO_ROOM = 13,        // an arena behind the last cell, or a scratch plane, has too few words for the new cell
    VOWHERUNGA_REFUSAL_BAD_STORE = 14,      // the arenas differ in length, or the store does not agree with them
    VOWHERUNGA_REFUSAL_BAD_LITERAL = 15     // the text is no sized literal, or the vector to write is a fill or not 1 to 4,096 bits wide
};

// The code of an op, with its name in a step list; never reused and never shifted.
enum {
    VOWHERUNGA_OP_AND = 0,             // and
    VOWHERUNGA_OP_OR = 1,              // or
    VOWHERUNGA_OP_XOR = 2,             // xor
    VOWHERUNGA_OP_NOT = 3,             // not
    VOWHERUNGA_OP_MERGE = 4,           // mrg
    VOWHERUNGA_OP_REDUCE_AND = 5,      // rand
    VOWHERUNGA_OP_REDUCE_OR = 6,       // ror
    VOWHERUNGA_OP_REDUCE_XOR = 7,      // rxor
    VOWHERUNGA_OP_EQUAL = 8,           // eq
    VOWHERUNGA_OP_CASE_EQUAL = 9,      // ceq
    VOWHERUNGA_OP_CASEZ_EQUAL = 10,    // cz
    VOWHERUNGA_OP_CASEX_EQUAL = 11,    // cx
    VOWHERUNGA_OP_WILDCARD_EQUAL = 12, // weq
    VOWHERUNGA_OP_LOGIC_AND = 13,      // land
    VOWHERUNGA_OP_LOGIC_OR = 14,       // lor
    VOWHERUNGA_OP_SELECT = 15,         // sel
    VOWHERUNGA_OP_INSERT = 16          // ins
};

// The number of the rule that decided a comparison.
enum {
    VOWHERUNGA_RULE_KNOWN_MISMATCH = 1, // the place is the lowest compared one where both bits are known and differ; the bit is 0
    VOWHERUNGA_RULE_UNKNOWN = 2,        // there is no such place, and it is the lowest compared one where a bit is unknown; the bit is x
    VOWHERUNGA_RULE_ALL_EQUAL = 3,      // every compared place holds two equal known bits, or none is compared; the bit is 1
    VOWHERUNGA_RULE_NUMERIC = 4         // an operand is a real
};

// What vowherunga_add_step answers in place of a refusal to a code that is no op's; nothing changes then.
enum { VOWHERUNGA_NO_SUCH_OP = 255 };

// A vector's width and marks. Every operator of two vectors (and, or, xor, merge, equality, the case forms, wildcard equality) reads them
// alike, at the larger width. A fill is stretched: all its bits become its bit 0, and it is then unsigned. The shorter vector is extended by its
// top bit, x and z too, if both are signed, else by 0; an empty one by 0. Elsewhere, but for equality with a real, a fill is its own bits.
typedef struct {
    uint32_t width;
    bool is_signed;
    bool is_fill;
} vowherunga_header;

// A word of the value plane and the word of the unknown plane beside it.
typedef struct {
    uint64_t value;
    uint64_t unknown;
} vowherunga_word;

// In each result below that has one, `refusal` is 0 where the call was done; but for a run's, the other fields are 0 where it was not.

// The code of a bit or of a truth.
typedef struct {
    uint8_t refusal;
    uint8_t bit;
} vowherunga_bit_result;

// The code of a comparison's bit, the number of the rule that decided it, and the place that the rule tells, counted from bit 0; 0 if it tells
// none.
typedef struct {
    uint8_t refusal;
    uint8_t bit;
    uint8_t rule;
    uint32_t place;
} vowherunga_decision_result;

// A word of each plane.
typedef struct {
    uint8_t refusal;
    uint64_t value;
    uint64_t unknown;
} vowherunga_word_result;

// The header of the vector that was written, or of a literal's vector.
typedef struct {
    uint8_t refusal;
    uint32_t width;
    bool is_signed;
    bool is_fill;
} vowherunga_header_result;

// How many bytes a text has.
typedef struct {
    uint8_t refusal;
    size_t length;
} vowherunga_length_result;

// A part of one of two planes: whether of the second, and how many words it has, from that plane's beginning on.
typedef struct {
    bool is_second;
    size_t length;
} vowherunga_arm_result;

// The number of the new cell: the store has one cell more than that.
typedef struct {
    uint8_t refusal;
    size_t cell;
} vowherunga_cell_result;

// How many cells the store has after a run, how many bytes were written, and how it ended: `step` is the number of steps done where `refusal` is
// 0, else the refused step, from 1, or 0 for the text or an input.
typedef struct {
    size_t count;
    size_t length;
    uint8_t refusal;
    uint32_t step;
} vowherunga_run_result;

// ---- Bits and words of planes: refused by 1, 2, 3, in this order.

// Bit i; 0 at or above the width.
vowherunga_bit_result vowherunga_get(uint32_t width, const uint64_t *value, size_t value_len, const uint64_t *unknown, size_t unknown_len,
                                     size_t i);

// Makes bit i the bit of a code, taken modulo 4; at or above the width nothing changes. The refusal's number.
uint8_t vowherunga_set(uint32_t width, uint64_t *value, size_t value_len, uint64_t *unknown, size_t unknown_len, size_t i, uint8_t bit);

// Puts the lowest bits of a word in from pos on: the least of n, 64 and the width minus pos of them. The refusal's number.
uint8_t vowherunga_splice64(uint32_t width, uint64_t *value, size_t value_len, uint64_t *unknown, size_t unknown_len, size_t pos,
                            uint64_t bits_value, uint64_t bits_unknown, size_t n);

// The n bits from pos on, at most 64; 0 beyond the width.
vowherunga_word_result vowherunga_extract64(uint32_t width, const uint64_t *value, size_t value_len, const uint64_t *unknown,
                                            size_t unknown_len, size_t pos, size_t n);

// Clears the bits at or above the width, at width 0 none; never refused by 3. The refusal's number.
uint8_t vowherunga_mask_top(uint32_t width, uint64_t *value, size_t value_len, uint64_t *unknown, size_t unknown_len);

// Whether header and planes are a vector, as every operator asks of an operand: 0, or 1, 2, 3, 4, in this order.
uint8_t vowherunga_check_vector(vowherunga_header h, const uint64_t *value, size_t value_len, const uint64_t *unknown, size_t unknown_len);

// ---- Constructors: the result is unsigned and no fill, a width above the widest becomes that, and 5 is the only refusal.

// All x.
vowherunga_header_result vowherunga_new(uint32_t width, uint64_t *value, size_t value_len, uint64_t *unknown, size_t unknown_len);

// All 0.
vowherunga_header_result vowherunga_zero(uint32_t width, uint64_t *value, size_t value_len, uint64_t *unknown, size_t unknown_len);

// The bits of a number.
vowherunga_header_result vowherunga_from_u64(uint64_t val, uint32_t width, uint64_t *value, size_t value_len, uint64_t *unknown,
                                             size_t unknown_len);

// ---- Operators whose result is a vector: refused by 1 to 4 for the left operand, then for the right one, then by 5.

// A bit is 0 if either is 0, 1 if both are 1, else x. The result is unsigned, even of two signed operands.
vowherunga_header_result vowherunga_bitwise_and(vowherunga_header a, const uint64_t *av, size_t av_len, const uint64_t *au, size_t au_len,
                                                vowherunga_header b, const uint64_t *bv, size_t bv_len, const uint64_t *bu, size_t bu_len,
                                                uint64_t *ov, size_t ov_len, uint64_t *ou, size_t ou_len);

// A bit is 1 if either is 1, 0 if both are 0, else x. The result is unsigned.
vowherunga_header_result vowherunga_bitwise_or(vowherunga_header a, const uint64_t *av, size_t av_len, const uint64_t *au, size_t au_len,
                                               vowherunga_header b, const uint64_t *bv, size_t bv_len, const uint64_t *bu, size_t bu_len,
                                               uint64_t *ov, size_t ov_len, uint64_t *ou, size_t ou_len);

// A bit is x if either is unknown, else 1 if they differ, else 0. The result is unsigned.
vowherunga_header_result vowherunga_bitwise_xor(vowherunga_header a, const uint64_t *av, size_t av_len, const uint64_t *au, size_t au_len,
                                                vowherunga_header b, const uint64_t *bv, size_t bv_len, const uint64_t *bu, size_t bu_len,
                                                uint64_t *ov, size_t ov_len, uint64_t *ou, size_t ou_len);

// A bit stands if both are known and equal, else it is x. The result is signed if both operands are and neither is a fill.
vowherunga_header_result vowherunga_merge_unknown(vowherunga_header a, const uint64_t *av, size_t av_len, const uint64_t *au, size_t au_len,
                                                  vowherunga_header b, const uint64_t *bv, size_t bv_len, const uint64_t *bu, size_t bu_len,
                                                  uint64_t *ov, size_t ov_len, uint64_t *ou, size_t ou_len);

// 0 gives 1, 1 gives 0, x and z give x. Width and sign are kept; the result is no fill.
vowherunga_header_result vowherunga_bitwise_not(vowherunga_header a, const uint64_t *av, size_t av_len, const uint64_t *au, size_t au_len,
                                                uint64_t *ov, size_t ov_len, uint64_t *ou, size_t ou_len);

// As vowherunga_splice64, on a vector by its header: bit is 1 where a bit changed, else 0.
vowherunga_bit_result vowherunga_splice_bits64(vowherunga_header a, uint64_t *value, size_t value_len, uint64_t *unknown, size_t unknown_len,
                                               size_t pos, uint64_t bits_value, uint64_t bits_unknown, size_t n);

// The real rounded, halves away from zero, modulo 2 to the width; 0 if infinite or NaN. Width 0 is taken as 1; refused by 1, then by 5.
vowherunga_header_result vowherunga_from_real_wrapped(double f, uint32_t width, uint64_t *value, size_t value_len, uint64_t *unknown,
                                                      size_t unknown_len);

// ---- Operators whose answer is a bit, or a bit and the rule behind it: refused by 1 to 4 for the left operand, then for the right one. An
// operand that is_real is the real beside it, with planes of no words; its header is of no account, nor is the real of another.

// 0 on any known 0, else x on any unknown bit, else 1.
vowherunga_bit_result vowherunga_reduce_and(vowherunga_header a, const uint64_t *value, size_t value_len, const uint64_t *unknown,
                                            size_t unknown_len);

// 1 on any known 1, else x on any unknown bit, else 0.
vowherunga_bit_result vowherunga_reduce_or(vowherunga_header a, const uint64_t *value, size_t value_len, const uint64_t *unknown,
                                           size_t unknown_len);

// x on any unknown bit, else whether the number of ones is odd.
vowherunga_bit_result vowherunga_reduce_xor(vowherunga_header a, const uint64_t *value, size_t value_len, const uint64_t *unknown,
                                            size_t unknown_len);

// True on a known 1, else unknown on an unknown bit, else false; a real is true if it is not equal to 0.
vowherunga_bit_result vowherunga_is_nonzero(bool a_is_real, vowherunga_header a, double a_real, const uint64_t *value, size_t value_len,
                                            const uint64_t *unknown, size_t unknown_len);

// 0 if either is false, 1 if both are true, else x.
vowherunga_bit_result vowherunga_logic_and(bool a_is_real, vowherunga_header a, double a_real, const uint64_t *av, size_t av_len,
                                           const uint64_t *au, size_t au_len, bool b_is_real, vowherunga_header b, double b_real,
                                           const uint64_t *bv, size_t bv_len, const uint64_t *bu, size_t bu_len);

// 1 if either is true, 0 if both are false, else x.
vowherunga_bit_result vowherunga_logic_or(bool a_is_real, vowherunga_header a, double a_real, const uint64_t *av, size_t av_len,
                                          const uint64_t *au, size_t au_len, bool b_is_real, vowherunga_header b, double b_real,
                                          const uint64_t *bv, size_t bv_len, const uint64_t *bu, size_t bu_len);

// 0 if some place holds two different known bits, else x if an operand has an unknown bit, else 1. Beside a real a vector is the number of its
// low 64 bits; a fill is then stretched to the larger of 64 and its width.
vowherunga_bit_result vowherunga_is_equal(bool a_is_real, vowherunga_header a, double a_real, const uint64_t *av, size_t av_len,
                                          const uint64_t *au, size_t au_len, bool b_is_real, vowherunga_header b, double b_real,
                                          const uint64_t *bv, size_t bv_len, const uint64_t *bu, size_t bu_len);

// vowherunga_is_equal of two vectors.
vowherunga_bit_result vowherunga_equal_vectors(vowherunga_header a, const uint64_t *av, size_t av_len, const uint64_t *au, size_t au_len,
                                               vowherunga_header b, const uint64_t *bv, size_t bv_len, const uint64_t *bu, size_t bu_len);

// 1 if the bits are the same, x and z too, else 0.
vowherunga_bit_result vowherunga_case_eq(vowherunga_header a, const uint64_t *av, size_t av_len, const uint64_t *au, size_t au_len,
                                         vowherunga_header b, const uint64_t *bv, size_t bv_len, const uint64_t *bu, size_t bu_len);

// As vowherunga_case_eq, but for places that hold z on either side.
vowherunga_bit_result vowherunga_casez_eq(vowherunga_header a, const uint64_t *av, size_t av_len, const uint64_t *au, size_t au_len,
                                          vowherunga_header b, const uint64_t *bv, size_t bv_len, const uint64_t *bu, size_t bu_len);

// As vowherunga_case_eq, but for places that hold x or z on either side.
vowherunga_bit_result vowherunga_casex_eq(vowherunga_header a, const uint64_t *av, size_t av_len, const uint64_t *au, size_t au_len,
                                          vowherunga_header b, const uint64_t *bv, size_t bv_len, const uint64_t *bu, size_t bu_len);

// Of the places where the right side is known: 0 if one holds two different known bits, else x if the left side has an unknown bit there,
// else 1.
vowherunga_bit_result vowherunga_wildcard_eq(vowherunga_header a, const uint64_t *av, size_t av_len, const uint64_t *au, size_t au_len,
                                             vowherunga_header b, const uint64_t *bv, size_t bv_len, const uint64_t *bu, size_t bu_len);

// The bit of vowherunga_is_equal and the rule that decided it; of two vectors all places are compared, as they are read for the bit.
vowherunga_decision_result vowherunga_decide_equal(bool a_is_real, vowherunga_header a, double a_real, const uint64_t *av, size_t av_len,
                                                   const uint64_t *au, size_t au_len, bool b_is_real, vowherunga_header b, double b_real,
                                                   const uint64_t *bv, size_t bv_len, const uint64_t *bu, size_t bu_len);

// vowherunga_decide_equal of two vectors.
vowherunga_decision_result vowherunga_decide_equal_vectors(vowherunga_header a, const uint64_t *av, size_t av_len, const uint64_t *au,
                                                           size_t au_len, vowherunga_header b, const uint64_t *bv, size_t bv_len,
                                                           const uint64_t *bu, size_t bu_len);

// The bit of vowherunga_wildcard_eq and the rule that decided it; the places are compared where the right side is known.
vowherunga_decision_result vowherunga_decide_wildcard(vowherunga_header a, const uint64_t *av, size_t av_len, const uint64_t *au,
                                                      size_t au_len, vowherunga_header b, const uint64_t *bv, size_t bv_len,
                                                      const uint64_t *bu, size_t bu_len);

// ---- The arm that a condition picks, as a part of the caller's own plane. Nothing is copied, read or refused, whatever lengths the planes have.

// `first` and `second` are one plane of each arm, so a vector takes two calls. The code of a truth picks all of the first if it is 1, all of the
// second if it is 0, and the empty beginning of the first if it is 2 or 3, which are unknown; it is taken modulo 4. Of the answer r the part is
// r.length words from `r.is_second ? second : first` on, never more than that plane has. Length 0 is unknown, or a chosen plane without words.
vowherunga_arm_result vowherunga_chosen_arm(uint8_t truth, const uint64_t *first, size_t first_len, const uint64_t *second,
                                            size_t second_len);

// ---- Word forms: the operators on vectors of at most 64 bits by value, without a check. They see neither widths nor marks: two operands are
// extended by 0, and no fill is stretched. So they stand for the operators where neither operand is a fill and the two are not both signed
// and of two widths.

// vowherunga_bitwise_and.
vowherunga_word vowherunga_and_word(vowherunga_word a, vowherunga_word b);

// vowherunga_bitwise_or.
vowherunga_word vowherunga_or_word(vowherunga_word a, vowherunga_word b);

// vowherunga_bitwise_xor.
vowherunga_word vowherunga_xor_word(vowherunga_word a, vowherunga_word b);

// vowherunga_merge_unknown.
vowherunga_word vowherunga_merge_word(vowherunga_word a, vowherunga_word b);

// vowherunga_bitwise_not; a width above 64 is taken as 64.
vowherunga_word vowherunga_not_word(uint32_t width, vowherunga_word a);

// vowherunga_reduce_and, the code of the bit; a width above 64 is taken as 64.
uint8_t vowherunga_reduce_and_word(uint32_t width, vowherunga_word a);

// vowherunga_reduce_or, the code of the bit.
uint8_t vowherunga_reduce_or_word(vowherunga_word a);

// vowherunga_reduce_xor, the code of the bit.
uint8_t vowherunga_reduce_xor_word(vowherunga_word a);

// vowherunga_is_nonzero, the code of the truth.
uint8_t vowherunga_truth_word(vowherunga_word a);

// vowherunga_is_equal, the code of the bit.
uint8_t vowherunga_is_equal_word(vowherunga_word a, vowherunga_word b);

// vowherunga_case_eq, the code of the bit.
uint8_t vowherunga_case_eq_word(vowherunga_word a, vowherunga_word b);

// vowherunga_casez_eq, the code of the bit.
uint8_t vowherunga_casez_eq_word(vowherunga_word a, vowherunga_word b);

// vowherunga_casex_eq, the code of the bit.
uint8_t vowherunga_casex_eq_word(vowherunga_word a, vowherunga_word b);

// vowherunga_wildcard_eq, the code of the bit.
uint8_t vowherunga_wildcard_eq_word(vowherunga_word a, vowherunga_word b);

// ---- The cell store: `count` cells, and for each place its start word in the two arenas, its width and its marks. The cells' words lie from
// word 0 on without gaps. A store of no cells is empty, whatever the arrays hold.

// Adds a vector as the next cell: its words are copied into both arenas behind the last cell's. Refused by 14, 12, 1 to 4, then 13.
vowherunga_cell_result vowherunga_add_input(size_t count, size_t starts[VOWHERUNGA_MAX_CELLS], uint32_t widths[VOWHERUNGA_MAX_CELLS],
                                            bool signs[VOWHERUNGA_MAX_CELLS], bool fills[VOWHERUNGA_MAX_CELLS], vowherunga_header h,
                                            const uint64_t *value, size_t value_len, const uint64_t *unknown, size_t unknown_len,
                                            uint64_t *arena_value, size_t arena_value_len, uint64_t *arena_unknown,
                                            size_t arena_unknown_len);

// Adds the result of a step, an op by its code on the cells a, b and c, as the next cell, by way of the scratch planes. Refused by 14, 12, 11,
// 7, then 13; 255 for a code that is no op's.
vowherunga_cell_result vowherunga_add_step(size_t count, size_t starts[VOWHERUNGA_MAX_CELLS], uint32_t widths[VOWHERUNGA_MAX_CELLS],
                                           bool signs[VOWHERUNGA_MAX_CELLS], bool fills[VOWHERUNGA_MAX_CELLS], uint8_t op, uint32_t a,
                                           uint32_t b, uint32_t c, uint64_t *arena_value, size_t arena_value_len, uint64_t *arena_unknown,
                                           size_t arena_unknown_len, uint64_t *scratch_value, size_t scratch_value_len,
                                           uint64_t *scratch_unknown, size_t scratch_unknown_len);

// Runs the step list of a text from an empty store. The output stands at the front of `out`; the arrays get the store that the run leaves,
// unless the text is no step list. A run that is refused at an input or a step leaves what those before it have filled.
vowherunga_run_result vowherunga_run(const uint8_t *text, size_t text_len, uint64_t *arena_value, size_t arena_value_len,
                                     uint64_t *arena_unknown, size_t arena_unknown_len, uint64_t *scratch_value, size_t scratch_value_len,
                                     uint64_t *scratch_unknown, size_t scratch_unknown_len, size_t starts[VOWHERUNGA_MAX_CELLS],
                                     uint32_t widths[VOWHERUNGA_MAX_CELLS], bool signs[VOWHERUNGA_MAX_CELLS],
                                     bool fills[VOWHERUNGA_MAX_CELLS], uint8_t out[VOWHERUNGA_OUTPUT_BYTES]);

// ---- Sized literals of IEEE 1800-2017, 5.7.1, such as 8'hzx: a size of 1 to 4,096 without a leading 0, an apostrophe, an optional s, a base
// (b, o, d or h) and any number of digits, letters in either case, with x and z or ?; a decimal has digits alone or is a single x or z.
// Underscores may stand behind the first digit of size and value, white space nowhere. Too few digits are extended by x or z if the first is
// one, else by 0; of too many the upper bits go. A text is its bytes alone, with no 0 behind them.

// The header of a literal's vector, which is signed if there is an s, and no fill. Refused by 15.
vowherunga_header_result vowherunga_literal_header(const uint8_t *text, size_t text_len);

// Writes a literal's vector into planes of exactly the words of its size. Refused by 15, then by 5.
vowherunga_header_result vowherunga_read_literal(const uint8_t *text, size_t text_len, uint64_t *ov, size_t ov_len, uint64_t *ou,
                                                 size_t ou_len);

// How long the literal of a vector is. Refused by 1, 4, then by 15 for another fill and for a width that is not 1 to 4,096.
vowherunga_length_result vowherunga_literal_length(vowherunga_header h);

// Writes a vector as a binary literal, a digit for each bit, into a text that is exactly as long; reading it gives the same vector. Refused by 1
// to 4, 15, then by 5. The refusal's number.
uint8_t vowherunga_write_literal(vowherunga_header h, const uint64_t *value, size_t value_len, const uint64_t *unknown, size_t unknown_len,
                                 uint8_t *text, size_t text_len);

#ifdef __cplusplus
}
#endif

#endif
