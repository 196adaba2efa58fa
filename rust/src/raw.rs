//! The exports of the crates `ffi..` as C sees them: a slice is a pointer and a length, a bit its code, a refusal its number (0: done). Nothing
//! holds these declarations to the crates but the tests: they stand in their order, with their names, and tests/shell/c_header.sh compares
//! them with the exports and with include/vowherunga.h. The exports of `ffi_store` and `ffi_run` stand in [`store`]; those of
//! `ffi_bit_by_bit`, which are for comparisons alone and in no header, in `reference::bit_by_bit`. Public for the tests alone, which hand over what the
//! binding's types rule out.
use crate::{Header, Word};

pub mod store;

#[repr(C)]
pub struct BitResult {
    pub refusal: u8,
    pub bit: u8,
}

#[repr(C)]
pub struct DecisionResult {
    pub refusal: u8,
    pub bit: u8,
    pub rule: u8,
    pub place: u32,
}

#[repr(C)]
pub struct WordResult {
    pub refusal: u8,
    pub value: u64,
    pub unknown: u64,
}

#[repr(C)]
pub struct HeaderResult {
    pub refusal: u8,
    pub width: u32,
    pub is_signed: bool,
    pub is_fill: bool,
}

#[repr(C)]
pub struct LengthResult {
    pub refusal: u8,
    pub length: usize,
}

#[repr(C)]
pub struct ArmResult {
    pub is_second: bool,
    pub length: usize,
}

// ffi/src/bit_calls.rt
extern "C" {
    pub fn vowherunga_get(width: u32, value: *const u64, value_len: usize, unknown: *const u64, unknown_len: usize, i: usize) -> BitResult;

    pub fn vowherunga_set(width: u32, value: *mut u64, value_len: usize, unknown: *mut u64, unknown_len: usize, i: usize, bit: u8) -> u8;

    pub fn vowherunga_splice64(
        width: u32,
        value: *mut u64,
        value_len: usize,
        unknown: *mut u64,
        unknown_len: usize,
        pos: usize,
        bits_value: u64,
        bits_unknown: u64,
        n: usize,
    ) -> u8;

    pub fn vowherunga_extract64(
        width: u32,
        value: *const u64,
        value_len: usize,
        unknown: *const u64,
        unknown_len: usize,
        pos: usize,
        n: usize,
    ) -> WordResult;

    pub fn vowherunga_mask_top(width: u32, value: *mut u64, value_len: usize, unknown: *mut u64, unknown_len: usize) -> u8;

    pub fn vowherunga_check_vector(h: Header, value: *const u64, value_len: usize, unknown: *const u64, unknown_len: usize) -> u8;

    pub fn vowherunga_new(width: u32, value: *mut u64, value_len: usize, unknown: *mut u64, unknown_len: usize) -> HeaderResult;

    pub fn vowherunga_zero(width: u32, value: *mut u64, value_len: usize, unknown: *mut u64, unknown_len: usize) -> HeaderResult;

    pub fn vowherunga_from_u64(
        val: u64,
        width: u32,
        value: *mut u64,
        value_len: usize,
        unknown: *mut u64,
        unknown_len: usize,
    ) -> HeaderResult;
}

/// Declares exports that have one list of parameters, and the type of a pointer to one that gives an answer, the first one if none is named.
macro_rules! alike {
    ($kind:ident: $($name:ident),* -> $answer:ty $(, $($other:ident),* -> $another:ty)?: $parameters:tt) => {
        pub type $kind<A = $answer> = unsafe extern "C" fn $parameters -> A;
        extern "C" {
            $(pub fn $name $parameters -> $answer;)*
            $($(pub fn $other $parameters -> $another;)*)?
        }
    };
}

// ffi/src/vectors.rt
alike! {
    VectorOfTwo: vowherunga_bitwise_and, vowherunga_bitwise_or, vowherunga_bitwise_xor, vowherunga_merge_unknown -> HeaderResult: (
        a: Header,
        av: *const u64, av_len: usize,
        au: *const u64, au_len: usize,
        b: Header,
        bv: *const u64, bv_len: usize,
        bu: *const u64, bu_len: usize,
        ov: *mut u64, ov_len: usize,
        ou: *mut u64, ou_len: usize
    )
}

extern "C" {
    pub fn vowherunga_bitwise_not(
        a: Header,
        av: *const u64,
        av_len: usize,
        au: *const u64,
        au_len: usize,
        ov: *mut u64,
        ov_len: usize,
        ou: *mut u64,
        ou_len: usize,
    ) -> HeaderResult;

    pub fn vowherunga_splice_bits64(
        a: Header,
        value: *mut u64,
        value_len: usize,
        unknown: *mut u64,
        unknown_len: usize,
        pos: usize,
        bits_value: u64,
        bits_unknown: u64,
        n: usize,
    ) -> BitResult;

    pub fn vowherunga_from_real_wrapped(
        f: f64,
        width: u32,
        value: *mut u64,
        value_len: usize,
        unknown: *mut u64,
        unknown_len: usize,
    ) -> HeaderResult;
}

// ffi_answers/src/lib.rt, and the decisions of ffi_decide, ffi_decide_vectors and ffi_decide_wildcard
alike! {
    BitOfOne: vowherunga_reduce_and, vowherunga_reduce_or, vowherunga_reduce_xor -> BitResult: (
        a: Header,
        value: *const u64, value_len: usize,
        unknown: *const u64, unknown_len: usize
    )
}

extern "C" {
    pub fn vowherunga_is_nonzero(
        a_is_real: bool,
        a: Header,
        a_real: f64,
        value: *const u64,
        value_len: usize,
        unknown: *const u64,
        unknown_len: usize,
    ) -> BitResult;
}

alike! {
    OfOperands: vowherunga_logic_and, vowherunga_logic_or, vowherunga_is_equal -> BitResult, vowherunga_decide_equal -> DecisionResult: (
        a_is_real: bool, a: Header, a_real: f64,
        av: *const u64, av_len: usize,
        au: *const u64, au_len: usize,
        b_is_real: bool, b: Header, b_real: f64,
        bv: *const u64, bv_len: usize,
        bu: *const u64, bu_len: usize
    )
}

alike! {
    OfVectors: vowherunga_equal_vectors, vowherunga_case_eq, vowherunga_casez_eq, vowherunga_casex_eq, vowherunga_wildcard_eq -> BitResult,
    vowherunga_decide_equal_vectors, vowherunga_decide_wildcard -> DecisionResult: (
        a: Header,
        av: *const u64, av_len: usize,
        au: *const u64, au_len: usize,
        b: Header,
        bv: *const u64, bv_len: usize,
        bu: *const u64, bu_len: usize
    )
}

// ffi_arm/src/lib.rt
extern "C" {
    pub fn vowherunga_chosen_arm(truth: u8, first: *const u64, first_len: usize, second: *const u64, second_len: usize) -> ArmResult;
}

// ffi_words/src/lib.rt
alike! {
    WordOfTwo: vowherunga_and_word, vowherunga_or_word, vowherunga_xor_word, vowherunga_merge_word -> Word: (a: Word, b: Word)
}

extern "C" {
    pub fn vowherunga_not_word(width: u32, a: Word) -> Word;

    pub fn vowherunga_reduce_and_word(width: u32, a: Word) -> u8;

    pub fn vowherunga_reduce_or_word(a: Word) -> u8;

    pub fn vowherunga_reduce_xor_word(a: Word) -> u8;

    pub fn vowherunga_truth_word(a: Word) -> u8;
}

alike! {
    CodeOfTwo: vowherunga_is_equal_word, vowherunga_case_eq_word, vowherunga_casez_eq_word, vowherunga_casex_eq_word,
    vowherunga_wildcard_eq_word -> u8: (a: Word, b: Word)
}

// ffi_literal/src/lib.rt
extern "C" {
    pub fn vowherunga_literal_header(text: *const u8, text_len: usize) -> HeaderResult;

    pub fn vowherunga_read_literal(
        text: *const u8,
        text_len: usize,
        ov: *mut u64,
        ov_len: usize,
        ou: *mut u64,
        ou_len: usize,
    ) -> HeaderResult;

    pub fn vowherunga_literal_length(h: Header) -> LengthResult;

    pub fn vowherunga_write_literal(
        h: Header,
        value: *const u64,
        value_len: usize,
        unknown: *const u64,
        unknown_len: usize,
        text: *mut u8,
        text_len: usize,
    ) -> u8;
}
