//! The exports of the crates `ffi_store` and `ffi_run`, as C sees them: an array is a pointer, an op its code. A store goes over as its number
//! of cells and an array of each part of a cell, which are written.
use crate::steps::OUTPUT_BYTES;
use crate::store::MAX_CELLS;
use crate::Header;

/// Where the call is done, the store has cell + 1 cells.
#[repr(C)]
pub struct CellResult {
    pub refusal: u8,
    pub cell: usize,
}

/// The answer of `vowherunga_add_step` to a code that is no op's, which no refusal has for its number. Nothing is changed then.
pub const NO_SUCH_OP: u8 = 255;

/// How many cells the store has, how many bytes were written, and how the run ended: refusal 0 and the number of steps done, or a refusal and
/// its step, 0 for the text or an input. The arrays are written unless the text is no step list (refusal 6).
#[repr(C)]
pub struct RunResult {
    pub count: usize,
    pub length: usize,
    pub refusal: u8,
    pub step: u32,
}

extern "C" {
    pub fn vowherunga_add_input(
        count: usize,
        starts: *mut [usize; MAX_CELLS],
        widths: *mut [u32; MAX_CELLS],
        signs: *mut [bool; MAX_CELLS],
        fills: *mut [bool; MAX_CELLS],
        h: Header,
        value: *const u64,
        value_len: usize,
        unknown: *const u64,
        unknown_len: usize,
        arena_value: *mut u64,
        arena_value_len: usize,
        arena_unknown: *mut u64,
        arena_unknown_len: usize,
    ) -> CellResult;

    pub fn vowherunga_add_step(
        count: usize,
        starts: *mut [usize; MAX_CELLS],
        widths: *mut [u32; MAX_CELLS],
        signs: *mut [bool; MAX_CELLS],
        fills: *mut [bool; MAX_CELLS],
        op: u8,
        a: u32,
        b: u32,
        c: u32,
        arena_value: *mut u64,
        arena_value_len: usize,
        arena_unknown: *mut u64,
        arena_unknown_len: usize,
        scratch_value: *mut u64,
        scratch_value_len: usize,
        scratch_unknown: *mut u64,
        scratch_unknown_len: usize,
    ) -> CellResult;

    pub fn vowherunga_run(
        text: *const u8,
        text_len: usize,
        arena_value: *mut u64,
        arena_value_len: usize,
        arena_unknown: *mut u64,
        arena_unknown_len: usize,
        scratch_value: *mut u64,
        scratch_value_len: usize,
        scratch_unknown: *mut u64,
        scratch_unknown_len: usize,
        starts: *mut [usize; MAX_CELLS],
        widths: *mut [u32; MAX_CELLS],
        signs: *mut [bool; MAX_CELLS],
        fills: *mut [bool; MAX_CELLS],
        out: *mut [u8; OUTPUT_BYTES],
    ) -> RunResult;
}
