//! The library's functions on slices that the caller lends. All are safe: they test what they are given.
use crate::Refusal;

/// Cells that a script builds in.
pub const SCRIPT_CELLS: usize = 8_192;

/// Bytes that hold the lines of every script.
pub const SCRIPT_ROOM: usize = 284_034;

mod linked {
    // A slice is its pointer and its length. Slices of one call must not overlap, which Rust's references see to.
    extern "C" {
        pub fn tameswulk_fresh(cells: *mut u64, cells_len: usize) -> u64;
        pub fn tameswulk_call(
            cells: *mut u64,
            cells_len: usize,
            mark: u64,
            op: u64,
            par: u64,
            operands: *const u64,
            operands_len: usize,
            told: *mut u64,
            told_len: usize,
        ) -> u64;
        pub fn tameswulk_call_known(
            cells: *mut u64,
            cells_len: usize,
            mark: u64,
            op: u64,
            par: u64,
            operands: *const u64,
            operands_len: usize,
            told: *mut u64,
            told_len: usize,
        ) -> u64;
        pub fn tameswulk_script(
            bytes: *const u8,
            bytes_len: usize,
            cells: *mut u64,
            cells_len: usize,
            out: *mut u8,
            out_len: usize,
        ) -> u64;
    }
}

/// What an accepted call gives.
#[derive(Clone, Copy, Debug, PartialEq, Eq)]
pub struct Accepted {
    /// Where the term or the type starts.
    pub position: u64,
    /// The number of cells used from now on.
    pub mark: u64,
}

fn answered(number: u64, told: [u64; 2]) -> Result<Accepted, Refusal> {
    match number {
        0 => Ok(Accepted { position: told[0], mark: told[1] }),
        n => Err(Refusal::of_number(n).expect("the library's answer is 0 to 9")),
    }
}

/// Makes the cells a fresh arena and gives its mark, or gives nothing and changes nothing for a length outside 12 to 65,536.
pub fn fresh(cells: &mut [u64]) -> Option<u64> {
    // SAFETY: pointer and length are of one slice that is lent for the call; the function has no `requires`.
    match unsafe { linked::tameswulk_fresh(cells.as_mut_ptr(), cells.len()) } {
        0 => None,
        mark => Some(mark),
    }
}

/// One call on any cells with any mark. A refusal leaves every cell.
pub fn call(cells: &mut [u64], mark: u64, operation: u64, parameter: u64, operands: &[u64]) -> Result<Accepted, Refusal> {
    let mut told = [0; 2];
    // SAFETY: three slices that do not overlap, each lent for the call; the function has no `requires`.
    let number = unsafe {
        linked::tameswulk_call(
            cells.as_mut_ptr(),
            cells.len(),
            mark,
            operation,
            parameter,
            operands.as_ptr(),
            operands.len(),
            told.as_mut_ptr(),
            told.len(),
        )
    };
    answered(number, told)
}

/// One call without the test that the cells are a well-formed arena.
///
/// # Safety
///
/// The cells with the mark must be a well-formed arena: left by [`fresh`], or by a call on one.
pub unsafe fn call_known(
    cells: &mut [u64],
    mark: u64,
    operation: u64,
    parameter: u64,
    operands: &[u64],
) -> Result<Accepted, Refusal> {
    let mut told = [0; 2];
    // SAFETY: three slices that do not overlap, each lent for the call; the `requires` is this function's own.
    let number = unsafe {
        linked::tameswulk_call_known(
            cells.as_mut_ptr(),
            cells.len(),
            mark,
            operation,
            parameter,
            operands.as_ptr(),
            operands.len(),
            told.as_mut_ptr(),
            told.len(),
        )
    };
    answered(number, told)
}

/// A whole script: how many bytes its lines have, at the front of `out`. Nothing, with nothing changed, where the cells are not
/// [`SCRIPT_CELLS`] or `out` has fewer bytes than [`SCRIPT_ROOM`].
pub fn script(bytes: &[u8], cells: &mut [u64], out: &mut [u8]) -> Option<usize> {
    // SAFETY: three slices that do not overlap, each lent for the call; the function has no `requires`.
    let count = unsafe {
        linked::tameswulk_script(bytes.as_ptr(), bytes.len(), cells.as_mut_ptr(), cells.len(), out.as_mut_ptr(), out.len())
    };
    match count {
        u64::MAX => None,
        n => Some(n as usize),
    }
}
