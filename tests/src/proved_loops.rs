//! Loops without delay by the proved kernel, from the static library `loop_exports`.

use crate::loops::WORDS;

extern "C" {
    fn gontrafiby_loop(model: *const u8, mlen: usize, out: *mut [u64; WORDS]) -> usize;
}

/// The number of a model; the chain, its length and whether all waits are later are written.
pub fn check(model: &[u8], out: &mut [u64; WORDS]) -> u32 {
    // Safety: the pointer and the length are those of one slice; the last points to as many words as are written.
    let number = unsafe { gontrafiby_loop(model.as_ptr(), model.len(), out) };
    u32::try_from(number).expect("a check's number is small")
}
