//! Bodies in text read by the proved kernel, and made into models, from the static library `read_exports`.

use crate::body::whole::Words;

extern "C" {
    fn gontrafiby_read(
        text: *const u8,
        text_len: usize,
        nodes: *mut u8,
        nodes_len: usize,
        statements: *mut u8,
        statements_len: usize,
        counts: *mut [u64; 2],
    ) -> usize;
    fn gontrafiby_text(
        text: *const u8,
        text_len: usize,
        given: *const u8,
        given_len: usize,
        model: *mut u8,
        model_len: usize,
        counts: *mut [u64; 3],
    ) -> usize;
}

/// What is too large is told as a difference.
fn word(n: u64) -> u32 {
    u32::try_from(n).unwrap_or(u32::MAX)
}

/// Reads a text: the records are written as far as the buffers reach, and the number with how many nodes and statements there are.
pub fn read(text: &[u8], nodes: &mut [u8], statements: &mut [u8], words: &mut [u32; 3]) {
    // Both must be written.
    let mut counts = [u64::MAX; 2];
    // Safety: each pointer and length are those of one slice, the last points to as many words as are written; the mutable ones
    // do not overlap any other.
    let number = unsafe {
        gontrafiby_read(
            text.as_ptr(),
            text.len(),
            nodes.as_mut_ptr(),
            nodes.len(),
            statements.as_mut_ptr(),
            statements.len(),
            &mut counts,
        )
    };
    *words = [word(number as u64), word(counts[0]), word(counts[1])];
}

/// Makes a text and its given records into a model: the blocks are written as far as the buffer reaches, and the number with how many
/// nodes, statements and blocks there are.
pub fn make(text: &[u8], given: &[u8], model: &mut [u8], words: &mut Words) {
    // All must be written.
    let mut counts = [u64::MAX; 3];
    // Safety: each pointer and length are those of one slice, the last points to as many words as are written; the mutable ones
    // do not overlap any other.
    let number = unsafe {
        gontrafiby_text(
            text.as_ptr(),
            text.len(),
            given.as_ptr(),
            given.len(),
            model.as_mut_ptr(),
            model.len(),
            &mut counts,
        )
    };
    let [nodes, statements, blocks] = counts.map(word);
    *words = [word(number as u64), nodes, statements, blocks];
}
