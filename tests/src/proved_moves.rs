//! Stored orders moved over by the proved kernel, from the static library `move_exports`.

extern "C" {
    fn gontrafiby_move(
        model: *const u8,
        mlen: usize,
        orders: *const u8,
        olen: usize,
        moved: *mut u8,
        movedlen: usize,
    ) -> usize;
}

/// The number of a move; the moved list is written into the buffer, where it is 0.
pub fn move_over(model: &[u8], orders: &[u8], moved: &mut [u8]) -> u32 {
    // Safety: each pointer and length are those of one slice; the mutable one does not overlap any other.
    let number = unsafe {
        gontrafiby_move(
            model.as_ptr(),
            model.len(),
            orders.as_ptr(),
            orders.len(),
            moved.as_mut_ptr(),
            moved.len(),
        )
    };
    u32::try_from(number).expect("a move's number is small")
}
