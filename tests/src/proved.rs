//! The proved kernel's functions, from the static libraries `exports` and `dump_exports`.

#[cfg(feature = "session")]
use crate::dump::{pack, DUMP, WORDS};
use crate::values::Functions;

extern "C" {
    fn gontrafiby_resolve(values: *const u32, len: usize) -> u32;
    fn gontrafiby_not(x: u32) -> u32;
    fn gontrafiby_and(x: u32, y: u32) -> u32;
    fn gontrafiby_or(x: u32, y: u32) -> u32;
    fn gontrafiby_xor(x: u32, y: u32) -> u32;
    fn gontrafiby_judge(model: *const u8, len: usize) -> u32;
    #[cfg(feature = "session")]
    fn gontrafiby_session(
        model: *const u8,
        mlen: usize,
        orders: *const u8,
        olen: usize,
        answers: *mut u8,
        alen: usize,
        words: *mut u64,
        wlen: usize,
    ) -> usize;
    #[cfg(feature = "dumps")]
    fn gontrafiby_dump(
        model: *const u8,
        mlen: usize,
        orders: *const u8,
        olen: usize,
        out: *mut u8,
        outlen: usize,
        length: *mut u64,
    ) -> usize;
}

/// The resolution of some values, and the operators, on words.
pub const VALUES: Functions = Functions {
    // Safety: the pointer and the length are those of one slice; the others take numbers.
    resolve: |v| {
        let codes: Vec<u32> = v.iter().map(|&code| code.into()).collect();
        unsafe { gontrafiby_resolve(codes.as_ptr(), codes.len()) }
    },
    not: |x| unsafe { gontrafiby_not(x) },
    and: |x, y| unsafe { gontrafiby_and(x, y) },
    or: |x, y| unsafe { gontrafiby_or(x, y) },
    xor: |x, y| unsafe { gontrafiby_xor(x, y) },
};

/// The first of a model's rules that it breaks, or 0.
pub fn judge(model: &[u8]) -> u32 {
    // Safety: the pointer and the length are those of one slice.
    unsafe { gontrafiby_judge(model.as_ptr(), model.len()) }
}

/// A session's number; the answers and as many words of the end configuration as there is room for are written.
#[cfg(feature = "session")]
pub fn play(model: &[u8], orders: &[u8], answers: &mut [u8], words: &mut [u64]) -> u32 {
    // Safety: each pointer and length are those of one slice; the mutable ones do not overlap any other.
    let number = unsafe {
        gontrafiby_session(
            model.as_ptr(),
            model.len(),
            orders.as_ptr(),
            orders.len(),
            answers.as_mut_ptr(),
            answers.len(),
            words.as_mut_ptr(),
            words.len(),
        )
    };
    u32::try_from(number).expect("a session's number is small")
}

/// The same, with the end configuration in the second kernel's layout; Err where it does not fit there.
#[cfg(feature = "session")]
pub fn session(
    model: &[u8],
    orders: &[u8],
    answers: &mut [u8],
    dump: &mut [u8],
) -> Result<u32, String> {
    let mut words = [u64::MAX; WORDS];
    let number = play(model, orders, answers, &mut words);
    dump[..DUMP].copy_from_slice(&pack(&words)?);
    Ok(number)
}

/// A run's number and the length of its dump, which is written to the front of the buffer.
#[cfg(feature = "dumps")]
pub fn dump(model: &[u8], orders: &[u8], out: &mut [u8]) -> (u32, usize) {
    let mut length = u64::MAX;
    // Safety: each pointer and length are those of one slice; the last points to one word.
    let number = unsafe {
        gontrafiby_dump(
            model.as_ptr(),
            model.len(),
            orders.as_ptr(),
            orders.len(),
            out.as_mut_ptr(),
            out.len(),
            &mut length,
        )
    };
    let number = u32::try_from(number).expect("a run's number is small");
    (
        number,
        usize::try_from(length).expect("a dump's length is a size"),
    )
}
