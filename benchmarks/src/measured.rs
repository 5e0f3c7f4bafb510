//! The repository's static library `measured`, in a safe function. Its export takes every value of its arguments.

mod raw {
    // A slice crosses as a pointer and a length; the heap's handle has no bytes.
    unsafe extern "C" {
        pub fn measured_splices(
            build: *const u8,
            build_len: usize,
            places: *const usize,
            places_len: usize,
            rounds: usize,
            out: *mut u8,
            out_len: usize,
        ) -> u32;
    }
}

/// The number of a refusal.
#[derive(Debug)]
pub struct Refused(#[expect(dead_code, reason = "printed")] pub u32);

/// In each round, a fresh marked shelf takes `build` as a document and writes eight bytes at each place, each time on the
/// newest document. The fingerprint of the last one.
pub fn splices(build: &[u8], places: &[usize], rounds: usize) -> Result<[u8; 16], Refused> {
    let mut out = [0; 16];
    // SAFETY: each pointer goes with the length of its slice, and `out` is borrowed by nobody else.
    let number = unsafe {
        raw::measured_splices(
            build.as_ptr(),
            build.len(),
            places.as_ptr(),
            places.len(),
            rounds,
            out.as_mut_ptr(),
            out.len(),
        )
    };
    match number {
        0 => Ok(out),
        _ => Err(Refused(number)),
    }
}
