//! libstdc++'s rope, `cpp/rope.cpp`.

use std::time::Duration;

mod raw {
    unsafe extern "C" {
        pub fn crope_splices(
            text: *const u8,
            text_len: usize,
            stamp: *const u8,
            stamp_len: usize,
            places: *const usize,
            places_len: usize,
            out: *mut u8,
        ) -> u64;
    }
}

/// Writes `stamp` at each place, each time on the newest version, with every version kept. The last version, and the time
/// that the splices took.
pub fn splices(text: &[u8], stamp: &[u8], places: &[usize]) -> (Vec<u8>, Duration) {
    assert!(places.iter().all(|a| a + stamp.len() <= text.len()));
    let mut last = vec![0; text.len()];
    // SAFETY: each pointer goes with the length of its slice; every place lies within the text, so each version has its
    // length, and `last` has room for the last one.
    let nanoseconds = unsafe {
        raw::crope_splices(
            text.as_ptr(),
            text.len(),
            stamp.as_ptr(),
            stamp.len(),
            places.as_ptr(),
            places.len(),
            last.as_mut_ptr(),
        )
    };
    (last, Duration::from_nanos(nanoseconds))
}
