//! The functions of libvault.a over slices. All `unsafe` of the package is here.
//!
//! The library asks of a pointer that it is valid for its length and never null, and that no input overlaps the output.
//! A slice has such a pointer, also an empty one, and `out` is borrowed alone. Nothing else is asked.

use std::ops::Range;

use crate::Refusal;

/// The most bytes that the answer to a call of a script has, and the least room for one.
pub const MOST_ANSWER: usize = 4_102;

/// The most bytes that a script has.
pub const MOST_SCRIPT: usize = 16_384;

/// How far [`run_script`] came.
#[derive(Clone, Copy, Debug, PartialEq, Eq)]
pub struct Run {
    /// How many bytes of answers stand at the buffer's start.
    pub len: usize,
    /// The place in the script behind the last call that was run: the script's length where all were.
    pub next: usize,
}

// The declarations of ../vault.h.

#[repr(C)]
struct VaultAnswer {
    refusal: u32,
    len: usize,
}

#[repr(C)]
struct VaultRun {
    refusal: u32,
    len: usize,
    next: usize,
}

unsafe extern "C" {
    fn vault_fingerprint_bytes(
        text: *const u8,
        text_len: usize,
        out: *mut u8,
        out_len: usize,
    ) -> VaultAnswer;

    fn vault_fingerprint_digits(
        text: *const u8,
        text_len: usize,
        out: *mut u8,
        out_len: usize,
    ) -> VaultAnswer;

    fn vault_read_back(
        text: *const u8,
        text_len: usize,
        from: usize,
        to: usize,
        digits: *const u8,
        digits_len: usize,
        out: *mut u8,
        out_len: usize,
    ) -> VaultAnswer;

    fn vault_run_script(
        script: *const u8,
        script_len: usize,
        out: *mut u8,
        out_len: usize,
    ) -> VaultRun;
}

impl VaultAnswer {
    fn checked(self) -> Result<usize, Refusal> {
        Refusal::check(self.refusal)?;
        Ok(self.len)
    }
}

/// Writes the sixteen bytes of the fingerprint of `text`, and answers 16.
///
/// # Errors
///
/// [`Refusal::SmallBuffer`] where `out` has fewer than sixteen bytes.
///
/// ```
/// let mut out = [0; 16];
/// assert_eq!(vault::buffer::fingerprint_bytes(b"a", &mut out), Ok(16));
/// assert_eq!(out, [0, 0, 0, 16, 0, 0, 0, 13, 0, 0, 0, 11, 0, 0, 0, 9]);
/// ```
pub fn fingerprint_bytes(text: &[u8], out: &mut [u8]) -> Result<usize, Refusal> {
    // SAFETY: both pairs are of slices, as the module says.
    unsafe { vault_fingerprint_bytes(text.as_ptr(), text.len(), out.as_mut_ptr(), out.len()) }
        .checked()
}

/// Writes the 32 digits of the fingerprint of `text`, and answers 32.
///
/// # Errors
///
/// [`Refusal::SmallBuffer`] where `out` has fewer than 32 bytes.
///
/// ```
/// let mut out = [0; 32];
/// assert_eq!(vault::buffer::fingerprint_digits(b"a", &mut out), Ok(32));
/// assert_eq!(&out, b"000000100000000d0000000b00000009");
/// ```
pub fn fingerprint_digits(text: &[u8], out: &mut [u8]) -> Result<usize, Refusal> {
    // SAFETY: both pairs are of slices, as the module says.
    unsafe { vault_fingerprint_digits(text.as_ptr(), text.len(), out.as_mut_ptr(), out.len()) }
        .checked()
}

/// Writes the window that [`read_back_digits`](crate::read_back_digits) tells, and answers its length.
///
/// # Errors
///
/// The refusals of [`read_back_digits`](crate::read_back_digits), and [`Refusal::SmallBuffer`] where `out` has fewer than
/// five bytes, however long the window is.
///
/// ```
/// let mut out = *b".....";
/// let digits = b"0000018f0000014500000113000000e0";
/// assert_eq!(vault::buffer::read_back(b"a", 1..1, digits, &mut out), Ok(1));
/// assert_eq!(&out, b"a....");
/// ```
pub fn read_back(
    text: &[u8],
    part: Range<usize>,
    digits: &[u8],
    out: &mut [u8],
) -> Result<usize, Refusal> {
    // SAFETY: all three pairs are of slices, as the module says.
    unsafe {
        vault_read_back(
            text.as_ptr(),
            text.len(),
            part.start,
            part.end,
            digits.as_ptr(),
            digits.len(),
            out.as_mut_ptr(),
            out.len(),
        )
    }
    .checked()
}

/// Runs `script` on a fresh shelf, call by call while at least [`MOST_ANSWER`] bytes are left in `out`, and writes the
/// answers one behind the other.
///
/// A run that was cut short is not resumed: the script is run again with more room, and answers the same and more.
///
/// # Errors
///
/// [`Refusal::TooLong`] where the script has more than [`MOST_SCRIPT`] bytes, [`Refusal::SmallBuffer`] where `out` has
/// fewer than [`MOST_ANSWER`].
///
/// ```
/// use vault::buffer::{MOST_ANSWER, Run, run_script};
///
/// let script = b"11:3:put,2:ab,,11:4:mark,1:1,,";
/// let mut out = [0; MOST_ANSWER + 3];
///
/// // The first answer leaves one byte too few for another.
/// assert_eq!(run_script(script, &mut out), Ok(Run { len: 4, next: 15 }));
/// assert_eq!(&out[..4], b"1:1,");
/// ```
pub fn run_script(script: &[u8], out: &mut [u8]) -> Result<Run, Refusal> {
    // SAFETY: both pairs are of slices, as the module says.
    let run =
        unsafe { vault_run_script(script.as_ptr(), script.len(), out.as_mut_ptr(), out.len()) };
    Refusal::check(run.refusal)?;
    Ok(Run {
        len: run.len,
        next: run.next,
    })
}
