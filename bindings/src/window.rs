//! Windows that read-back tells.

use std::fmt;
use std::ops::{Deref, Range};

use crate::{Fingerprint, Refusal, buffer};

const MOST_WINDOW: usize = 5;

/// The bytes that [`read_back`] tells, at most five; a slice of bytes in all its uses.
#[derive(Clone, Copy, PartialEq, Eq, Hash)]
pub struct Window {
    /// 0 from `len` on, so that equal windows have equal fields.
    bytes: [u8; MOST_WINDOW],
    len: usize,
}

impl Deref for Window {
    type Target = [u8];

    fn deref(&self) -> &[u8] {
        &self.bytes[..self.len]
    }
}

impl AsRef<[u8]> for Window {
    fn as_ref(&self) -> &[u8] {
        self
    }
}

impl fmt::Debug for Window {
    fn fmt(&self, f: &mut fmt::Formatter<'_>) -> fmt::Result {
        write!(f, "Window(b\"{}\")", self.escape_ascii())
    }
}

/// Tells what was written in the place of `part` of `text`, from the fingerprint of the changed text alone.
///
/// Of all windows, up to five bytes long, at most one gives the text this fingerprint when it stands where `part` stood: that
/// one is told. The bytes of `part` itself do not matter, and it may have any length.
///
/// ```
/// use vault::{Fingerprint, Refusal, read_back};
///
/// let told = Fingerprint::of(b"retries = 30");
/// assert_eq!(*read_back(b"retries = 5", 10..11, told)?, *b"30");
/// assert_eq!(read_back(b"timeout = 5", 10..11, told), Err(Refusal::NoWindow));
/// # Ok::<(), Refusal>(())
/// ```
///
/// # Errors
///
/// [`Refusal::BadPart`] where not `part.start <= part.end <= text.len()`, and else [`Refusal::NoWindow`] where no window of
/// at most five bytes gives the fingerprint.
pub fn read_back(
    text: &[u8],
    part: Range<usize>,
    fingerprint: Fingerprint,
) -> Result<Window, Refusal> {
    read_back_digits(text, part, fingerprint.to_string())
}

/// [`read_back`] from the digits of a fingerprint, as they came from a file or a log.
///
/// ```
/// use vault::{Refusal, read_back_digits};
///
/// let digits = "0000018f0000014500000113000000e0";
/// assert_eq!(*read_back_digits(b"a", 1..1, digits)?, *b"a");
/// assert_eq!(read_back_digits(b"a", 1..1, &digits[1..]), Err(Refusal::BadFingerprint));
/// # Ok::<(), Refusal>(())
/// ```
///
/// # Errors
///
/// As [`read_back`]; and, between its two, [`Refusal::BadFingerprint`] where the digits are not those of a fingerprint.
pub fn read_back_digits(
    text: &[u8],
    part: Range<usize>,
    digits: impl AsRef<[u8]>,
) -> Result<Window, Refusal> {
    let mut bytes = [0; MOST_WINDOW];
    let len = buffer::read_back(text, part, digits.as_ref(), &mut bytes)?;
    Ok(Window { bytes, len })
}
