//! Why the library refuses a call.

use std::error::Error;
use std::fmt;

/// Why the library refused a call. A refused call has changed nothing.
///
/// ```
/// use vault::{Fingerprint, Refusal, read_back};
///
/// let refusal = read_back(b"ab", 1..3, Fingerprint::of(b"ab")).unwrap_err();
/// assert_eq!(refusal, Refusal::BadPart);
/// assert_eq!(refusal.to_string(), "refused: BAD PART (6)");
/// ```
#[derive(Clone, Copy, Debug, PartialEq, Eq, Hash)]
#[repr(u32)]
pub enum Refusal {
    /// A part `from..to` does not have `from <= to <= length`.
    BadPart = 6,
    /// A script has more than 16,384 bytes.
    TooLong = 7,
    /// The buffer is too short for the call.
    SmallBuffer = 8,
    /// The fingerprint is not 32 lower-case hexadecimal digits, or no text can have it.
    BadFingerprint = 9,
    /// No window of at most five bytes gives the fingerprint.
    NoWindow = 10,
}

impl Refusal {
    /// The refusal's number, as in C and in the answers of scripts.
    #[must_use]
    pub const fn number(self) -> u32 {
        self as u32
    }

    /// The refusal's name, as the repository's documents have it.
    #[must_use]
    pub const fn name(self) -> &'static str {
        match self {
            Self::BadPart => "BAD PART",
            Self::TooLong => "TOO LONG",
            Self::SmallBuffer => "SMALL BUFFER",
            Self::BadFingerprint => "BAD FINGERPRINT",
            Self::NoWindow => "NO WINDOW",
        }
    }

    /// What a number of the library says: 0 is no refusal.
    pub(crate) fn check(number: u32) -> Result<(), Self> {
        Err(match number {
            0 => return Ok(()),
            6 => Self::BadPart,
            7 => Self::TooLong,
            8 => Self::SmallBuffer,
            9 => Self::BadFingerprint,
            10 => Self::NoWindow,
            _ => panic!("libvault.a answers a refusal that is not of this version: {number}"),
        })
    }
}

impl fmt::Display for Refusal {
    fn fmt(&self, f: &mut fmt::Formatter<'_>) -> fmt::Result {
        write!(f, "refused: {} ({})", self.name(), self.number())
    }
}

impl Error for Refusal {}
