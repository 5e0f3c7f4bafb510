//! Fingerprints as values: read, written and compared.

use std::fmt;
use std::str::FromStr;

use crate::{Refusal, buffer, read_back_digits};

/// Zémor's fingerprint of a text: a matrix of four numbers below 2^31 − 1, in sixteen bytes.
///
/// Between two texts with no more than a slip, of at most five bytes in each, equal fingerprints mean equal texts, and the
/// other way round. It guards against slips, not against somebody who looks for two texts with one fingerprint.
///
/// It is printed as 32 lower-case hexadecimal digits, and read from them.
///
/// ```
/// use vault::{Fingerprint, Refusal};
///
/// let fingerprint = Fingerprint::of(b"ab");
/// assert_eq!(fingerprint.to_string(), "0000014500000240000000e00000018d");
/// assert_eq!("0000014500000240000000e00000018d".parse(), Ok(fingerprint));
///
/// // No matrix of determinant 1, so no text has it.
/// assert_eq!("0000014500000240000000e00000018e".parse::<Fingerprint>(), Err(Refusal::BadFingerprint));
/// ```
#[derive(Clone, Copy, PartialEq, Eq, Hash)]
pub struct Fingerprint([u8; 16]);

impl Fingerprint {
    /// The fingerprint of `text`.
    #[must_use]
    pub fn of(text: &[u8]) -> Self {
        let mut bytes = [0; 16];
        buffer::fingerprint_bytes(text, &mut bytes).expect("sixteen bytes are room enough");
        Self(bytes)
    }

    /// The matrix row by row, each number as four bytes, the highest first.
    ///
    /// ```
    /// let fingerprint = vault::Fingerprint::of(b"a");
    /// assert_eq!(fingerprint.as_bytes(), &[0, 0, 0, 16, 0, 0, 0, 13, 0, 0, 0, 11, 0, 0, 0, 9]);
    /// ```
    #[must_use]
    pub const fn as_bytes(&self) -> &[u8; 16] {
        &self.0
    }
}

/// Prints the 32 digits.
impl fmt::Display for Fingerprint {
    fn fmt(&self, f: &mut fmt::Formatter<'_>) -> fmt::Result {
        f.pad(&format!("{:032x}", u128::from_be_bytes(self.0)))
    }
}

impl fmt::Debug for Fingerprint {
    fn fmt(&self, f: &mut fmt::Formatter<'_>) -> fmt::Result {
        write!(f, "Fingerprint({self})")
    }
}

/// Reads 32 lower-case hexadecimal digits; all else is refused with [`Refusal::BadFingerprint`].
impl FromStr for Fingerprint {
    type Err = Refusal;

    fn from_str(digits: &str) -> Result<Self, Refusal> {
        check(digits)?;
        let number = u128::from_str_radix(digits, 16).expect("32 hexadecimal digits are a number");
        Ok(Self(number.to_be_bytes()))
    }
}

/// Reads sixteen bytes; those of no value are refused with [`Refusal::BadFingerprint`].
impl TryFrom<[u8; 16]> for Fingerprint {
    type Error = Refusal;

    fn try_from(bytes: [u8; 16]) -> Result<Self, Refusal> {
        let fingerprint = Self(bytes);
        check(&fingerprint.to_string())?;
        Ok(fingerprint)
    }
}

impl From<Fingerprint> for [u8; 16] {
    fn from(fingerprint: Fingerprint) -> Self {
        fingerprint.0
    }
}

/// Asks the library whether the digits are well formed, so that the rule stands in one place: read-back refuses bad digits
/// before it looks for a window.
fn check(digits: &str) -> Result<(), Refusal> {
    match read_back_digits(b"", 0..0, digits) {
        Ok(_) | Err(Refusal::NoWindow) => Ok(()),
        Err(refusal) => Err(refusal),
    }
}
