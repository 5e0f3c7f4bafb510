//! docs/FINGERPRINT.md: a text's fingerprint is the product of the matrices of its bits.

use std::str;

pub const P: u64 = 2_147_483_647;

/// The rows (a, b) and (c, d), as a, b, c, d.
#[derive(Clone, Copy, Debug, PartialEq, Eq)]
pub struct Matrix(pub [u64; 4]);

pub const EMPTY: Matrix = Matrix([1, 0, 0, 1]);

const BITS: [Matrix; 2] = [Matrix([1, 1, 0, 1]), Matrix([1, 0, 1, 1])];

impl Matrix {
    pub fn times(self, other: Self) -> Self {
        let Self([a, b, c, d]) = self;
        let Self([e, f, g, h]) = other;
        Self([a * e + b * g, a * f + b * h, c * e + d * g, c * f + d * h].map(|entry| entry % P))
    }

    pub fn inverse(self) -> Self {
        let Self([a, b, c, d]) = self;
        Self([d, (P - b) % P, (P - c) % P, a])
    }

    pub fn of_bits(bits: impl IntoIterator<Item = bool>) -> Self {
        bits.into_iter()
            .fold(EMPTY, |product, bit| product.times(BITS[usize::from(bit)]))
    }

    pub fn of_text(text: &[u8]) -> Self {
        Self::of_bits(text.iter().flat_map(|byte| bits(*byte)))
    }

    pub fn to_bytes(self) -> [u8; 16] {
        let mut bytes = [0; 16];
        for (place, entry) in bytes.chunks_mut(4).zip(self.0) {
            place.copy_from_slice(&u32::try_from(entry).unwrap().to_be_bytes());
        }
        bytes
    }

    pub fn to_digits(self) -> String {
        self.0.map(|entry| format!("{entry:08x}")).concat()
    }

    /// The value that the digits are well formed of, if they are of any.
    pub fn of_digits(digits: &[u8]) -> Option<Self> {
        let lower_case = |digit: &u8| matches!(digit, b'0'..=b'9' | b'a'..=b'f');
        if digits.len() != 32 || !digits.iter().all(lower_case) {
            return None;
        }
        let mut entries = [0; 4];
        for (entry, digits) in entries.iter_mut().zip(digits.chunks(8)) {
            *entry = u64::from_str_radix(str::from_utf8(digits).unwrap(), 16).unwrap();
        }
        let [a, b, c, d] = entries;
        let lawful = entries.iter().all(|entry| *entry < P) && (a * d) % P == (b * c + 1) % P;
        lawful.then_some(Self(entries))
    }
}

/// The highest first.
pub fn bits(byte: u8) -> impl Iterator<Item = bool> {
    (0..8).rev().map(move |place| byte >> place & 1 == 1)
}
