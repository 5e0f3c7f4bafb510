//! The fingerprint as a plain Rust loop over the same table, reduced after each byte.

const P: u64 = (1 << 31) - 1;

/// A matrix [a b; c d] as [a, b, c, d].
type Row = [u64; 4];

/// The matrix of each byte.
static TABLE: [[u8; 4]; 256] = table();

const fn table() -> [[u8; 4]; 256] {
    let mut table = [[0; 4]; 256];
    let mut byte = 0;
    while byte < 256 {
        table[byte] = byte_row(byte as u8);
        byte += 1;
    }
    table
}

/// The product of a byte's bits, the highest first: bit 0 is [1 1; 0 1], bit 1 is [1 0; 1 1].
const fn byte_row(byte: u8) -> [u8; 4] {
    let [mut a, mut b, mut c, mut d] = [1, 0, 0, 1];
    let mut bit = 8;
    while bit > 0 {
        bit -= 1;
        if byte >> bit & 1 == 0 {
            b += a;
            d += c;
        } else {
            a += b;
            c += d;
        }
    }
    [a, b, c, d]
}

/// The sixteen bytes of the text's fingerprint, reduced by `%`.
pub fn fingerprint(text: &[u8]) -> [u8; 16] {
    written(product(text, |n| n % P))
}

/// The same, reduced by shifts: 2^31 is 1 modulo p. An entry times a byte's is below 2^37, so once is enough.
pub fn fingerprint_by_shifts(text: &[u8]) -> [u8; 16] {
    written(product(text, |n| {
        let sum = (n & P) + (n >> 31);
        if sum >= P { sum - P } else { sum }
    }))
}

#[inline(always)]
fn product(text: &[u8], reduced: impl Fn(u64) -> u64) -> Row {
    let [mut a, mut b, mut c, mut d] = [1, 0, 0, 1];
    for &byte in text {
        let [e, f, g, h] = TABLE[usize::from(byte)].map(u64::from);
        [a, b] = [reduced(a * e + b * g), reduced(a * f + b * h)];
        [c, d] = [reduced(c * e + d * g), reduced(c * f + d * h)];
    }
    [a, b, c, d]
}

/// The entries, each as four bytes, the highest first.
fn written(row: Row) -> [u8; 16] {
    let mut bytes = [0; 16];
    for (four, n) in bytes.chunks_exact_mut(4).zip(row) {
        four.copy_from_slice(&(n as u32).to_be_bytes());
    }
    bytes
}
