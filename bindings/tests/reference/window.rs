//! Read-back by another way than the library's: Euclid's algorithm, and then a trial of what it tells.

use super::fingerprint::{Matrix, bits};

const MOST_BITS: usize = 40;

/// What read-back answers: the window, or the number of the refusal.
pub fn read_back(
    text: &[u8],
    from: usize,
    to: usize,
    digits: &[u8],
    room: usize,
) -> Result<Vec<u8>, u32> {
    if from > to || to > text.len() {
        return Err(6);
    }
    if room < 5 {
        return Err(8);
    }
    let whole = Matrix::of_digits(digits).ok_or(9_u32)?;
    let front = Matrix::of_text(&text[..from]);
    let back = Matrix::of_text(&text[to..]);
    window(front, whole, back).ok_or(10)
}

/// The window that gives the whole between front and back.
///
/// Bit 0 makes (x + y, y) of the column (x, y), and bit 1 makes (x, x + y) of it. So the bits of a product, applied to the
/// column (1, 1), are the steps by which Euclid's algorithm goes from the sums of its rows to (1, 1), and no other bits
/// lead there. Where there is a window, its product has no entry above F(41), so these sums are the same over whole
/// numbers. Where there is none, the bits found are no bytes, or fail the trial.
pub fn window(front: Matrix, whole: Matrix, back: Matrix) -> Option<Vec<u8>> {
    let Matrix([a, b, c, d]) = front.inverse().times(whole).times(back.inverse());
    let (mut x, mut y) = (a + b, c + d);
    let mut found = Vec::new();
    while x != y && found.len() <= MOST_BITS {
        found.push(x < y);
        if x < y {
            y -= x;
        } else {
            x -= y;
        }
    }
    if found.len() > MOST_BITS || found.len() % 8 != 0 {
        return None;
    }
    let window: Vec<u8> = found
        .chunks(8)
        .map(|byte| byte.iter().fold(0, |byte, bit| byte << 1 | u8::from(*bit)))
        .collect();
    assert!(window.iter().flat_map(|byte| bits(*byte)).eq(found));
    let tried = front.times(Matrix::of_text(&window)).times(back);
    (tried == whole).then_some(window)
}
