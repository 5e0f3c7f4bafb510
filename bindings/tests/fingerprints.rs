//! Fingerprints against the second implementation.

use vault::{Fingerprint, Refusal, buffer};

use crate::cases::{Cases, Random};
use crate::reference::fingerprint::{EMPTY, Matrix};

/// All forms of the fingerprint of a text: one case.
fn compare(cases: &mut Cases, text: &[u8]) {
    let expected = Matrix::of_text(text);
    let fingerprint = Fingerprint::of(text);
    assert_eq!(fingerprint.as_bytes(), &expected.to_bytes());
    assert_eq!(fingerprint.to_string(), expected.to_digits());
    let mut digits = [0; 32];
    assert_eq!(buffer::fingerprint_digits(text, &mut digits), Ok(32));
    assert_eq!(digits, expected.to_digits().as_bytes());
    cases.count();
}

#[test]
fn figures_of_the_documents() {
    let mut cases = Cases::of("figures of docs/FINGERPRINT.md");
    let figures: [(&[u8], _); 7] = [
        (b"", EMPTY),
        (&[85], Matrix([34, 21, 21, 13])),
        (b"a", Matrix([16, 13, 11, 9])),
        (b"ab", Matrix([325, 576, 224, 397])),
        (b"ba", Matrix([461, 376, 320, 261])),
        (b"aa", Matrix([399, 325, 275, 224])),
        (
            &[85; 5],
            Matrix([165_580_141, 102_334_155, 102_334_155, 63_245_986]),
        ),
    ];
    for (text, matrix) in figures {
        assert_eq!(Matrix::of_text(text), matrix);
        compare(&mut cases, text);
    }
    cases.end(7);
}

#[test]
fn every_length_up_to_200() {
    let mut cases = Cases::of("texts of each length from 0 to 200");
    for len in 0..=200 {
        for byte in [0x00, 0x55, 0xaa, 0xff] {
            compare(&mut cases, &vec![byte; len]);
        }
        for _ in 0..21 {
            let text = cases.random.text(len);
            compare(&mut cases, &text);
        }
    }
    cases.end(201 * 25);
}

#[test]
fn every_text_of_two_bytes() {
    let mut cases = Cases::of("texts of two bytes");
    for text in 0..=u16::MAX {
        compare(&mut cases, &text.to_be_bytes());
    }
    cases.end(65_536);
}

#[test]
fn random_texts() {
    let mut cases = Cases::of("texts of up to 1,000 bytes");
    for _ in 0..10_000 {
        let len = cases.random.up_to(1_000);
        let text = cases.random.text(len);
        compare(&mut cases, &text);
    }
    cases.end(10_000);
}

#[test]
fn long_texts() {
    let mut cases = Cases::of("texts of up to 1 MiB and a byte");
    for len in [
        65_535, 65_536, 65_537, 262_147, 524_288, 1_048_575, 1_048_576, 1_048_577,
    ] {
        let text = cases.random.text(len);
        compare(&mut cases, &text);
    }
    cases.end(8);
}

#[test]
fn rooms() {
    let mut cases = Cases::of("fingerprints into each room from 0 to 40 bytes");
    for room in 0..=40 {
        for _ in 0..50 {
            let len = cases.random.up_to(40);
            let text = cases.random.text(len);
            let matrix = Matrix::of_text(&text);
            let bytes = matrix.to_bytes();
            let expected = if room < 16 { Err(8) } else { Ok(&bytes[..]) };
            cases.compare(room, expected, |out| buffer::fingerprint_bytes(&text, out));
            let digits = matrix.to_digits();
            let expected = if room < 32 {
                Err(8)
            } else {
                Ok(digits.as_bytes())
            };
            cases.compare(room, expected, |out| buffer::fingerprint_digits(&text, out));
        }
    }
    cases.end(41 * 50 * 2);
}

/// A fingerprint from digits or bytes is what the reference reads from them.
fn assert_reads(read: Result<Fingerprint, Refusal>, expected: Option<Matrix>) {
    let expected = expected
        .map(Matrix::to_bytes)
        .ok_or(Refusal::BadFingerprint);
    assert_eq!(read.map(<[u8; 16]>::from), expected);
}

fn random_fingerprint(random: &mut Random) -> Matrix {
    let len = random.up_to(30);
    Matrix::of_text(&random.text(len))
}

#[test]
fn written_and_read() {
    let mut cases = Cases::of("fingerprints written and read");
    for _ in 0..5_000 {
        let matrix = random_fingerprint(&mut cases.random);
        assert_reads(matrix.to_digits().parse(), Some(matrix));
        assert_reads(Fingerprint::try_from(matrix.to_bytes()), Some(matrix));
        cases.count();
    }
    cases.end(5_000);
}

#[test]
fn damaged_digits() {
    let mut cases = Cases::of("digits with other characters, or too many or too few");
    let others: Vec<char> = "0123456789abcdefABCDEFgG/:`@ +-\0é".chars().collect();
    for _ in 0..20_000 {
        let mut digits: Vec<char> = random_fingerprint(&mut cases.random)
            .to_digits()
            .chars()
            .collect();
        let place = cases.random.up_to(31);
        let other = *cases.random.pick(&others);
        match cases.random.up_to(9) {
            0 => digits.insert(place, other),
            1 => drop(digits.remove(place)),
            _ => digits[place] = other,
        }
        let digits: String = digits.into_iter().collect();
        assert_reads(digits.parse(), Matrix::of_digits(digits.as_bytes()));
        cases.count();
    }
    cases.end(20_000);
}

#[test]
fn damaged_bytes() {
    let mut cases = Cases::of("sixteen bytes with one bit changed");
    for _ in 0..20 {
        let matrix = random_fingerprint(&mut cases.random);
        for bit in 0..128 {
            let number = u128::from_be_bytes(matrix.to_bytes()) ^ (1 << bit);
            let expected = Matrix::of_digits(format!("{number:032x}").as_bytes());
            assert_reads(Fingerprint::try_from(number.to_be_bytes()), expected);
            cases.count();
        }
    }
    cases.end(20 * 128);
}

#[test]
fn other_stretches_show() {
    let mut cases = Cases::of("texts that agree but for at most five bytes in each");
    let mut equal = 0;
    for _ in 0..10_000 {
        let random = &mut cases.random;
        let [front, old, new, back] = [200, 5, 5, 200].map(|most| {
            let len = random.up_to(most);
            random.text(len)
        });
        let new = if random.one_in(4) { &old } else { &new };
        let before = [&front, &old, &back].map(Vec::as_slice).concat();
        let after = [&front, new, &back].map(Vec::as_slice).concat();
        assert_eq!(
            Fingerprint::of(&before) == Fingerprint::of(&after),
            before == after
        );
        equal += usize::from(before == after);
        cases.count();
    }
    assert!((1_000..9_000).contains(&equal), "{equal} were equal");
    cases.end(10_000);
}

#[test]
fn other_bits_show() {
    let mut cases = Cases::of("texts with bits changed inside a stretch of 45");
    for _ in 0..10_000 {
        let random = &mut cases.random;
        let len = 7 + random.up_to(100);
        let text = random.text(len);
        let mut changed = text.clone();
        let first = random.up_to(8 * len - 45);
        for bit in first..first + 45 {
            changed[bit / 8] ^= (random.number() as u8 & 1) << (7 - bit % 8);
        }
        assert_eq!(
            Fingerprint::of(&text) == Fingerprint::of(&changed),
            text == changed
        );
        cases.count();
    }
    cases.end(10_000);
}
