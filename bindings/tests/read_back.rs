//! Read-back against the second implementation.

use vault::{Fingerprint, Refusal, buffer};

use crate::cases::{Cases, Random};
use crate::reference::fingerprint::{EMPTY, Matrix, P};
use crate::reference::window;

const ROOM: usize = 5;

/// Compares with the reference: one case. Tells what both answered.
fn compare(
    cases: &mut Cases,
    text: &[u8],
    (from, to): (usize, usize),
    digits: &[u8],
    room: usize,
) -> Result<Vec<u8>, u32> {
    let expected = window::read_back(text, from, to, digits, room);
    let written = expected.as_deref().map_err(|number| *number);
    cases.compare(room, written, |out| {
        buffer::read_back(text, from..to, digits, out)
    });
    expected
}

/// The text with the window in the place of the part.
fn changed(text: &[u8], (from, to): (usize, usize), window: &[u8]) -> Vec<u8> {
    [&text[..from], window, &text[to..]].concat()
}

fn text_and_part(random: &mut Random, most: usize) -> (Vec<u8>, (usize, usize)) {
    let len = random.up_to(most);
    (random.text(len), random.part(len))
}

/// A value with nothing said of its bits.
fn random_matrix(random: &mut Random) -> Matrix {
    let mut entry = || random.number() % P;
    let (a, b, c) = (entry().max(1), entry(), entry());
    let d = (1 + b * c) % P * power(a, P - 2) % P;
    Matrix([a, b, c, d])
}

fn power(base: u64, exponent: u64) -> u64 {
    match exponent {
        0 => 1,
        odd if odd % 2 == 1 => base * power(base, odd - 1) % P,
        even => power(base * base % P, even / 2),
    }
}

#[test]
fn figures_of_the_documents() {
    let mut cases = Cases::of("read-back of docs/FINGERPRINT.md");
    let figures = [
        ("a", Matrix([399, 325, 275, 224]), Ok("a")),
        ("", EMPTY, Ok("")),
        ("a", EMPTY, Err(10)),
    ];
    for (text, whole, expected) in figures {
        let digits = whole.to_digits();
        let part = (text.len(), text.len());
        let answer = compare(&mut cases, text.as_bytes(), part, digits.as_bytes(), ROOM);
        assert_eq!(answer, expected.map(|window| window.as_bytes().to_vec()));
    }
    cases.end(3);
}

#[test]
fn every_window_of_up_to_two_bytes() {
    let mut cases = Cases::of("windows of up to two bytes");
    let one = (0..=u8::MAX).map(|byte| vec![byte]);
    let two = (0..=u16::MAX).map(|bytes| bytes.to_be_bytes().to_vec());
    for window in one.chain(two).chain([vec![]]) {
        let digits = Matrix::of_text(&changed(b"lease = 1h\n", (8, 10), &window)).to_digits();
        let answer = compare(
            &mut cases,
            b"lease = 1h\n",
            (8, 10),
            digits.as_bytes(),
            ROOM,
        );
        assert_eq!(answer, Ok(window));
    }
    cases.end(1 + 256 + 65_536);
}

#[test]
fn random_windows() {
    let mut cases = Cases::of("windows of up to five bytes in any part");
    for _ in 0..20_000 {
        let (text, part) = text_and_part(&mut cases.random, 300);
        let len = cases.random.up_to(5);
        let window = cases.random.text(len);
        let digits = Matrix::of_text(&changed(&text, part, &window)).to_digits();
        let answer = compare(&mut cases, &text, part, digits.as_bytes(), ROOM);
        assert_eq!(answer, Ok(window));
    }
    cases.end(20_000);
}

#[test]
fn windows_of_the_safe_calls() {
    let mut cases = Cases::of("windows by the calls without a buffer");
    for _ in 0..5_000 {
        let (text, (from, to)) = text_and_part(&mut cases.random, 100);
        let len = cases.random.up_to(7);
        let window = cases.random.text(len);
        let whole = changed(&text, (from, to), &window);
        let digits = Matrix::of_text(&whole).to_digits();
        let expected = window::read_back(&text, from, to, digits.as_bytes(), ROOM);
        let answers = [
            vault::read_back(&text, from..to, Fingerprint::of(&whole)),
            vault::read_back_digits(&text, from..to, digits),
        ];
        for answer in answers {
            let answer = answer.map(|window| window.to_vec());
            assert_eq!(answer.map_err(Refusal::number), expected);
        }
        cases.count();
    }
    cases.end(5_000);
}

#[test]
fn long_texts() {
    let mut cases = Cases::of("windows in texts of 1 MiB");
    let text = cases.random.text(1_048_576);
    for (from, to) in [
        (0, 0),
        (0, 9),
        (524_287, 524_288),
        (9, 1_048_576),
        (1_048_576, 1_048_576),
    ] {
        let window = cases.random.text(5);
        let digits = Matrix::of_text(&changed(&text, (from, to), &window)).to_digits();
        let answer = compare(&mut cases, &text, (from, to), digits.as_bytes(), ROOM);
        assert_eq!(answer, Ok(window));
        // Elsewhere the same fingerprint tells no window.
        let elsewhere = compare(&mut cases, &text, (700, 701), digits.as_bytes(), ROOM);
        assert_eq!(elsewhere, Err(10));
    }
    cases.end(10);
}

#[test]
fn longer_changes() {
    let mut cases = Cases::of("changes of six to eight bytes");
    for _ in 0..10_000 {
        let (text, part) = text_and_part(&mut cases.random, 60);
        let len = 6 + cases.random.up_to(2);
        let change = cases.random.text(len);
        let digits = Matrix::of_text(&changed(&text, part, &change)).to_digits();
        let answer = compare(&mut cases, &text, part, digits.as_bytes(), ROOM);
        assert_eq!(answer, Err(10));
    }
    cases.end(10_000);
}

#[test]
fn bits_that_are_no_bytes() {
    let mut cases = Cases::of("changes of up to 64 bits");
    let mut windows = 0;
    for _ in 0..20_000 {
        let (text, (from, to)) = text_and_part(&mut cases.random, 40);
        let count = cases.random.up_to(64);
        let kinds = *cases.random.pick(&[1, 3, 7]);
        let bits = (0..count).map(|_| cases.random.number() & kinds != 0);
        let whole = Matrix::of_text(&text[..from])
            .times(Matrix::of_bits(bits))
            .times(Matrix::of_text(&text[to..]));
        let digits = whole.to_digits();
        let answer = compare(&mut cases, &text, (from, to), digits.as_bytes(), ROOM);
        // Products of up to 45 bits tell them, so no others give the same.
        if count <= 45 {
            assert_eq!(answer.is_ok(), count % 8 == 0 && count <= 40);
        }
        windows += usize::from(answer.is_ok());
    }
    assert!(windows > 1_000, "{windows} windows");
    cases.end(20_000);
}

#[test]
fn values_that_are_no_windows() {
    let mut cases = Cases::of("random values, and windows turned over or negated");
    let quarter = Matrix([0, 1, P - 1, 0]);
    let minus = Matrix([P - 1, 0, 0, P - 1]);
    for _ in 0..20_000 {
        let (text, (from, to)) = text_and_part(&mut cases.random, 40);
        let len = cases.random.up_to(5);
        let window = Matrix::of_text(&cases.random.text(len));
        let between = match cases.random.up_to(5) {
            0 => random_matrix(&mut cases.random),
            1 => window.inverse(),
            2 => window.times(minus),
            3 => window.times(quarter),
            4 => quarter.times(window),
            _ => quarter.times(window).times(quarter.inverse()),
        };
        let whole = Matrix::of_text(&text[..from])
            .times(between)
            .times(Matrix::of_text(&text[to..]));
        let digits = whole.to_digits();
        let answer = compare(&mut cases, &text, (from, to), digits.as_bytes(), ROOM);
        assert!(matches!(answer.as_deref(), Err(10) | Ok([])), "{answer:?}");
    }
    cases.end(20_000);
}

#[test]
fn edges_of_parts() {
    let mut cases = Cases::of("parts at and beyond the edges of short texts");
    let beyond = [1 << 31, 1 << 32, usize::MAX - 1, usize::MAX];
    let places: Vec<usize> = (0..=14).chain(beyond).collect();
    for len in 0..=12 {
        let text = cases.random.text(len);
        for from in &places {
            for to in &places {
                let digits = Matrix::of_text(&text).to_digits();
                let answer = compare(&mut cases, &text, (*from, *to), digits.as_bytes(), ROOM);
                let lawful = from <= to && *to <= len;
                assert_eq!(answer == Err(6), !lawful);
                assert_eq!(answer.is_ok(), lawful && to - from <= 5);
            }
        }
    }
    cases.end(13 * 19 * 19);
}

#[test]
fn every_byte_in_each_digit() {
    let mut cases = Cases::of("digits with any byte at any place");
    for _ in 0..2 {
        let (text, part) = text_and_part(&mut cases.random, 20);
        let digits = Matrix::of_text(&changed(&text, part, b"12345")).to_digits();
        for place in 0..32 {
            for byte in 0..=u8::MAX {
                let mut damaged = digits.clone().into_bytes();
                damaged[place] = byte;
                let answer = compare(&mut cases, &text, part, &damaged, ROOM);
                if !matches!(byte, b'0'..=b'9' | b'a'..=b'f') {
                    assert_eq!(answer, Err(9));
                }
            }
        }
    }
    cases.end(2 * 32 * 256);
}

#[test]
fn upper_case_digits() {
    let mut cases = Cases::of("digits in upper case");
    for _ in 0..500 {
        let (text, part) = text_and_part(&mut cases.random, 40);
        let digits = Matrix::of_text(&changed(&text, part, b"\xab")).to_digits();
        let upper = digits.to_ascii_uppercase();
        let answer = compare(&mut cases, &text, part, upper.as_bytes(), ROOM);
        assert_eq!(answer == Err(9), upper != digits);
    }
    cases.end(500);
}

#[test]
fn numbers_of_digits() {
    let mut cases = Cases::of("up to 70 digits");
    for count in 0..=70 {
        for _ in 0..20 {
            let (text, part) = text_and_part(&mut cases.random, 20);
            let digits = Matrix::of_text(&text).to_digits().repeat(3);
            let answer = compare(&mut cases, &text, part, &digits.as_bytes()[..count], ROOM);
            assert_eq!(answer == Err(9), count != 32);
        }
    }
    cases.end(71 * 20);
}

#[test]
fn entries_above_the_modulus() {
    let mut cases = Cases::of("entries with the modulus added");
    for _ in 0..100 {
        let (text, part) = text_and_part(&mut cases.random, 20);
        let Matrix(entries) = Matrix::of_text(&changed(&text, part, b"1"));
        for which in 0..16 {
            let mut raised = entries;
            for (place, entry) in raised.iter_mut().enumerate() {
                *entry += P * (which >> place & 1);
            }
            let digits = Matrix(raised).to_digits();
            let answer = compare(&mut cases, &text, part, digits.as_bytes(), ROOM);
            assert_eq!(answer.is_ok(), which == 0);
            assert_eq!(answer == Err(9), which != 0);
        }
    }
    cases.end(100 * 16);
}

#[test]
fn determinants() {
    let mut cases = Cases::of("entries at the edges of the modulus");
    let edges = [0, 1, 2, P - 2, P - 1, P, P + 1, u64::from(u32::MAX)];
    let mut well_formed = 0;
    for a in edges {
        for b in edges {
            for c in edges {
                for d in edges {
                    let digits = Matrix([a, b, c, d]).to_digits();
                    let answer = compare(&mut cases, b"", (0, 0), digits.as_bytes(), ROOM);
                    well_formed += usize::from(answer != Err(9));
                }
            }
        }
    }
    assert!(
        (10..1_000).contains(&well_formed),
        "{well_formed} were well formed"
    );
    cases.end(8 * 8 * 8 * 8);
}

#[test]
fn rooms() {
    let mut cases = Cases::of("windows into each room from 0 to 40 bytes");
    for room in 0..=40 {
        for len in 0..=5 {
            for _ in 0..5 {
                let (text, part) = text_and_part(&mut cases.random, 30);
                let window = cases.random.text(len);
                let digits = Matrix::of_text(&changed(&text, part, &window)).to_digits();
                let answer = compare(&mut cases, &text, part, digits.as_bytes(), room);
                assert_eq!(answer, if room < 5 { Err(8) } else { Ok(window) });
            }
        }
    }
    cases.end(41 * 6 * 5);
}

#[test]
fn the_least_refusal_comes() {
    let mut cases = Cases::of("calls with several reasons to refuse");
    for which in 0..16 {
        for _ in 0..100 {
            let holds = |reason: u32| which >> reason & 1 == 1;
            let (text, (from, to)) = text_and_part(&mut cases.random, 30);
            let change: &[u8] = if holds(3) { b"longer" } else { b"short" };
            let mut digits = Matrix::of_text(&changed(&text, (from, to), change)).to_digits();
            if holds(2) {
                digits.push('0');
            }
            let room = if holds(1) {
                cases.random.up_to(4)
            } else {
                ROOM
            };
            let part = match (holds(0), cases.random.one_in(2)) {
                (false, _) => (from, to),
                (true, false) => (from, text.len() + 1),
                (true, true) => (to + 1, to),
            };
            let answer = compare(&mut cases, &text, part, digits.as_bytes(), room);
            let least = [6, 8, 9, 10]
                .into_iter()
                .zip(0..)
                .find(|(_, reason)| holds(*reason));
            assert_eq!(
                answer,
                least.map_or(Ok(b"short".to_vec()), |(number, _)| Err(number))
            );
        }
    }
    cases.end(16 * 100);
}
