//! What the tests share: random numbers from a seed, the count of cases, and buffers that show what was written.

use vault::Refusal;

const SEED: u64 = 0x9a75_0e7a_2026_0001;

/// Vigna's splitmix64.
pub struct Random(u64);

impl Random {
    pub fn number(&mut self) -> u64 {
        self.0 = self.0.wrapping_add(0x9e37_79b9_7f4a_7c15);
        let mixed = (self.0 ^ self.0 >> 30).wrapping_mul(0xbf58_476d_1ce4_e5b9);
        let mixed = (mixed ^ mixed >> 27).wrapping_mul(0x94d0_49bb_1331_11eb);
        mixed ^ mixed >> 31
    }

    /// A number from 0 to `most`.
    pub fn up_to(&mut self, most: usize) -> usize {
        (self.number() % (most as u64 + 1)) as usize
    }

    pub fn one_in(&mut self, n: usize) -> bool {
        self.up_to(n - 1) == 0
    }

    pub fn byte(&mut self) -> u8 {
        self.number() as u8
    }

    pub fn pick<'a, T>(&mut self, from: &'a [T]) -> &'a T {
        &from[self.up_to(from.len() - 1)]
    }

    /// Bytes of a text, sometimes of one or two kinds only.
    pub fn text(&mut self, len: usize) -> Vec<u8> {
        let few = [self.byte(), *self.pick(&[0x00, 0x55, 0xaa, 0xff])];
        let kinds = self.up_to(4);
        let byte = |_| match kinds {
            0 => few[1],
            1 => *self.pick(&few),
            _ => self.byte(),
        };
        (0..len).map(byte).collect()
    }

    /// A part of a text of this length.
    pub fn part(&mut self, len: usize) -> (usize, usize) {
        let (a, b) = (self.up_to(len), self.up_to(len));
        (a.min(b), a.max(b))
    }
}

/// The cases of one test.
#[must_use]
pub struct Cases {
    name: &'static str,
    ran: usize,
    pub random: Random,
}

impl Cases {
    pub fn of(name: &'static str) -> Self {
        Self {
            name,
            ran: 0,
            random: Random(SEED),
        }
    }

    pub fn count(&mut self) {
        self.ran += 1;
    }

    /// Compares an answer with the bytes that should have been written, or the number of the refusal: one case.
    pub fn compare(
        &mut self,
        room: usize,
        expected: Result<&[u8], u32>,
        call: impl FnOnce(&mut [u8]) -> Result<usize, Refusal>,
    ) {
        let mut buffer = Buffer::new(room, self.random.byte());
        let answer = call(buffer.out());
        assert_eq!(
            answer.map_err(Refusal::number),
            expected.map(<[u8]>::len),
            "{}, case {}, room {room}",
            self.name,
            self.ran
        );
        buffer.assert_holds(expected.unwrap_or(&[]));
        self.count();
    }

    pub fn end(self, expected: usize) {
        println!("cases: {} {} (seed {SEED:#x})", self.ran, self.name);
        assert_eq!(self.ran, expected, "number of cases");
    }
}

/// A buffer inside a longer one, whose bytes all tell their place.
pub struct Buffer {
    bytes: Vec<u8>,
    noise: u8,
    room: usize,
}

const MARGIN: usize = 64;

impl Buffer {
    pub fn new(room: usize, noise: u8) -> Self {
        let bytes = (0..room + 2 * MARGIN).map(|place| noise_at(place, noise));
        Self {
            bytes: bytes.collect(),
            noise,
            room,
        }
    }

    pub fn out(&mut self) -> &mut [u8] {
        &mut self.bytes[MARGIN..][..self.room]
    }

    pub fn start(&self, len: usize) -> &[u8] {
        &self.bytes[MARGIN..][..len]
    }

    /// This was written at the start, and nothing elsewhere.
    pub fn assert_holds(&self, written: &[u8]) {
        assert_eq!(self.start(written.len()), written);
        let untouched = (0..MARGIN).chain(MARGIN + written.len()..self.bytes.len());
        for place in untouched {
            assert_eq!(
                self.bytes[place],
                noise_at(place, self.noise),
                "a byte that is not of the answer, at {place} - {MARGIN}"
            );
        }
    }
}

fn noise_at(place: usize, noise: u8) -> u8 {
    noise.wrapping_add(place as u8)
}
