//! Scripts against the second implementation.

use std::thread;

use vault::buffer;

use crate::cases::{Buffer, Cases, Random};
use crate::reference::netstring;
use crate::reference::script::{Checked, MOST_ANSWER, MOST_SCRIPT, check};

/// Runs a script to its end and checks every answer: one case. Tells the answers, and where each ends.
pub fn compare(cases: &mut Cases, script: &[u8]) -> Checked {
    let mut room = 2 * MOST_ANSWER;
    loop {
        let mut buffer = Buffer::new(room, cases.random.byte());
        let run = buffer::run_script(script, buffer.out()).unwrap();
        let answers = buffer.start(run.len).to_vec();
        buffer.assert_holds(&answers);
        if run.next < script.len() {
            room *= 4;
            continue;
        }
        assert_eq!(run.next, script.len());
        let checked = check(script, answers)
            .unwrap_or_else(|wrong| panic!("{wrong}\nof {}", script.escape_ascii()));
        cases.count();
        return checked;
    }
}

/// Runs a script into so much room, and compares with its answers as they came in enough room: one case.
fn compare_in_room(cases: &mut Cases, script: &[u8], whole: &Checked, room: usize) {
    let end = whole.end(script.len(), room);
    let mut next = None;
    cases.compare(room, end.map(|end| &whole.answers[..end.len]), |out| {
        let run = buffer::run_script(script, out)?;
        next = Some(run.next);
        Ok(run.len)
    });
    assert_eq!(next, end.ok().map(|end| end.next));
}

/// A call: the netstring of the netstrings of its parts.
pub fn call(parts: &[&[u8]]) -> Vec<u8> {
    let parts: Vec<Vec<u8>> = parts.iter().map(|part| netstring::write(part)).collect();
    netstring::write(&parts.concat())
}

/// A call with numbers behind its word.
pub fn numbered(word: &str, numbers: &[usize]) -> Vec<u8> {
    let numbers: Vec<String> = numbers.iter().map(usize::to_string).collect();
    let mut parts = vec![word.as_bytes()];
    parts.extend(numbers.iter().map(|number| number.as_bytes()));
    call(&parts)
}

/// Writes random scripts. Most calls are lawful, as far as the lengths of the documents are known.
struct Writer<'a> {
    random: &'a mut Random,
    lens: Vec<usize>,
    puts: &'static [(usize, usize)],
}

/// Lengths of texts that are put: each a least one and how much above.
const SHORT: &[(usize, usize)] = &[(0, 0), (1, 4), (0, 20), (60, 10), (125, 10)];
const LONG: &[(usize, usize)] = &[(0, 70), (0, 300), (60, 10), (500, 1_000), (4_090, 10)];

impl<'a> Writer<'a> {
    fn new(random: &'a mut Random, puts: &'static [(usize, usize)]) -> Self {
        Self {
            random,
            lens: vec![0],
            puts,
        }
    }

    /// A script of so many calls, as far as they fit.
    fn script(mut self, calls: usize, most: usize) -> Vec<u8> {
        let mut script = Vec::new();
        for _ in 0..calls {
            let call = self.call();
            if script.len() + call.len() <= most {
                script.extend(call);
            }
        }
        script
    }

    fn call(&mut self) -> Vec<u8> {
        match self.random.up_to(19) {
            0..=4 => {
                let (least, above) = *self.random.pick(self.puts);
                let len = least + self.random.up_to(above);
                let text = self.random.text(len);
                self.lens.push(len);
                call(&[b"put", &text])
            }
            5..=11 => self.edit(),
            12..=14 => numbered("mark", &[self.document()]),
            15..=17 => numbered("text", &[self.document()]),
            _ => self.no_call(),
        }
    }

    /// A cut or a splice.
    fn edit(&mut self) -> Vec<u8> {
        let (d, from, to) = self.part();
        if self.random.one_in(2) {
            self.lens.push(to.saturating_sub(from));
            return numbered("cut", &[d, from, to]);
        }
        let other = self.document();
        let len = |d| self.lens.get(d).copied().unwrap_or(0);
        let spliced = (len(d) + len(other) + from).saturating_sub(to);
        self.lens.push(spliced);
        numbered("splice", &[d, from, to, other])
    }

    fn document(&mut self) -> usize {
        match self.random.up_to(30) {
            0 => self.lens.len(),
            1 => *self.random.pick(&[63, 64, 65, 9_999_999]),
            _ => self.random.up_to(self.lens.len() - 1),
        }
    }

    fn part(&mut self) -> (usize, usize, usize) {
        let d = self.document();
        let len = self.lens.get(d).copied().unwrap_or(3);
        let (from, to) = self.random.part(len);
        match self.random.up_to(20) {
            0 => (d, from, len + 1),
            1 => (d, to + 1, from),
            2..=4 => (d, 0, len),
            5 => (d, len, len),
            _ => (d, from, to),
        }
    }

    /// A netstring that is no call, or hardly one.
    fn no_call(&mut self) -> Vec<u8> {
        let d = self.document().to_string();
        let d = d.as_bytes();
        let number = *self
            .random
            .pick(&["", "00", "01", "+1", " 1", "1 ", "1a", "-0", "10000000"]);
        let word = *self
            .random
            .pick(&["", "Put", "puts", "pu", "cut", "splice", "mark\0", "seal"]);
        match self.random.up_to(8) {
            0 => netstring::write(b""),
            1 => call(&[b"put"]),
            2 => call(&[b"put", d, d]),
            3 => call(&[b"mark", number.as_bytes()]),
            4 => call(&[b"cut", d, b"0", number.as_bytes()]),
            5 => call(&[word.as_bytes(), d]),
            6 => netstring::write(&[&netstring::write(b"text"), d].concat()),
            7 => netstring::write(&[&netstring::write(b"put")[..], b"2:a,"].concat()),
            _ => {
                let len = self.random.up_to(12);
                netstring::write(&self.random.text(len))
            }
        }
    }
}

fn short_script(random: &mut Random) -> Vec<u8> {
    let calls = random.up_to(15);
    Writer::new(random, SHORT).script(calls, 600)
}

#[test]
fn examples_of_the_documents() {
    let mut cases = Cases::of("examples of docs/SCRIPTS.md");
    let examples: [(&str, &str); 9] = [
        (
            "11:3:put,2:ab,,11:4:mark,1:1,,18:3:cut,1:9,1:0,1:0,,",
            "1:1,32:0000014500000240000000e00000018d,5:-5@30,",
        ),
        (
            "11:3:put,2:ab,,25:6:splice,1:1,1:1,1:1,1:1,,11:4:text,1:2,,",
            "1:1,1:2,4:aabb,",
        ),
        ("", ""),
        ("02:ab,", "4:-1@0,"),
        ("6:3:put,,", "4:-2@0,"),
        ("12:4:mark,2:01,,", "4:-2@0,"),
        ("18:4:mark,8:10000000,,", "4:-2@0,"),
        ("11:3:put,2:ab;9:3:put,0:,,", "4:-1@0,"),
        ("9:3:put,0:,,12:3:put,2:ab,", "1:1,5:-1@12,"),
    ];
    for (script, expected) in examples {
        let Checked { answers, .. } = compare(&mut cases, script.as_bytes());
        assert_eq!(answers, expected.as_bytes());
        assert_eq!(vault::run_script(script.as_bytes()).unwrap(), answers);
    }
    cases.end(9);
}

#[test]
fn short_scripts() {
    let mut cases = Cases::of("scripts of up to 15 calls");
    let (mut calls, mut open) = (0, 0);
    for _ in 0..20_000 {
        let script = short_script(&mut cases.random);
        let checked = compare(&mut cases, &script);
        assert_eq!(vault::run_script(&script).unwrap(), checked.answers);
        calls += checked.ends.len();
        open += checked.open;
    }
    println!("{open} of {calls} answers may be RECORDS SHORT or not, by the documents");
    assert!(open < calls / 100);
    cases.end(20_000);
}

#[test]
fn full_scripts() {
    let mut cases = Cases::of("scripts of nearly 16,384 bytes");
    let (mut calls, mut open) = (0, 0);
    for round in 0..600 {
        let puts = if round % 2 == 0 { SHORT } else { LONG };
        let script = Writer::new(&mut cases.random, puts).script(1_000, MOST_SCRIPT);
        assert!((MOST_SCRIPT - 100..=MOST_SCRIPT).contains(&script.len()));
        let checked = compare(&mut cases, &script);
        assert_eq!(vault::run_script(&script).unwrap(), checked.answers);
        calls += checked.ends.len();
        open += checked.open;
    }
    println!("{open} of {calls} answers may be RECORDS SHORT or not, by the documents");
    assert!(open < calls / 10);
    cases.end(600);
}

#[test]
fn scripts_cut_at_each_byte() {
    let mut cases = Cases::of("scripts cut at each byte");
    let mut expected = 0;
    for _ in 0..60 {
        let script = short_script(&mut cases.random);
        for len in 0..=script.len() {
            compare(&mut cases, &script[..len]);
        }
        expected += script.len() + 1;
    }
    cases.end(expected);
}

#[test]
fn scripts_with_a_byte_changed() {
    let mut cases = Cases::of("scripts with one byte changed, dropped or put in");
    let mut expected = 0;
    for _ in 0..30 {
        let script = short_script(&mut cases.random);
        for place in 0..script.len() {
            let other = *cases.random.pick(b"0123456789:,-+ p\0\xff");
            let bit = 1 << cases.random.up_to(7);
            let mut changed = script.clone();
            changed[place] ^= bit;
            compare(&mut cases, &changed);
            changed[place] = other;
            compare(&mut cases, &changed);
            changed[place] = script[place];
            changed.insert(place, other);
            compare(&mut cases, &changed);
            changed.drain(place..place + 2);
            compare(&mut cases, &changed);
        }
        expected += 4 * script.len();
    }
    cases.end(expected);
}

#[test]
fn bytes_at_random() {
    let mut cases = Cases::of("bytes of few kinds at random");
    for _ in 0..20_000 {
        let len = cases.random.up_to(30);
        let script: Vec<u8> = (0..len).map(|_| *cases.random.pick(b"001234:,p")).collect();
        compare(&mut cases, &script);
    }
    cases.end(20_000);
}

#[test]
fn lengths_written_otherwise() {
    let mut cases = Cases::of("lengths written otherwise");
    let (max, beyond) = (usize::MAX.to_string(), "18446744073709551616");
    let lens = [
        "2",
        "02",
        "002",
        "00000000000000000002",
        "+2",
        " 2",
        "2 ",
        "-2",
        "0x2",
        "2.0",
        "",
        "0",
        "00",
        "1",
        "3",
        "20",
        "\u{662}",
        "4294967298",
        &max,
        beyond,
        "18446744073709551618",
        "99999999999999999999999999999999999999999",
    ];
    for len in lens {
        let text = format!("{len}:ab,");
        let parts = format!("3:put,{text}");
        let inner = netstring::write(parts.as_bytes());
        let Checked { answers, .. } = compare(&mut cases, &inner);
        assert_eq!(answers == b"1:1,", len == "2");
        assert_eq!(answers == b"4:-2@0,", len != "2");
        let Checked { answers, .. } = compare(&mut cases, text.as_bytes());
        assert_eq!(answers == b"4:-2@0,", len == "2");
        assert_eq!(answers == b"4:-1@0,", len != "2");
        // The same behind a call.
        let behind = [&call(&[b"put", b""]), text.as_bytes()].concat();
        let Checked { answers, .. } = compare(&mut cases, &behind);
        assert_eq!(answers == b"1:1,5:-2@12,", len == "2");
        assert_eq!(answers == b"1:1,5:-1@12,", len != "2");
    }
    cases.end(3 * 22);
}

#[test]
fn numbers_written_otherwise() {
    let mut cases = Cases::of("numbers written otherwise");
    // Document 0 is there and empty, document 1 is not there.
    let no_number = b"4:-2@0,";
    let answers: [(&str, &[u8]); 18] = [
        ("0", b"0:,"),
        ("1", b"4:-5@0,"),
        ("12", b"4:-5@0,"),
        ("1000000", b"4:-5@0,"),
        ("9999999", b"4:-5@0,"),
        ("10000000", no_number),
        ("00", no_number),
        ("01", no_number),
        ("0000000", no_number),
        ("0000001", no_number),
        ("", no_number),
        ("+0", no_number),
        ("-0", no_number),
        (" 0", no_number),
        ("0 ", no_number),
        ("0x0", no_number),
        ("4294967296", no_number),
        ("18446744073709551616", no_number),
    ];
    for (number, expected) in answers {
        let Checked { answers, .. } = compare(&mut cases, &call(&[b"text", number.as_bytes()]));
        assert_eq!(answers, expected);
        let Checked { answers, .. } =
            compare(&mut cases, &call(&[b"cut", b"0", b"0", number.as_bytes()]));
        let made = number == "0";
        assert_eq!(answers == b"1:1,", made);
        assert_eq!(answers == no_number, !made && expected == no_number);
        assert_eq!(answers == b"4:-6@0,", !made && expected != no_number);
    }
    cases.end(2 * 18);
}

#[test]
fn words_and_how_many_arguments() {
    let mut cases = Cases::of("words with each number of arguments");
    let words = [
        ("put", 1),
        ("cut", 3),
        ("splice", 4),
        ("mark", 1),
        ("text", 1),
    ];
    for (word, arguments) in words {
        let longer = format!("{word}s");
        let upper = word.to_uppercase();
        let spaced = format!(" {word}");
        for tried in [
            word,
            &word[1..],
            &word[..word.len() - 1],
            &longer,
            &upper,
            &spaced,
            "",
        ] {
            for count in 0..=9 {
                let Checked { answers, .. } =
                    compare(&mut cases, &numbered(tried, &vec![0; count]));
                let lawful = tried == word && count == arguments;
                assert_eq!(answers == b"4:-2@0,", !lawful);
            }
        }
    }
    cases.end(5 * 7 * 10);
}

#[test]
fn longest_texts() {
    let mut cases = Cases::of("texts of up to 4,097 bytes");
    for len in [4_095, 4_096, 4_097] {
        let text = cases.random.text(len);
        let Checked { answers, .. } = compare(&mut cases, &call(&[b"put", &text]));
        assert_eq!(answers == b"1:1,", len <= 4_096);
        assert_eq!(answers == b"4:-7@0,", len > 4_096);
        // A document may be longer than a text that is put, and then it is not told.
        let script = [
            call(&[b"put", &text[..len - 1]]),
            call(&[b"put", &text[len - 1..]]),
            numbered("splice", &[1, len - 1, len - 1, 2]),
            numbered("text", &[3]),
        ];
        let Checked { answers, .. } = compare(&mut cases, &script.concat());
        let told = [&b"1:1,1:2,1:3,"[..], &netstring::write(&text)].concat();
        assert_eq!(answers == told, len <= 4_096);
        assert_eq!(
            answers.starts_with(b"1:1,1:2,1:3,4:-8@") || answers.starts_with(b"1:1,1:2,1:3,7:-8@"),
            len > 4_096
        );
    }
    cases.end(2 * 3);
}

#[test]
fn longest_documents() {
    let mut cases = Cases::of("documents of 1 MiB");
    for more in [0, 1] {
        // Document 1 + n has n times been doubled.
        let text = cases.random.text(4_096);
        let mut script = call(&[b"put", &text]);
        for d in 1..=8 {
            script.extend(numbered("splice", &[d, 0, 0, d]));
        }
        // A byte is cut off and put back, or one more.
        script.extend(numbered("cut", &[1, 0, 1 + more]));
        script.extend(numbered("splice", &[9, 7, 8, 10]));
        script.extend(numbered("mark", &[9]));
        script.extend(numbered("text", &[9]));
        script.extend(numbered("cut", &[9, 1_048_576, 1_048_576]));
        script.extend(numbered("cut", &[9, 0, 1_048_577]));
        let Checked { answers, .. } = compare(&mut cases, &script);
        // How many records a splice takes, the documents leave open: a version that takes more may answer otherwise.
        assert!(answers.starts_with(b"1:1,1:2,1:3,1:4,1:5,1:6,1:7,1:8,1:9,2:10,"));
        let too_long = answers.windows(3).any(|part| part == b"-7@");
        assert_eq!(too_long, more == 1);
    }
    cases.end(2);
}

#[test]
fn all_places() {
    let mut cases = Cases::of("scripts that take all 64 places");
    let put = call(&[b"put", b""]);
    for last in [
        put.clone(),
        call(&[b"put", b"x"]),
        numbered("cut", &[0, 0, 0]),
        numbered("splice", &[64, 0, 0, 64]),
    ] {
        for before in 62..=66 {
            let script = [put.repeat(before), last.clone()].concat();
            let checked = compare(&mut cases, &script);
            assert_eq!(checked.open, 0);
            let spent = format!("-13@{}", put.len() * before);
            assert_eq!(
                checked
                    .answers
                    .ends_with(&netstring::write(spent.as_bytes())),
                before >= 64
            );
        }
    }
    cases.end(4 * 5);
}

#[test]
fn records_run_out() {
    let mut cases = Cases::of("scripts with many edits of long documents");
    let (mut calls, mut open, mut short) = (0, 0, 0);
    for _ in 0..400 {
        let random = &mut cases.random;
        let mut script = Vec::new();
        for _ in 0..3 {
            let len = 4_000 + random.up_to(96);
            script.extend(call(&[b"put", &random.text(len)]));
        }
        // Each document is the one before twice, and then edits of the last of these and of the short ones follow.
        let doublings = random.up_to(7);
        for d in 3..3 + doublings {
            script.extend(numbered("splice", &[d, 0, 0, d]));
        }
        for _ in 3 + doublings..64 {
            let (d, len) = *random.pick(&[(3 + doublings, 4_000 << doublings), (2, 4_000)]);
            let (from, to) = random.part(len);
            script.extend(match random.up_to(1) {
                0 => numbered("cut", &[d, from, to]),
                _ => numbered("splice", &[d, from, to, 1]),
            });
        }
        // Long documents take the reference long.
        script.extend(numbered("mark", &[random.up_to(4)]));
        let checked = compare(&mut cases, &script);
        calls += checked.ends.len();
        open += checked.open;
        let refused = |part: &&[u8]| part == b"-12@";
        short += checked.answers.windows(4).filter(refused).count();
    }
    println!(
        "{short} of {calls} answers are RECORDS SHORT; {open} may be it or not, by the documents"
    );
    assert!(
        short > 1_000,
        "no test of RECORDS SHORT: write longer scripts"
    );
    cases.end(400);
}

#[test]
fn lengths_of_scripts() {
    let mut cases = Cases::of("scripts around 16,384 bytes and beyond");
    let lens = [16_382, 16_383, 16_384, 16_385, 16_386, 32_768, 1_048_576];
    for len in lens {
        // All of it one netstring, or calls as far as they go.
        let filled = netstring::write(&vec![b'x'; len - 2 - len.to_string().len()]);
        assert_eq!(filled.len(), len);
        let calls = call(&[b"put", b"ab"]).repeat(len.div_ceil(15));
        for script in [&filled, &calls[..len]] {
            if len <= MOST_SCRIPT {
                compare(&mut cases, script);
                continue;
            }
            assert_eq!(
                vault::run_script(script).map_err(|refusal| refusal.number()),
                Err(7)
            );
            // 7 comes before 8.
            for room in [0, MOST_ANSWER - 1, MOST_ANSWER, 2 * MOST_ANSWER] {
                compare_in_room(&mut cases, script, &Checked::default(), room);
            }
        }
    }
    cases.end(3 * 2 + 4 * 2 * 4);
}

#[test]
fn rooms() {
    let mut cases =
        Cases::of("scripts into rooms where they are refused, cut short, and run to the end");
    let mut expected = 0;
    for round in 0..40 {
        let puts = if round % 4 == 0 { LONG } else { SHORT };
        let script = Writer::new(&mut cases.random, puts).script(20, MOST_SCRIPT);
        let whole = compare(&mut cases, &script);
        let around = |len| len + MOST_ANSWER - 1..=len + MOST_ANSWER + 1;
        let edges = whole.ends.iter().flat_map(|end| around(end.len));
        let rooms: Vec<usize> = (0..=40).chain(4_090..=4_115).chain(edges).collect();
        for room in &rooms {
            compare_in_room(&mut cases, &script, &whole, *room);
        }
        expected += 1 + rooms.len();
    }
    cases.end(expected);
}

#[test]
fn longest_answers() {
    let mut cases = Cases::of("answers of up to 3 MiB, in rooms of every size");
    let text = cases.random.text(4_096);
    let script = [call(&[b"put", &text]), numbered("text", &[1]).repeat(800)].concat();
    let whole = compare(&mut cases, &script);
    assert_eq!(whole.answers.len(), 4 + 800 * MOST_ANSWER);
    assert_eq!(vault::run_script(&script).unwrap(), whole.answers);
    for _ in 0..200 {
        let room = cases.random.up_to(whole.answers.len() + MOST_ANSWER);
        compare_in_room(&mut cases, &script, &whole, room);
    }
    cases.end(1 + 200);
}

#[test]
fn from_threads_with_little_stack() {
    let mut cases = Cases::of("scripts run by four threads at once, each with 256 KiB of stack");
    let scripts: Vec<_> = (0..50)
        .map(|_| {
            let script = Writer::new(&mut cases.random, LONG).script(60, MOST_SCRIPT);
            let answers = vault::run_script(&script).unwrap();
            check(&script, answers.clone()).unwrap();
            (script, answers)
        })
        .collect();
    thread::scope(|scope| {
        let run_all = || {
            for (script, answers) in &scripts {
                assert_eq!(&vault::run_script(script).unwrap(), answers);
            }
            scripts.len()
        };
        let start = || {
            thread::Builder::new()
                .stack_size(256 * 1_024)
                .spawn_scoped(scope, run_all)
        };
        let threads: Vec<_> = (0..4).map(|_| start().unwrap()).collect();
        for thread in threads {
            for _ in 0..thread.join().unwrap() {
                cases.count();
            }
        }
    });
    cases.end(4 * 50);
}
