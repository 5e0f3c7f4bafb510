//! RECORDS SHORT comes exactly when fewer records are free than the need. How many an edit takes is open, but how many
//! are left can be told: by texts that are put, of which the documents fix need and use. Against that are held the needs
//! of edits of documents that were put, whose heights are fixed too.

use std::str;

use crate::cases::Cases;
use crate::reference::netstring;
use crate::reference::script::Checked;
use crate::scripts::{call, compare, numbered};

const PLACES: usize = 64;

/// A text that is put of so many leaves is log2 of them high, if they are a power of two.
fn put(leaves: usize) -> Vec<u8> {
    call(&[b"put", &vec![b'x'; 64 * leaves]])
}

/// The number of the refusal of the last call, or 0.
fn refusal_of_last(cases: &mut Cases, calls: &[&[u8]]) -> u32 {
    let Checked { answers, ends, .. } = compare(cases, &calls.concat());
    let [.., before, _] = ends[..] else {
        panic!("fewer than two calls")
    };
    let (answer, _) = netstring::read(&answers, before.len).unwrap();
    let answer = str::from_utf8(answer).unwrap();
    let refusal = answer
        .strip_prefix('-')
        .and_then(|answer| answer.split('@').next());
    refusal.map_or(0, |number| number.parse().unwrap())
}

/// The number of free records behind a script, where it is from 2 to 125: seven cases.
///
/// A text of k leaves is put exactly where 2k records are free, and takes 2k - 1. So of the longest that fits one or two
/// are left, and one more leaf tells which.
fn free_records(cases: &mut Cases, script: &[u8]) -> Option<usize> {
    let mut leaves = 0;
    for step in [32, 16, 8, 4, 2, 1] {
        if refusal_of_last(cases, &[script, &put(leaves + step)]) == 0 {
            leaves += step;
        }
    }
    let left = refusal_of_last(cases, &[script, &put(leaves), &put(1)]) == 0;
    (1..63)
        .contains(&leaves)
        .then_some(2 * leaves + usize::from(left))
}

#[test]
fn needs_of_edits() {
    let mut cases = Cases::of("edits where few records are free");
    let mut expected = 0;
    let (mut measured, mut odd) = (0, 0);
    for _ in 0..5 {
        // Documents 1 to 5 are 0 to 4 high, 6 and 7 are 6 high, and 8 to 11 are 7 doubled.
        let mut script: Vec<u8> = [1, 2, 4, 8, 16, 64, 64].into_iter().flat_map(put).collect();
        for d in 7..11 {
            script.extend(numbered("splice", &[d, 0, 0, d]));
        }
        let mut made = 11;
        // Edits, the highest first, until each is refused. Three places are left, for one more and for texts.
        let edited = [
            (11, 65_536),
            (7, 4_096),
            (5, 1_024),
            (4, 512),
            (3, 256),
            (2, 128),
            (1, 64),
        ];
        for (d, len) in edited {
            while made < PLACES - 3 {
                let (from, to) = cases.random.part(len);
                let edit = numbered("splice", &[d, from, to, d]);
                expected += 1;
                if refusal_of_last(&mut cases, &[&script, &edit]) != 0 {
                    break;
                }
                script.extend(edit);
                made += 1;
                expected += 7;
                let Some(free) = free_records(&mut cases, &script) else {
                    continue;
                };
                measured += 1;
                odd += free % 2;
                for high in 1..=5 {
                    let h = high - 1;
                    let short = 32 * (h + 1) > free;
                    for low in 1..=high {
                        for edit in [
                            numbered("cut", &[high, 0, 9]),
                            numbered("splice", &[high, 7, 8, low]),
                            numbered("splice", &[low, 7, 8, high]),
                        ] {
                            let refusal = refusal_of_last(&mut cases, &[&script, &edit]);
                            assert_eq!(refusal, if short { 12 } else { 0 });
                            // Where no place is left either, 12 comes before 13.
                            let full = put(0).repeat(PLACES - made);
                            let refusal = refusal_of_last(&mut cases, &[&script, &full, &edit]);
                            assert_eq!(refusal, if short { 12 } else { 13 });
                            expected += 2;
                        }
                    }
                    if short {
                        continue;
                    }
                    for (edit, most) in [
                        (numbered("cut", &[high, 5, 60]), 8 * h + 2),
                        (numbered("splice", &[high, 5, 60, high]), 17 * h + 13),
                    ] {
                        let after = free_records(&mut cases, &[&script[..], &edit].concat());
                        let taken = free - after.expect("no edit takes all of its need");
                        assert!(taken <= most, "{taken} records for an edit {h} high");
                        expected += 7;
                    }
                }
            }
        }
    }
    println!("few records were free {measured} times, {odd} times an odd number");
    assert!(measured > 30);
    // If texts that are put took another number of records, these would be none or all.
    assert!((1..measured).contains(&odd));
    cases.end(expected);
}
