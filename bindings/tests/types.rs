//! What the types of the package print and convert.

use std::error::Error;

use vault::{Fingerprint, Refusal, read_back};

use crate::cases::Cases;

/// Each refusal has the number and both names that the table of the documents gives it.
#[test]
fn refusals_of_the_documents() {
    let mut cases = Cases::of("refusals of docs/REFUSALS.md");
    let rows: Vec<Vec<&str>> = include_str!("../../docs/REFUSALS.md")
        .lines()
        .map(|row| row.split('|').map(str::trim).collect())
        .collect();
    for refusal in [
        Refusal::BadPart,
        Refusal::TooLong,
        Refusal::SmallBuffer,
        Refusal::BadFingerprint,
        Refusal::NoWindow,
    ] {
        let number = refusal.number().to_string();
        let row = rows.iter().find(|row| row.get(1) == Some(&number.as_str()));
        let row = row.expect("a row with this number");
        assert_eq!(row[2], refusal.name());
        assert_eq!(row[3], format!("`{refusal:?}`"));
        let error: Box<dyn Error> = refusal.into();
        assert_eq!(error.to_string(), format!("refused: {} ({number})", row[2]));
        cases.count();
    }
    cases.end(5);
}

#[test]
fn forms_that_are_printed() {
    let mut cases = Cases::of("fingerprints and windows, printed");
    let fingerprint = Fingerprint::of(b"ab");
    let digits = "0000014500000240000000e00000018d";
    assert_eq!(format!("{fingerprint:?}"), format!("Fingerprint({digits})"));
    assert_eq!(format!("{fingerprint:>34}"), format!("  {digits}"));
    cases.count();
    let window = read_back(b"a", 1..1, fingerprint).unwrap();
    assert_eq!(format!("{window:?}"), r#"Window(b"b")"#);
    assert_eq!((window.as_ref(), window.len()), (&b"b"[..], 1));
    cases.count();
    cases.end(2);
}
