//! Tests of the library against a second implementation, which is written from the repository's documents alone.
//!
//! Each test makes its cases from one fixed seed, prints how many it ran, and fails where that is another number than it
//! names. A case is a call of the library whose whole answer, and whole buffer, are compared.

mod cases;
mod fingerprints;
mod read_back;
mod records;
mod reference;
mod scripts;
mod types;
