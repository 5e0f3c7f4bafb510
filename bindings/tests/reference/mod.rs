//! A second implementation of the library, written from the repository's documents alone and made to be simple.

pub mod fingerprint;
pub mod netstring;
pub mod script;
mod shelf;
pub mod window;
