//! The text shelf from Rust: fingerprints of texts, read-back, and scripts.
//!
//! All work is done by a static library whose code is proved against its contracts: the crate `vault` of this
//! repository. This package hands it slices and gives its answers the types that a Rust program expects.
//!
//! - [`Fingerprint`]: Zémor's fingerprint of a text. A change inside five bytes always shows in it.
//! - [`read_back`]: from a text, a part of it and the fingerprint of the changed text, the bytes that were written there.
//! - [`run_script`]: runs calls on a fresh shelf, and gives their answers.
//! - [`buffer`]: the same in memory that the caller brings, with no allocation.
//!
//! ```
//! use vault::{Fingerprint, read_back};
//!
//! let live = b"lease = 3600";
//! let release = b"lease = 86400";
//!
//! let told = Fingerprint::of(release);
//! assert_ne!(told, Fingerprint::of(live));
//! assert_eq!(*read_back(live, 8..10, told)?, *b"864");
//! # Ok::<(), vault::Refusal>(())
//! ```

#[allow(unsafe_code)]
mod ffi;
mod fingerprint;
mod refusal;
mod script;
mod window;

pub use fingerprint::Fingerprint;
pub use refusal::Refusal;
pub use script::run_script;
pub use window::{Window, read_back, read_back_digits};

/// The calls of the library, each answering in a buffer that the caller brings.
///
/// An answer is written at the buffer's start. What lies behind it keeps its bytes, and a refused call leaves the whole
/// buffer as it was.
pub mod buffer {
    pub use crate::ffi::{
        MOST_ANSWER, MOST_SCRIPT, Run, fingerprint_bytes, fingerprint_digits, read_back, run_script,
    };
}
