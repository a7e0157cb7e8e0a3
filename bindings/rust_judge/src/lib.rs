//! The verified judge of io_uring's registered file table: decides whether a script may print a
//! text ([`judge`]), lists the texts that a script may print ([`outcomes`]), and judges logs of
//! calls in flight ([`judge_log`]). The verdict on a log that isn't legal has the reason.
//!
//! A script is what `fixfiles` plays. A text is what `fixfiles`, or a kernel, prints for it. The
//! library `libyachtjudge.a` is proved; this crate passes arguments to it.
//!
//! ```
//! use yachtjudge::{judge, Limits, Verdict};
//!
//! let script = b"file a.txt 68656c6c6f\nsparse 2\nopen a.txt at 0\nsubmit\n";
//! let text = b"sparse 0\n1.1.1 0\nteardown\nclosed 1.1.1.0 a.txt\n";
//! assert_eq!(judge(script, text, Limits::default()), Ok(Verdict::Legal));
//! ```
#![warn(missing_docs)]

#[cfg(doctest)]
#[doc = include_str!("../README.md")]
struct Readme;

#[cfg(doctest)]
mod bounds;
mod core;
mod errors;
mod log;
mod reason;
mod script;

pub use errors::JudgeError;
pub use log::{judge_log, judge_log_by_whole_updates, File, LogLimits, LogVerdict};
pub use reason::{Point, Rule, Step};
pub use script::{judge, outcomes, Outcomes, Verdict};

/// The limits of a search for a script. [`Limits::default`] are those of `fixcheck`.
#[derive(Clone, Copy, Debug, PartialEq, Eq)]
pub struct Limits {
    /// The largest number of states.
    pub states: u32,
    /// The largest number of MiB for the states.
    pub memory: u32,
}

impl Default for Limits {
    fn default() -> Limits {
        Limits { states: 1_000_000, memory: 1_024 }
    }
}
