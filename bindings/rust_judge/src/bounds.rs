//! What the compiler must accept of the crate's types. Each of them owns plain data: it goes to
//! another thread, is shared, is moved, and may be used after a panic. None has a parameter.
//!
//! ```
//! use std::panic::{RefUnwindSafe, UnwindSafe};
//! use yachtjudge::{File, JudgeError, Limits, LogLimits, LogVerdict, Outcomes};
//! use yachtjudge::{Point, Rule, Step, Verdict};
//!
//! fn plain<T: Clone + Send + Sync + UnwindSafe + RefUnwindSafe + Unpin + 'static>() {}
//! fn error<T: std::error::Error>() {}
//! plain::<(File, JudgeError, Limits, LogLimits, LogVerdict, Outcomes)>();
//! plain::<(Point, Rule, Step, Verdict)>();
//! error::<JudgeError>();
//! ```
