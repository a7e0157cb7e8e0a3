//! The reasons why a script or a log isn't judged.
use std::error::Error;
use std::fmt;

/// The reason why there is no verdict.
#[derive(Clone, Debug, PartialEq, Eq)]
#[non_exhaustive]
pub enum JudgeError {
    /// The bytes aren't a script.
    BadScript {
        /// The line of the first fault, from 1, or 0 if there are too many bytes.
        line: u32,
        /// The name of the fault, such as `word-count`.
        fault: String,
    },
    /// The text isn't a log.
    NotALog {
        /// The first line that no log has there, from 1.
        line: usize,
        /// The fault of the line.
        fault: String,
    },
    /// The log has a line that the kernel's recorder alone prints. The Python module `yachtlog`
    /// judges it.
    KernelLog {
        /// The first such line, from 1.
        line: usize,
    },
    /// The text of a log has 2^32 bytes or more.
    LongLog,
    /// An allocation of the judge failed.
    NoMemory,
}

impl fmt::Display for JudgeError {
    fn fmt(&self, f: &mut fmt::Formatter<'_>) -> fmt::Result {
        match self {
            JudgeError::BadScript { line, fault } => write!(f, "line {line}: {fault}"),
            JudgeError::NotALog { line, fault } => write!(f, "line {line}: {fault}"),
            JudgeError::KernelLog { line } => {
                write!(f, "line {line}: only the recorder of a kernel prints this")
            }
            JudgeError::LongLog => f.write_str("the log has 2^32 bytes or more"),
            JudgeError::NoMemory => f.write_str("an allocation of the judge failed"),
        }
    }
}

impl Error for JudgeError {}
