//! Verdicts on texts, and lists of the texts of a script.
use crate::core;
use crate::errors::JudgeError;
use crate::Limits;

/// A verdict on a text.
#[derive(Clone, Debug, PartialEq, Eq)]
pub enum Verdict {
    /// The script may print the text.
    Legal,
    /// The script doesn't print the text.
    NotLegal {
        /// The number of commands that may have printed the text before the break.
        commands: u64,
        /// The number of bytes of the text before the break.
        at: u64,
        /// Advice for a person: the likeliest text there, or a line in words. If the text should
        /// end there, or no order of a submission's requests explains its lines, it is the reason
        /// that `fixcheck` prints.
        expected: String,
    },
    /// Neither was shown within the limits.
    Undecided {
        /// The accepted submission that was not decided, from 1.
        submission: u32,
    },
}

/// The texts that a script may print if no allocation fails.
#[derive(Clone, Debug, PartialEq, Eq)]
pub struct Outcomes {
    /// The texts, each once.
    pub texts: Vec<Vec<u8>>,
    /// Whether these are all.
    pub are_all: bool,
}

// Calls the judge with room for a note of this length. Returns its number, the details, and the
// first bytes of the note.
fn judged(
    script: &[u8],
    text: &[u8],
    limits: Limits,
    room: usize,
) -> (u32, core::Verdict, Vec<u8>) {
    let mut verdict = core::Verdict::default();
    let mut note = vec![0; room];
    // SAFETY: the slices are valid for their lengths, and the written ones overlap no other.
    let number = unsafe {
        core::yacht_judge_6(
            script.as_ptr(),
            script.len(),
            text.as_ptr(),
            text.len(),
            limits.states,
            limits.memory,
            note.as_mut_ptr(),
            note.len(),
            &mut verdict,
        )
    };
    note.truncate(verdict.note as usize);
    (number, verdict, note)
}

/// Decides whether a script may print a text, by a search within the limits for each part of a
/// submission that has slots of its own.
///
/// ```
/// use yachtjudge::{judge, JudgeError, Limits, Verdict};
///
/// let none = judge(b"sparse 1\n", b"", Limits::default());
/// assert!(matches!(none, Ok(Verdict::NotLegal { expected, .. }) if expected == "sparse 0\n"));
/// let fault = judge(b"sparse\n", b"", Limits::default());
/// assert!(matches!(fault, Err(JudgeError::BadScript { line: 1, .. })));
/// ```
///
/// # Errors
/// [`JudgeError::BadScript`] or [`JudgeError::NoMemory`].
pub fn judge(script: &[u8], text: &[u8], limits: Limits) -> Result<Verdict, JudgeError> {
    let mut room = 65_536;
    let (number, verdict, note) = loop {
        let (number, verdict, note) = judged(script, text, limits, room);
        if verdict.note as usize <= room {
            break (number, verdict, note);
        }
        room = verdict.note as usize;
    };
    let words = String::from_utf8_lossy(&note).into_owned();
    match number {
        core::LEGAL => Ok(Verdict::Legal),
        core::NOT_LEGAL => {
            Ok(Verdict::NotLegal { commands: verdict.commands, at: verdict.at, expected: words })
        }
        core::UNDECIDED => Ok(Verdict::Undecided { submission: verdict.submission }),
        core::BAD_SCRIPT => Err(JudgeError::BadScript { line: verdict.line, fault: words }),
        _ => Err(JudgeError::NoMemory),
    }
}

/// Lists the texts that a script may print if no allocation fails, each once, by searches within
/// the limits in all.
///
/// ```
/// use yachtjudge::{outcomes, Limits};
///
/// let two = b"file a 61\nsparse 2\nopen a any\nopen a any\nsubmit\n";
/// let found = outcomes(two, Limits::default()).unwrap();
/// assert_eq!((found.texts.len(), found.are_all), (2, true));
/// ```
///
/// # Errors
/// [`JudgeError::BadScript`] or [`JudgeError::NoMemory`].
pub fn outcomes(script: &[u8], limits: Limits) -> Result<Outcomes, JudgeError> {
    let (mut texts, mut lengths) = (vec![0; 1 << 20], vec![0; 4_096]);
    loop {
        let mut found = core::Texts::default();
        // SAFETY: the slices are valid for their lengths, and the written ones overlap no other.
        let number = unsafe {
            core::yacht_outcomes_6(
                script.as_ptr(),
                script.len(),
                limits.states,
                limits.memory,
                texts.as_mut_ptr(),
                texts.len(),
                lengths.as_mut_ptr(),
                lengths.len(),
                &mut found,
            )
        };
        match number {
            core::NO_ROOM => {
                texts.resize(texts.len().max(found.bytes as usize), 0);
                lengths.resize(lengths.len().max(found.count as usize), 0);
            }
            // the judge names the fault
            core::BAD_SCRIPT => {
                let (_, verdict, note) = judged(script, b"", Limits { states: 0, memory: 0 }, 256);
                let fault = String::from_utf8_lossy(&note).into_owned();
                let line = verdict.line;
                return Err(JudgeError::BadScript { line, fault });
            }
            core::NO_MEMORY => return Err(JudgeError::NoMemory),
            _ => {
                let counted = &lengths[..found.count as usize];
                return Ok(Outcomes {
                    texts: split(&texts, counted),
                    are_all: number == core::ALL,
                });
            }
        }
    }
}

// Splits texts that are written one after another.
fn split(texts: &[u8], lengths: &[u64]) -> Vec<Vec<u8>> {
    let mut rest = texts;
    let mut each = Vec::new();
    for length in lengths {
        let (text, others) = rest.split_at(*length as usize);
        each.push(text.to_vec());
        rest = others;
    }
    each
}
