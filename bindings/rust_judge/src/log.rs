//! Logs of calls in flight.
use crate::core;
use crate::errors::JudgeError;
use crate::Step;

/// A file: the request that installed it, and its number in the catalogue.
#[derive(Clone, Copy, Debug, PartialEq, Eq)]
pub struct File {
    /// The number of the call in the log.
    pub call: u32,
    /// The number of the member in its chain, from 1.
    pub member: u32,
    /// The position in the list of an update, from 0; 0 for an open.
    pub entry: u32,
    /// The number of the file in the catalogue, from 0.
    pub file: u8,
}

/// The limits of a judgement of a log. [`LogLimits::default`] are those of `fixcheck`, with any
/// number of moves.
#[derive(Clone, Copy, Debug, PartialEq, Eq)]
pub struct LogLimits {
    /// The largest number of states of a search.
    pub states: u32,
    /// The largest number of MiB for the states of a search.
    pub memory: u32,
    /// The largest number of moves of all searches together: states that a search tries or
    /// follows, the same one perhaps more than once. If they need more, the log is undecided, and
    /// else the verdict is that of a judgement without this limit. The search for the reason makes
    /// no move. `u64::MAX` is no limit.
    pub moves: u64,
}

impl Default for LogLimits {
    fn default() -> LogLimits {
        LogLimits { states: 1_000_000, memory: 1_024, moves: u64::MAX }
    }
}

/// A verdict on a log.
#[derive(Clone, Debug, PartialEq, Eq)]
pub enum LogVerdict {
    /// The log has a flight: the rules allow what it shows.
    Legal,
    /// Up to and with this line, the log has no flight in which each request finds memory, or none
    /// by whole updates if they were required.
    NotLegal {
        /// The line, from 1.
        line: usize,
        /// The steps of the reason why the log has no flight up to and with that line. Each
        /// follows from the log and from steps before it, and the last one has a point before
        /// itself. There are none if no reason is found.
        reason: Vec<Step>,
    },
    /// Neither was shown within the limits, or the log has an answer -12.
    Undecided,
}

// The number of steps of a reason that the judge has room for at first, and room for a fault.
const ROOM: usize = 4096;
const FAULT_ROOM: usize = 400;

/// Judges the text of a log of calls in flight, as a recorder prints it (docs/inside/FLIGHT.md), by
/// searches within the limits.
///
/// A read is open while another call closes the slot. It may find the file. A read that is called
/// after the answer of the close can't find it.
///
/// ```
/// use yachtjudge::{judge_log, JudgeError, LogLimits, LogVerdict};
///
/// let head = "file page.html 68656c6c6f\ncall 1 sparse 1\ndone 1.1 0\n";
/// let open = "call 2 open page.html at 0\ndone 2.1 0\n";
/// let close = "call 4 close 0\ndone 4.1 0\n";
/// let read = ["call 3 read 0 0 5\n", "done 3.1 5 68656c6c6f\n"];
/// let judge = |text: String| judge_log(text.as_bytes(), LogLimits::default());
///
/// let beside = format!("{head}{open}{}{close}{}", read[0], read[1]);
/// assert_eq!(judge(beside), Ok(LogVerdict::Legal));
///
/// // the reason ends with a point in time that comes before itself
/// let late = judge(format!("{head}{open}{close}{}{}", read[0], read[1]));
/// let Ok(LogVerdict::NotLegal { line: 9, reason }) = late else { panic!("{late:?}") };
/// let last = reason.last().unwrap();
/// assert!(last.is_strict && last.before == last.after);
///
/// let fault = "the last line has no end: 'settled'".to_string();
/// assert_eq!(judge(format!("{head}settled")), Err(JudgeError::NotALog { line: 4, fault }));
/// ```
///
/// # Errors
/// Any [`JudgeError`] but [`JudgeError::BadScript`].
pub fn judge_log(text: &[u8], limits: LogLimits) -> Result<LogVerdict, JudgeError> {
    judge_by(text, false, limits)
}

/// Judges the text of a log by whole updates, by searches within the limits: each update is one
/// step, as on Linux, not one for each entry.
///
/// # Errors
/// Those of [`judge_log`].
pub fn judge_log_by_whole_updates(
    text: &[u8],
    limits: LogLimits,
) -> Result<LogVerdict, JudgeError> {
    judge_by(text, true, limits)
}

fn judge_by(text: &[u8], is_whole: bool, limits: LogLimits) -> Result<LogVerdict, JudgeError> {
    let mut room = ROOM;
    let (number, reading, note, mut steps) = loop {
        let (number, reading, note, steps) = judged(text, is_whole, limits, room);
        if reading.steps as usize <= room {
            break (number, reading, note, steps);
        }
        room = reading.steps as usize;
    };
    let line = reading.line as usize;
    let fault = String::from_utf8_lossy(&note[..reading.note as usize]).into_owned();
    match number {
        core::LEGAL => Ok(LogVerdict::Legal),
        core::NOT_LEGAL => {
            steps.truncate(reading.steps as usize);
            Ok(LogVerdict::NotLegal { line, reason: steps.iter().map(Step::of).collect() })
        }
        core::UNDECIDED => Ok(LogVerdict::Undecided),
        core::NOT_A_LOG => Err(JudgeError::NotALog { line, fault }),
        core::KERNEL_LOG => Err(JudgeError::KernelLog { line }),
        core::LONG_LOG => Err(JudgeError::LongLog),
        _ => Err(JudgeError::NoMemory),
    }
}

// Judges a text with room for this number of steps. Returns the number, the details, the fault and
// the steps.
fn judged(
    text: &[u8],
    is_whole: bool,
    limits: LogLimits,
    room: usize,
) -> (u32, core::Reading, [u8; FAULT_ROOM], Vec<core::Step>) {
    let (mut reading, mut note) = (core::Reading::default(), [0; FAULT_ROOM]);
    let mut steps = vec![core::Step::default(); room];
    // SAFETY: the slices are valid for their lengths, and the written ones overlap no other.
    let number = unsafe {
        core::yacht_judge_log_6(
            text.as_ptr(),
            text.len(),
            u32::from(is_whole),
            limits.states,
            limits.memory,
            limits.moves,
            note.as_mut_ptr(),
            FAULT_ROOM,
            steps.as_mut_ptr(),
            room,
            &mut reading,
        )
    };
    (number, reading, note, steps)
}
