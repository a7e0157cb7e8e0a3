//! The lines of a log, and the values that note when they are dropped.
use crate::meeting::{locked, Cut};
use std::cell::Cell;
use std::collections::{HashMap, HashSet};
use std::fmt;
use std::process::ExitCode;
use std::sync::atomic::{AtomicBool, AtomicU64, AtomicUsize, Ordering::SeqCst};
use std::sync::{Arc, Mutex};

/// What happened. A call has a number, from 2 on, and a value that of the call that made it.
#[derive(Clone, Copy, Debug)]
pub(crate) enum Event {
    Call(usize, Call),
    /// The result of a call, and the value that a look found.
    Done(usize, i64, Option<usize>),
    /// The slot or key at which a call put its value.
    PutAt(usize, usize),
    Free(usize),
    Closed(usize),
    Settled,
}

/// A call by its slot.
#[derive(Clone, Copy, Debug)]
pub(crate) enum Call {
    Get(usize),
    Put(usize),
    PutAny,
    Take(usize),
}

/// The events of some threads, each with its ticket.
type Lines = Vec<(u64, Event)>;

/// The events of a recording.
#[derive(Debug)]
pub(crate) struct Notes {
    clock: AtomicU64,
    last_call: AtomicUsize,
    /// The lines of each thread that plays. The last list has those of all other threads, such as
    /// one by which the table drops values.
    lists: Box<[Mutex<Lines>]>,
}

thread_local! {
    /// The number of the thread's list. It has no destructor, so values may be dropped after it.
    static LIST: Cell<usize> = const { Cell::new(usize::MAX) };
}

impl Notes {
    /// Begins a recording of threads that are numbered from 0.
    pub(crate) fn new(threads: usize) -> Notes {
        Notes {
            clock: AtomicU64::new(0),
            // the first call is the registration of the table
            last_call: AtomicUsize::new(1),
            lists: (0..=threads).map(|_| Mutex::default()).collect(),
        }
    }

    /// Makes the calling thread the one with this number.
    pub(crate) fn begin_thread(number: usize) {
        LIST.set(number);
    }

    /// Appends an event of the calling thread, with the next ticket.
    pub(crate) fn note(&self, event: Event) {
        let at = self.clock.fetch_add(1, SeqCst);
        let list = LIST.get().min(self.lists.len() - 1);
        locked(&self.lists[list]).push((at, event));
    }

    /// Returns the number of a new call.
    pub(crate) fn next_call(&self) -> usize {
        self.last_call.fetch_add(1, SeqCst) + 1
    }

    /// Returns the number of tickets that were taken.
    pub(crate) fn tickets(&self) -> u64 {
        self.clock.load(SeqCst)
    }

    /// Takes the events up to now, in the order of their tickets. A thread that goes on meanwhile
    /// changes none of them: an event that follows from one of its own has a later ticket.
    fn taken(&self) -> Vec<Event> {
        let end = self.clock.fetch_add(1, SeqCst);
        let lists = self.lists.iter();
        let mut lines: Lines = lists.flat_map(|it| std::mem::take(&mut *locked(it))).collect();
        lines.retain(|(at, _)| *at < end);
        lines.sort_by_key(|(at, _)| *at);
        lines.into_iter().map(|(_, event)| event).collect()
    }
}

/// A value that a table keeps. Its drop is a line of the log.
#[derive(Debug)]
pub struct Value {
    pub(crate) call: usize,
    is_open: AtomicBool,
    notes: Arc<Notes>,
}

impl Value {
    pub(crate) fn new(call: usize, notes: &Arc<Notes>) -> Value {
        Value { call, is_open: AtomicBool::new(true), notes: notes.clone() }
    }

    /// Notes that the value is dropped now. Only the first time counts. A table needs this only if
    /// it ends the use of a value before its drop.
    pub fn close(&self) {
        if self.is_open.swap(false, SeqCst) {
            self.notes.note(Event::Closed(self.call));
        }
    }

    /// Ends a value that was in no table: it has no line.
    pub(crate) fn discard(self) {
        self.is_open.store(false, SeqCst);
    }
}

impl Drop for Value {
    fn drop(&mut self) {
        self.close();
    }
}

/// A log, in the order of its tickets. It is printed as docs/inside/FLIGHT.md describes.
#[derive(Debug)]
pub struct Log {
    events: Vec<Event>,
    slots: usize,
    /// For each key, in a table that chooses its slots, the slot in the log.
    keys: Option<HashMap<usize, usize>>,
    cut: Option<Cut>,
}

impl Log {
    /// Returns the log of all events up to now. If the table chooses its slots, each key becomes a
    /// slot of its own, in the order of their first mention.
    pub(crate) fn new(notes: &Notes, slots: usize, chooses: bool, cut: Option<Cut>) -> Log {
        let mut events = notes.taken();
        if cut.is_some() {
            leave_out_unanswered(&mut events);
        }
        let keys = chooses.then(|| {
            let mut keys = HashMap::new();
            for key in events.iter().filter_map(Event::key) {
                let next = keys.len();
                keys.entry(key).or_insert(next);
            }
            keys
        });
        let slots = keys.as_ref().map_or(slots, |keys| keys.len().max(1));
        Log { events, slots, keys, cut }
    }

    /// Returns why the log ends before its plan, or `None` if it has the whole plan.
    pub fn cut(&self) -> Option<Cut> {
        self.cut
    }

    /// Prints the log, and on standard error why it ends before its plan, if it does. Returns the
    /// exit status: 0, 1 if the log ends early, or 4 if it can't be printed.
    pub fn print(&self) -> ExitCode {
        use std::io::Write;
        if write!(std::io::stdout().lock(), "{self}").is_err() {
            return ExitCode::from(4);
        }
        let Some(cut) = self.cut else {
            return ExitCode::SUCCESS;
        };
        eprintln!("recorder: {cut}; the log ends there");
        ExitCode::FAILURE
    }

    fn slot(&self, key: usize) -> usize {
        self.keys.as_ref().map_or(key, |keys| keys[&key])
    }
}

/// Leaves out the drops of values whose calls have no answer. A call that panics drops its value,
/// which was perhaps in no table.
fn leave_out_unanswered(events: &mut Vec<Event>) {
    let answered: HashSet<usize> = events.iter().filter_map(Event::answered).collect();
    events.retain(|it| !matches!(it, Event::Closed(call) if !answered.contains(call)));
}

impl Event {
    /// Returns the call of which this is the answer.
    fn answered(&self) -> Option<usize> {
        match *self {
            Event::Done(call, ..) | Event::PutAt(call, _) => Some(call),
            _ => None,
        }
    }

    fn key(&self) -> Option<usize> {
        match *self {
            Event::PutAt(_, key) => Some(key),
            Event::Call(_, Call::Get(key) | Call::Put(key) | Call::Take(key)) => Some(key),
            _ => None,
        }
    }
}

impl fmt::Display for Log {
    fn fmt(&self, f: &mut fmt::Formatter<'_>) -> fmt::Result {
        writeln!(f, "file v -\ncall 1 sparse {}\ndone 1.1 0", self.slots)?;
        for event in &self.events {
            match *event {
                Event::Call(id, Call::Get(key)) => writeln!(f, "call {id} look {}", self.slot(key)),
                Event::Call(id, Call::Put(key)) => {
                    writeln!(f, "call {id} open v at {}", self.slot(key))
                }
                Event::Call(id, Call::PutAny) => writeln!(f, "call {id} open v any"),
                Event::Call(id, Call::Take(key)) => {
                    writeln!(f, "call {id} close {}", self.slot(key))
                }
                Event::Done(id, result, None) => writeln!(f, "done {id}.1 {result}"),
                Event::Done(id, result, Some(value)) => {
                    writeln!(f, "done {id}.1 {result} {value}.1.0")
                }
                Event::PutAt(id, key) => writeln!(f, "done {id}.1 {}", self.slot(key)),
                Event::Free(id) => writeln!(f, "free {id}"),
                Event::Closed(value) => writeln!(f, "closed {value}.1.0 v"),
                Event::Settled => writeln!(f, "settled"),
            }?;
        }
        Ok(())
    }
}
