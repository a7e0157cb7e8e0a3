//! Random calls of several threads.
use crate::log::{Call, Event, Notes};
use crate::meeting::{Cut, Meeting};
use crate::{Handle, Log, Table, Value};
use std::mem::ManuallyDrop;
use std::panic::{catch_unwind, AssertUnwindSafe};
use std::sync::atomic::{AtomicUsize, Ordering::SeqCst};
use std::sync::Arc;
use std::time::Duration;

const EBADF: i64 = -9;
const ENFILE: i64 = -23;
/// The number of keys that threads keep, of a table that chooses its slots.
const KEYS: usize = 4;

/// What is played.
#[derive(Clone, Copy, Debug)]
pub struct Plan {
    /// The seed of the random calls.
    pub seed: u64,
    /// The number of threads.
    pub threads: usize,
    /// The number of rounds. After each one all threads rest, and the log says that every value is
    /// in the table or dropped.
    pub rounds: usize,
    /// The number of calls of each thread in a round.
    pub calls: usize,
    /// The number of slots of the table, which are numbered from 0.
    pub slots: usize,
    /// If no call begins or returns for this time, the log ends, and [`Log::cut`] says so: a call
    /// never returns.
    pub silence: Duration,
}

struct Random(u64);

impl Random {
    fn below(&mut self, most: usize) -> usize {
        let next = self.0.wrapping_mul(6364136223846793005);
        self.0 = next.wrapping_add(1442695040888963407);
        (self.0 >> 33) as usize % most
    }
}

/// What all threads share, but the table.
struct Shared {
    plan: Plan,
    notes: Arc<Notes>,
    meeting: Meeting,
    keys: [AtomicUsize; KEYS],
}

/// A thread that plays.
struct Thread<'a, H> {
    handle: H,
    random: Random,
    shared: &'a Shared,
}

impl<H: Handle> Thread<'_, H> {
    fn note(&self, event: Event) {
        self.shared.notes.note(event);
    }

    fn slot(&mut self) -> usize {
        if H::CHOOSES {
            self.shared.keys[self.random.below(KEYS)].load(SeqCst)
        } else {
            self.random.below(self.shared.plan.slots)
        }
    }

    fn get(&mut self, id: usize) {
        let slot = self.slot();
        self.note(Event::Call(id, Call::Get(slot)));
        let Some(guard) = self.handle.get(slot) else {
            self.note(Event::Done(id, EBADF, None));
            return;
        };
        self.note(Event::Done(id, 0, Some(guard.call)));
        if self.random.below(3) == 0 {
            std::thread::yield_now();
        }
        self.note(Event::Free(id));
    }

    fn put(&mut self, id: usize) {
        let slot = self.slot();
        self.note(Event::Call(id, Call::Put(slot)));
        self.handle.put(slot, Value::new(id, &self.shared.notes));
        self.note(Event::Done(id, 0, None));
    }

    fn put_any(&mut self, id: usize) {
        self.note(Event::Call(id, Call::PutAny));
        match self.handle.put_any(Value::new(id, &self.shared.notes)) {
            Ok(slot) => {
                self.note(Event::PutAt(id, slot));
                if H::CHOOSES {
                    self.shared.keys[self.random.below(KEYS)].store(slot, SeqCst);
                }
            }
            Err(value) => {
                value.discard();
                self.note(Event::Done(id, ENFILE, None));
            }
        }
    }

    fn take(&mut self, id: usize) {
        let slot = self.slot();
        self.note(Event::Call(id, Call::Take(slot)));
        let result = if self.handle.take(slot) { 0 } else { EBADF };
        self.note(Event::Done(id, result, None));
    }

    fn call(&mut self) {
        let id = self.shared.notes.next_call();
        match self.random.below(10) {
            0..=4 => self.get(id),
            5 | 6 if !H::CHOOSES => self.put(id),
            5..=7 => self.put_any(id),
            _ => self.take(id),
        }
    }
}

/// Plays the calls of one thread. After a cut, and if a call panics, the thread drops nothing: a
/// drop may panic too, or wait for another thread.
fn play<T: Table>(table: &T, number: usize, shared: &Shared) {
    let plan = shared.plan;
    let mut thread = ManuallyDrop::new(Thread {
        handle: table.handle(),
        random: Random(plan.seed * 1000 + number as u64),
        shared,
    });
    for _ in 0..plan.rounds {
        for _ in 0..plan.calls {
            if shared.meeting.is_cut() {
                return;
            }
            thread.call();
        }
        if !shared.meeting.wait(|| ()) {
            return;
        }
        thread.handle.rest();
        if !shared.meeting.wait(|| thread.note(Event::Settled)) {
            return;
        }
    }
    drop(ManuallyDrop::into_inner(thread));
}

/// Plays random calls on a table, and returns their log. If the table panics, or a call never
/// returns, the log has all up to there, and [`Log::cut`] the reason. Then the table is not
/// dropped, and a thread whose call never returns is left in it.
pub fn record<T: Table>(table: T, plan: Plan) -> Log {
    let table = Arc::new(table);
    let shared = Arc::new(Shared {
        plan,
        notes: Arc::new(Notes::new(plan.threads)),
        meeting: Meeting::new(plan.threads),
        // no key of a table is the largest number
        keys: [const { AtomicUsize::new(usize::MAX) }; KEYS],
    });
    for number in 0..plan.threads {
        let (table, shared) = (table.clone(), shared.clone());
        std::thread::spawn(move || {
            Notes::begin_thread(number);
            let played = catch_unwind(AssertUnwindSafe(|| play(&*table, number, &shared)));
            if played.is_err() {
                shared.meeting.cut(Cut::Panicked);
            }
            match shared.meeting.is_cut() {
                true => std::mem::forget(table),
                false => drop(table),
            }
            shared.meeting.end();
        });
    }
    let tickets = || shared.notes.tickets();
    let cut = shared.meeting.wait_for_end(plan.silence, tickets);
    let log = Log::new(&shared.notes, plan.slots, <T::Handle<'_> as Handle>::CHOOSES, cut);
    if cut.is_some() {
        std::mem::forget(table);
    }
    // the values that are left have no line: no call removes them
    log
}
