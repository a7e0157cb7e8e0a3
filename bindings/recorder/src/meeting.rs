//! Where the threads of a recording meet, and how a recording ends before its plan.
use std::fmt;
use std::sync::atomic::{AtomicBool, Ordering::SeqCst};
use std::sync::{Condvar, Mutex, MutexGuard, PoisonError};
use std::time::Duration;

/// The reason why a log ends before its plan.
#[derive(Clone, Copy, Debug, PartialEq, Eq)]
pub enum Cut {
    /// A call of the table panicked, or the table had no handle for a thread and panicked.
    Panicked,
    /// No call began or returned for this time, though the plan has more calls.
    Silent(Duration),
}

impl fmt::Display for Cut {
    fn fmt(&self, f: &mut fmt::Formatter<'_>) -> fmt::Result {
        match self {
            Cut::Panicked => f.write_str("the table panicked"),
            Cut::Silent(time) => write!(f, "no call began or returned for {time:?}"),
        }
    }
}

/// Locks what stays whole if a thread panics.
pub(crate) fn locked<T>(mutex: &Mutex<T>) -> MutexGuard<'_, T> {
    mutex.lock().unwrap_or_else(PoisonError::into_inner)
}

#[derive(Default)]
struct State {
    /// The number of threads that wait.
    waiting: usize,
    /// The number of times that all threads met.
    meetings: usize,
    /// The number of threads that have ended.
    ended: usize,
    cut: Option<Cut>,
}

/// A barrier that no thread waits at for ever.
pub(crate) struct Meeting {
    threads: usize,
    state: Mutex<State>,
    changed: Condvar,
    is_cut: AtomicBool,
}

impl Meeting {
    pub(crate) fn new(threads: usize) -> Meeting {
        Meeting {
            threads,
            state: Mutex::default(),
            changed: Condvar::new(),
            is_cut: AtomicBool::new(false),
        }
    }

    /// Waits for all threads. The last one calls `met` before the others go on. Returns whether all
    /// came, which they don't if the recording is cut.
    pub(crate) fn wait(&self, met: impl FnOnce()) -> bool {
        let mut state = locked(&self.state);
        state.waiting += 1;
        let now = state.meetings;
        if state.waiting == self.threads && state.cut.is_none() {
            met();
            (state.waiting, state.meetings) = (0, now + 1);
            self.changed.notify_all();
        }
        while state.meetings == now && state.cut.is_none() {
            let woken = self.changed.wait(state);
            state = woken.unwrap_or_else(PoisonError::into_inner);
        }
        state.meetings > now
    }

    /// Ends the recording before its plan. Only the first reason counts.
    pub(crate) fn cut(&self, cut: Cut) {
        locked(&self.state).cut.get_or_insert(cut);
        self.is_cut.store(true, SeqCst);
        self.changed.notify_all();
    }

    pub(crate) fn is_cut(&self) -> bool {
        self.is_cut.load(SeqCst)
    }

    /// Notes that the calling thread ends.
    pub(crate) fn end(&self) {
        locked(&self.state).ended += 1;
        self.changed.notify_all();
    }

    /// Waits until all threads have ended, or the recording is cut: by a thread, or since no ticket
    /// was taken for the time `silence`. Returns why it was cut.
    pub(crate) fn wait_for_end(&self, silence: Duration, tickets: impl Fn() -> u64) -> Option<Cut> {
        let mut state = locked(&self.state);
        let mut before = tickets();
        while state.ended < self.threads && state.cut.is_none() {
            let woken = self.changed.wait_timeout(state, silence);
            let (now, waited) = woken.unwrap_or_else(PoisonError::into_inner);
            state = now;
            if waited.timed_out() {
                if before == tickets() {
                    drop(state);
                    self.cut(Cut::Silent(silence));
                    state = locked(&self.state);
                }
                before = tickets();
            }
        }
        state.cut
    }
}
