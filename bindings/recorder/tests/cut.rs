//! A recording ends, with a log up to there, if the table panics, if a call never returns, and if
//! there are fewer handles than threads. Drops by threads of the table are lines of the log.
use recorder::tables::{Fault, Slots, SlotsHandle};
use recorder::{record, Cut, Handle, Log, Plan, Table, Value};
use std::cell::RefCell;
use std::sync::atomic::{AtomicUsize, Ordering::SeqCst};
use std::sync::mpsc::{channel, Sender};
use std::sync::{Arc, Mutex};
use std::time::Duration;

const PLAN: Plan =
    Plan { seed: 1, threads: 3, rounds: 4, calls: 50, slots: 3, silence: Duration::from_secs(600) };
/// The call that is wrong.
const WRONG: usize = 40;

/// A right table whose calls, or handles, go wrong from one of them on.
struct Wrong {
    table: Slots,
    calls: AtomicUsize,
    handles: AtomicUsize,
    most_handles: usize,
    wrong_call: fn(),
}

struct WrongHandle<'a>(&'a Wrong, SlotsHandle<'a>);

fn wrong(most_handles: usize, wrong_call: fn()) -> Wrong {
    Wrong {
        table: Slots::new(PLAN.slots, Fault::None),
        calls: AtomicUsize::new(0),
        handles: AtomicUsize::new(0),
        most_handles,
        wrong_call,
    }
}

impl Table for Wrong {
    type Handle<'a> = WrongHandle<'a>;

    fn handle(&self) -> WrongHandle<'_> {
        let number = self.handles.fetch_add(1, SeqCst);
        assert!(number < self.most_handles, "a handle for each thread");
        WrongHandle(self, self.table.handle())
    }
}

impl WrongHandle<'_> {
    fn count(&self) {
        if self.0.calls.fetch_add(1, SeqCst) + 1 == WRONG {
            (self.0.wrong_call)();
        }
    }
}

impl Handle for WrongHandle<'_> {
    type Guard<'a>
        = Arc<Value>
    where
        Self: 'a;

    fn get(&self, slot: usize) -> Option<Arc<Value>> {
        self.count();
        self.1.get(slot)
    }

    fn put(&self, slot: usize, value: Value) {
        self.count();
        self.1.put(slot, value);
    }

    fn put_any(&self, value: Value) -> Result<usize, Value> {
        self.count();
        self.1.put_any(value)
    }

    fn take(&self, slot: usize) -> bool {
        self.count();
        self.1.take(slot)
    }
}

fn never_returns() {
    loop {
        std::thread::park();
    }
}

/// Returns the numbers of the calls, but the registration, and of their answers.
fn counts(log: &Log) -> (usize, usize) {
    let text = log.to_string();
    let count = |word: &str| text.lines().filter(|it| it.starts_with(word)).count();
    (count("call ") - 1, count("done ") - 1)
}

/// Checks that a log ends after the wrong call, which has no answer.
fn ends_at_the_wrong_call(log: &Log, cut: Cut) {
    assert_eq!(log.cut(), Some(cut));
    let (calls, answers) = counts(log);
    assert!(calls >= WRONG && answers < calls, "{calls}, {answers}");
    assert!(calls < PLAN.threads * PLAN.rounds * PLAN.calls, "{calls}");
    let text = log.to_string();
    let closed = text.lines().filter_map(|it| it.strip_prefix("closed "));
    for call in closed.map(|it| it.split('.').next().unwrap()) {
        let answer = format!("\ndone {call}.1 ");
        assert!(text.contains(&answer), "{call} has no answer, and its value is closed");
    }
}

#[test]
fn a_table_that_panics_leaves_a_log() {
    for seed in 1..=20 {
        let panics = wrong(PLAN.threads, || panic!("call {WRONG}"));
        let log = record(panics, Plan { seed, ..PLAN });
        ends_at_the_wrong_call(&log, Cut::Panicked);
    }
}

#[test]
fn a_call_that_never_returns_leaves_a_log() {
    // longer than a busy machine stops all threads
    let silence = Duration::from_secs(5);
    let log = record(wrong(PLAN.threads, never_returns), Plan { silence, ..PLAN });
    ends_at_the_wrong_call(&log, Cut::Silent(silence));
    let why = log.cut().unwrap().to_string();
    assert_eq!(why, "no call began or returned for 5s");
}

#[test]
fn fewer_handles_than_threads_leave_a_log() {
    let log = record(wrong(PLAN.threads - 1, || ()), PLAN);
    assert_eq!(log.cut(), Some(Cut::Panicked));
    assert_eq!(log.cut().unwrap().to_string(), "the table panicked");
}

#[test]
fn a_right_table_has_each_call_of_its_plan() {
    let log = record(wrong(PLAN.threads, || ()), PLAN);
    assert_eq!(log.cut(), None);
    let all = PLAN.threads * PLAN.rounds * PLAN.calls;
    assert_eq!(counts(&log), (all, all));
}

/// A value, or the sign that all values before it are dropped.
enum Sent {
    Value(#[allow(dead_code)] Arc<Value>),
    Rest(Sender<()>),
}

/// A table of one slot, whose removed values a thread of its own drops.
struct Reclaimed {
    slot: Mutex<Option<Arc<Value>>>,
    removed: Sender<Sent>,
}

impl Reclaimed {
    fn new() -> Reclaimed {
        let (removed, all) = channel();
        std::thread::spawn(move || {
            for it in all {
                if let Sent::Rest(over) = it {
                    over.send(()).unwrap();
                }
            }
        });
        let slot = Mutex::new(None);
        Reclaimed { slot, removed }
    }
}

thread_local! {
    /// What a thread found last. It is dropped when the thread has ended.
    static LAST: RefCell<Option<Arc<Value>>> = const { RefCell::new(None) };
}

impl Table for Reclaimed {
    type Handle<'a> = &'a Reclaimed;

    fn handle(&self) -> &Reclaimed {
        LAST.take();
        self
    }
}

impl Handle for &Reclaimed {
    type Guard<'a>
        = Arc<Value>
    where
        Self: 'a;

    fn get(&self, _: usize) -> Option<Arc<Value>> {
        let found = self.slot.lock().unwrap().clone();
        LAST.replace(found.clone());
        found
    }

    fn put(&self, _: usize, value: Value) {
        let old = self.slot.lock().unwrap().replace(Arc::new(value));
        old.map(|it| self.removed.send(Sent::Value(it)));
    }

    fn put_any(&self, value: Value) -> Result<usize, Value> {
        let mut slot = self.slot.lock().unwrap();
        if slot.is_some() {
            return Err(value);
        }
        *slot = Some(Arc::new(value));
        Ok(0)
    }

    fn take(&self, _: usize) -> bool {
        let old = self.slot.lock().unwrap().take();
        old.map(|it| self.removed.send(Sent::Value(it))).is_some()
    }

    fn rest(&self) {
        LAST.take();
        let (over, waits) = channel();
        self.removed.send(Sent::Rest(over)).unwrap();
        waits.recv().unwrap();
    }
}

#[test]
fn drops_by_a_thread_of_the_table_are_lines() {
    let slots = 1;
    for seed in 1..=20 {
        let text = record(Reclaimed::new(), Plan { seed, slots, ..PLAN }).to_string();
        let full = text.matches(" -23\n").count();
        let installed = text.matches(" open v ").count() - full;
        let closed = text.matches("closed ").count();
        // one value may be left in the slot
        assert!(installed - closed <= 1, "seed {seed}: {installed} installed, {closed} closed");
        assert!(closed > 10, "seed {seed}: {closed} closed");
        let last = text.lines().last();
        assert_eq!(last, Some("settled"), "seed {seed}");
    }
}

/// A thread that ends with values of its own, which nobody else has.
struct Leaves;

impl Handle for Leaves {
    type Guard<'a> = Arc<Value>;

    fn get(&self, _: usize) -> Option<Arc<Value>> {
        None
    }

    fn put(&self, _: usize, value: Value) {
        LAST.replace(Some(Arc::new(value)));
    }

    fn put_any(&self, value: Value) -> Result<usize, Value> {
        LAST.replace(Some(Arc::new(value)));
        Ok(0)
    }

    fn take(&self, _: usize) -> bool {
        LAST.with_borrow(Option::is_some)
    }
}

impl Table for Leaves {
    type Handle<'a> = Leaves;

    fn handle(&self) -> Leaves {
        // the list of values is older than all that the recorder keeps in the thread
        LAST.take();
        Leaves
    }
}

#[test]
fn a_thread_drops_values_after_its_end() {
    let log = record(Leaves, PLAN);
    assert_eq!(log.cut(), None);
    assert!(log.to_string().contains("closed "));
}
