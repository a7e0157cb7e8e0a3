//! Threads that take turns, step by step: for each order of their atomic steps, an exploration runs
//! the threads once. Of two orders that lead to the same values of all atomics, and in which each
//! thread has found the same, only one is continued. A thread that yields waits until another one
//! has changed an atomic. A load finds the newest value, whatever its ordering; an ordering that
//! is too weak is found as a use of memory that nothing orders after another thread's use.
//!
//! The threads are contexts of one thread of the system (makecontext(3)), so that a turn is cheap.
mod atomics;
mod choices;
mod marks;
mod within;

use super::seats;
use super::stand_in::Config;
use choices::mixed;
use std::any::Any;
use std::cell::{Cell, RefCell};
use std::collections::{HashMap, HashSet};
use std::panic::{catch_unwind, AssertUnwindSafe};
use within::within;

pub(crate) use atomics::{AtomicU32, AtomicU64};
pub(crate) use marks::{marked, watch};
pub(crate) use within::meet;

/// The most threads of an exploration. The one that begins it has the next number.
const MOST: usize = 3;
/// The most steps of a run.
const LONGEST: usize = 5_000;
const STACK: usize = 1 << 18;

/// The number of steps of each thread that happened before.
type Clock = [u32; MOST + 1];

/// A job of an exploration's thread.
pub(crate) type Job = Box<dyn FnOnce()>;

#[repr(C, align(16))]
struct Context([u64; 1024]);

impl Default for Context {
    fn default() -> Context {
        Context([0; 1024])
    }
}

unsafe extern "C" {
    fn getcontext(context: *mut Context) -> i32;
    fn makecontext(context: *mut Context, start: extern "C" fn(), count: i32, ...);
    fn swapcontext(from: *mut Context, to: *const Context) -> i32;
}

#[derive(Default)]
struct Thread {
    context: Box<Context>,
    job: Option<Job>,
    is_done: bool,
    // it waits for a change, if others have made this number of changes
    waits: Option<u32>,
    // the changes that others had made when its wait ended, and its own
    woke: u32,
    changed: u32,
    // what it has found, in one number; and that number after its last wait, with the changes that
    // it had made
    found: u64,
    since: Option<(u64, u32)>,
    clock: Clock,
    values: u64,
    // what it keeps in the crate's thread-local variable
    first_word: usize,
    // calls that are under way
    calls: u32,
}

/// A choice between threads: those that are left to try, the present one last.
struct Choice(Vec<usize>);

/// An exploration, and its present run.
#[derive(Default)]
struct Turns {
    by_call: bool,
    seen: HashSet<u64>,
    path: Vec<Choice>,
    depth: usize,
    steps: usize,
    is_old: bool,
    fault: Option<String>,
    main: Box<Context>,
    threads: Vec<Thread>,
    now: usize,
    begun: bool,
    changed: u32,
    // the values of the atomics in one number; and what is ordered before each, with its part of
    // that number
    memory: u64,
    atomics: HashMap<u32, (Clock, u64)>,
    uses: HashMap<usize, [Clock; 2]>,
    // the memory of the threads' stacks
    stacks: Vec<Vec<u64>>,
}

/// The kind of a step at an atomic.
#[derive(Clone, Copy)]
enum Kind {
    Load,
    Store,
    Exchange,
}

thread_local! {
    static TURNS: RefCell<Option<Turns>> = const { RefCell::new(None) };
    static NEXT: Cell<u32> = const { Cell::new(1) };
    static NAMES: RefCell<HashMap<u64, u64>> = RefCell::default();
    static CONFIG: Cell<Option<Config>> = const { Cell::new(None) };
    static YIELDS: Cell<usize> = const { Cell::new(0) };
    static ALONE: Cell<bool> = const { Cell::new(false) };
}

// Calls a function with the present exploration, if threads of one run.
fn with<R>(run: impl FnOnce(&mut Turns) -> R) -> Option<R> {
    TURNS.with_borrow_mut(|it| it.as_mut().filter(|it| it.begun).map(run))
}

// Goes from the present context to that of the next thread, or to the main one.
fn switch() {
    let Some((from, to)) = with(|it| {
        let old = it.now;
        let next = if it.fault.is_none() { it.choose() } else { None };
        if let Some(next) = next {
            let (all, next) = (it.changed, &mut it.threads[next]);
            if next.waits.take().is_some() {
                next.woke = all - next.changed;
            }
        }
        if next == Some(old) {
            return None;
        }
        let from: *mut Context = &mut *it.threads[old].context;
        let Some(next) = next else {
            return Some((from, &raw const *it.main));
        };
        it.now = next;
        let word = it.threads[next].first_word;
        it.threads[old].first_word = seats::exchange_first_word(word);
        Some((from, &raw const *it.threads[next].context))
    })
    .flatten() else {
        return;
    };
    // SAFETY: both contexts are there, and the second one was made or left.
    unsafe { swapcontext(from, to) };
}

/// The atomic step that comes next: other threads may go first.
fn step() {
    within();
    if with(|it| it.by_call && it.threads[it.now].calls > 0) == Some(false) {
        switch();
    }
}

// Goes on with the present thread, whose next step is another one.
fn go_on() {
    with(|it| it.threads[it.now].found = mixed(it.threads[it.now].found, 1));
}

// Returns the text of a panic.
fn text_of(what: &dyn Any) -> String {
    let text = what.downcast_ref::<&str>().map(|it| it.to_string());
    text.or_else(|| what.downcast_ref().cloned()).unwrap_or_default()
}

extern "C" fn start() {
    go_on();
    let job = with(|it| it.threads[it.now].job.take()).flatten();
    let ended = catch_unwind(AssertUnwindSafe(job.expect("a job")));
    with(|it| {
        if let Err(what) = ended {
            it.fails(&text_of(&*what));
        }
        it.threads[it.now].is_done = true;
    });
    switch();
}

fn thread(at: usize, job: Job, stack: &mut [u64]) -> Thread {
    let mut context = Box::<Context>::default();
    // SAFETY: there is room for a context of any machine, which has the stack at these places
    // (makecontext(3), <sys/ucontext.h>).
    unsafe {
        getcontext(&mut *context);
        context.0[1] = 0;
        context.0[2] = stack.as_mut_ptr() as u64;
        context.0[4] = STACK as u64;
        makecontext(&mut *context, start, 0);
    }
    let mut clock = [0; MOST + 1];
    clock[MOST] = 1;
    Thread { context, job: Some(job), clock, first_word: at, ..Thread::default() }
}

impl Turns {
    fn new(by_call: bool) -> Turns {
        Turns {
            by_call,
            stacks: (0..MOST).map(|_| vec![0; STACK / 8]).collect(),
            ..Turns::default()
        }
    }

    fn begin(&mut self, jobs: Vec<Job>) {
        assert!(jobs.len() <= MOST);
        let all = jobs.into_iter().zip(&mut self.stacks).enumerate();
        self.threads = all.map(|(at, (job, stack))| thread(at, job, stack)).collect();
        (self.depth, self.steps, self.now, self.changed, self.memory) = (0, 0, 0, 0, 0);
        (self.is_old, self.begun) = (false, true);
        self.atomics.clear();
        self.uses.clear();
    }
}

/// The numbers of an exploration: its states, and its runs.
pub(crate) type Counts = (usize, usize);

/// Explores the orders of threads: those of their calls, or those of their steps. `scene` returns
/// the jobs of the threads, and a check of what is left after a run.
pub(crate) fn explore(
    by_call: bool,
    scene: impl Fn() -> (Vec<Job>, Job),
) -> Result<Counts, String> {
    let mut turns = Some(Turns::new(by_call));
    let mut runs = 0;
    loop {
        NEXT.set(1);
        NAMES.take();
        marks::forget();
        ALONE.set(true);
        seats::exchange_first_word(0);
        let (jobs, check) = scene();
        let mut it = turns.take().expect("an exploration");
        it.begin(jobs);
        // at its first step it may be another one's turn
        let (main, to) = (&raw mut *it.main, &raw const *it.threads[0].context);
        seats::exchange_first_word(0);
        TURNS.set(Some(it));
        // SAFETY: both contexts are there.
        unsafe { swapcontext(main, to) };
        let mut it = TURNS.take().expect("the exploration");
        it.begun = false;
        runs += 1;
        let is_done = it.threads.iter().all(|it| it.is_done);
        if !is_done {
            it.fails("a thread waits for ever");
        }
        if let Some(fault) = it.fault.take() {
            // what the threads have is lost
            std::mem::forget((it, check));
            return Err(fault);
        }
        if let Err(what) = catch_unwind(AssertUnwindSafe(check)) {
            return Err(text_of(&*what));
        }
        ALONE.set(false);
        if !it.backtrack() {
            return Ok((it.seen.len(), runs));
        }
        turns = Some(it);
    }
}

/// Opens tables with these constants while a function runs.
pub(crate) fn with_config<R>(config: Config, run: impl FnOnce() -> R) -> R {
    CONFIG.set(Some(config));
    let result = run();
    CONFIG.set(None);
    result
}

/// Returns the constants with which a table is opened.
pub(crate) fn config(of_core: Config) -> Config {
    CONFIG.get().unwrap_or(of_core)
}

/// Gives up the turn until another thread changes an atomic.
pub(crate) fn yield_now() {
    YIELDS.set(YIELDS.get() + 1);
    within();
    let waits = with(|it| {
        let (now, all) = (it.now, it.changed);
        let thread = &mut it.threads[now];
        let others = all - thread.changed;
        thread.waits = (others == thread.woke).then_some(others);
        thread.woke = others;
        // what it found since its last wait changed nothing, so it is where it was then
        match thread.since {
            Some((found, changed)) if changed == thread.changed => thread.found = found,
            _ => thread.found = mixed(thread.found, 2),
        }
        thread.since = Some((thread.found, thread.changed));
    });
    match waits {
        Some(()) => switch(),
        None => assert!(!ALONE.get(), "a thread waits for ever"),
    }
}

/// Returns how often threads of this one gave their turns up.
pub(crate) fn yields() -> usize {
    YIELDS.get()
}

/// Notes a use of memory that no other thread may use meanwhile.
pub(crate) fn changes<T>(at: *const T) {
    with(|it| it.uses(at as usize, false));
}

/// Notes a use of memory that no other thread may change meanwhile.
pub(crate) fn reads<T>(at: *const T) {
    with(|it| it.uses(at as usize, true));
}

/// Names the address of a value by its number among those of its thread.
pub(crate) fn names(tag: u64) {
    let name = with(|it| {
        let now = it.now;
        it.threads[now].values += 1;
        mixed(now as u64, it.threads[now].values)
    });
    NAMES.with_borrow_mut(|it| {
        let next = it.len() as u64 + 1;
        it.insert(tag, name.unwrap_or(mixed(MOST as u64, next)));
    });
}

// Returns the name of an address of a value, and else the number itself.
fn named(it: u64) -> u64 {
    NAMES.with_borrow(|all| all.get(&it).copied().unwrap_or(it))
}

/// A call of a worker, which is under way.
pub(crate) struct Call;

/// Begins a call of a worker: it is one step, if the orders of calls are explored.
pub(crate) fn begin<T>(worker: *const T) -> Call {
    if with(|it| it.by_call) == Some(true) {
        switch();
        go_on();
    }
    changes(worker);
    with(|it| it.threads[it.now].calls += 1);
    Call
}

impl Drop for Call {
    fn drop(&mut self) {
        with(|it| it.threads[it.now].calls -= 1);
    }
}
