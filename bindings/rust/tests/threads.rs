//! Threads over one table: each value is read only while it is alive, and dropped once by the end.
//! Of those that remove or replace one key, one does. A look-up that others overtake drops the
//! value that it saw first. `YACHTBANYAN_ROUNDS` sets the rounds of a thread, and
//! `YACHTBANYAN_DROPS` the number of such drops after which the test ends.
mod support;

use std::cell::Cell;
use std::collections::HashSet;
use std::sync::atomic::{AtomicBool, AtomicU64, AtomicUsize, Ordering::Relaxed, Ordering::SeqCst};
use std::time::{Duration, Instant};
use support::{begin, join, together, Job};
use yachtbanyan::{GetError, Guard, Handle, Key, NoSeat, Old, Options, OwnedGuard, Reason, Table};

static MADE: AtomicUsize = AtomicUsize::new(0);
static DROPPED: AtomicUsize = AtomicUsize::new(0);
static WRONG: AtomicUsize = AtomicUsize::new(0);
/// The drops within `get_at` and within `get_owned_at`, which returned another value.
static WITHIN: [AtomicUsize; 2] = [const { AtomicUsize::new(0) }; 2];

thread_local! {
    static LOOKS_UP: Cell<Option<usize>> = const { Cell::new(None) };
}

/// A value that is written plainly, so that a sanitizer sees a read or a drop that is not ordered
/// after it.
struct Value {
    number: u64,
    again: Box<u64>,
    is_alive: AtomicBool,
}

impl Value {
    fn new(number: u64) -> Value {
        MADE.fetch_add(1, SeqCst);
        Value { number, again: Box::new(number), is_alive: AtomicBool::new(true) }
    }
    fn check(&self) {
        if !self.is_alive.load(Relaxed) || self.number != *self.again {
            WRONG.fetch_add(1, SeqCst);
        }
    }
}

impl Drop for Value {
    fn drop(&mut self) {
        self.check();
        self.is_alive.store(false, Relaxed);
        self.number += 1;
        *self.again += 1;
        DROPPED.fetch_add(1, SeqCst);
        if let Some(kind) = LOOKS_UP.get() {
            WITHIN[kind].fetch_add(1, SeqCst);
        }
    }
}

fn next(seed: &mut u64) -> u64 {
    *seed = seed.wrapping_mul(6_364_136_223_846_793_005).wrapping_add(1_442_695_040_888_963_407);
    *seed >> 33
}

/// A value that a thread installed: its key and its number.
type Own = Option<(Key, u64)>;

/// Checks that a key's guard is of the value with this number.
fn check_own(guard: &Guard<'_, Value>, number: u64) {
    guard.check();
    if guard.number != number {
        WRONG.fetch_add(1, SeqCst);
    }
}

/// Makes a call by the key of a value that this thread installed, which others may have replaced or
/// removed. Each of these finds that value or none.
fn serve_own(handle: &Handle<Value>, own: &mut Own, random: u64, number: u64) {
    let Some((key, wanted)) = *own else {
        return;
    };
    let is_wanted = |old: Old<Value>| match old {
        Old::Unused(value) => value.number == wanted,
        Old::InUse => true,
        Old::None => false,
    };
    let old = match random % 8 {
        0..=2 => {
            if let Ok(guard) = handle.get(key) {
                check_own(&guard, wanted);
            }
            return;
        }
        3 => handle.remove(key).ok(),
        4 => handle.table().remove(key).ok(),
        5 => handle.get(key).ok().and_then(|guard| guard.remove().ok()),
        by => {
            let value = Value::new(number);
            let done = match by {
                6 => handle.replace(key, value),
                _ => handle.table().replace(key, value),
            };
            done.ok().map(|(key, old)| {
                *own = Some((key, number));
                old
            })
        }
    };
    if !old.is_none_or(is_wanted) {
        WRONG.fetch_add(1, SeqCst);
    }
}

/// Serves by a handle.
fn serve(handle: &Handle<Value>, mut seed: u64, rounds: u64) {
    let slots = u64::from(handle.table().slots());
    let (mut own, first) = (None, seed << 32);
    for round in 0..rounds {
        let random = next(&mut seed);
        let (slot, what) = ((random % slots) as u32, (random >> 7) % 20);
        let number = first + round;
        match what {
            0..=6 => drop(handle.get_at(slot).map(|guard| guard.check())),
            7..=8 => {
                // two guards, dropped in the order in which they were made
                let after = (slot + 1) % slots as u32;
                let guards = (handle.get_at(slot), handle.get_at(after));
                if let (Ok(a), Ok(b)) = &guards {
                    a.check();
                    b.check();
                }
            }
            9 => drop(handle.contains(slot)),
            10..=12 => drop(handle.replace_at(slot, Value::new(number))),
            13..=14 => {
                let value = Value::new(number);
                let key = match (what, round % 2) {
                    (13, _) => handle.insert(value).ok(),
                    (_, 0) => handle.try_insert(value).ok(),
                    _ => handle.insert_with(|_| Value::new(number)).ok(),
                };
                own = key.map(|key| (key, number));
            }
            15 => drop(handle.remove_at(slot)),
            16 if round % 16 == 0 => drop(handle.drain().take(slot as usize).count()),
            16 if round % 16 == 1 => drop(handle.retain(|it| *it.again % 3 > 0)),
            _ => serve_own(handle, &mut own, random >> 12, number),
        }
    }
}

/// Serves as a task does that has no handle.
fn serve_by_table(table: &Table<Value>, mut seed: u64, rounds: u64) {
    let slots = u64::from(table.slots());
    for round in 0..rounds {
        let random = next(&mut seed);
        let (slot, what) = ((random % slots) as u32, (random >> 7) % 16);
        match what {
            0..=8 => drop(table.get_owned_at(slot).map(|guard| guard.check())),
            9 => {
                if let Ok(mut cached) = table.cached(slot) {
                    (0..4).for_each(|_| cached.get().into_iter().for_each(Value::check));
                }
            }
            10..=12 => drop(table.replace_at(slot, Value::new(round)).unwrap()),
            13..=14 => {
                // it waits for a seat
                if let Err(refused) = table.insert(Value::new(round)) {
                    assert!(matches!(refused.reason, Reason::Full { .. }));
                }
            }
            _ => drop(table.remove_at(slot).unwrap()),
        }
    }
}

/// Drops owned guards on other threads, while this one takes the same seat again.
fn hand_over(rounds: u64) {
    let options = Options::new(1).handles(1).readers(0).guards(1);
    let table = options.open().unwrap();
    table.insert(Value::new(0)).unwrap();
    for round in 0..rounds {
        let given = OwnedGuard::map(table.get_owned_at(0).unwrap(), |it| it);
        drop(table.replace_at(0, Value::new(round)).unwrap());
        // SAFETY: it is joined below.
        let thread = unsafe { begin(Box::new(move || given.check())) };
        let again = loop {
            match table.get_owned_at(0) {
                Ok(guard) => break guard,
                Err(error) => assert_eq!(error, GetError::NoSeat(NoSeat::Guard { in_use: 1 })),
            }
        };
        again.check();
        join(thread);
    }
}

/// Has more threads than seats that install: each call of the table waits for one.
fn share_seats(rounds: u64) {
    let table = Options::new(4).handles(2).guards(4).open().unwrap();
    let job = |seed| -> Job<'_> {
        let table = &table;
        Box::new(move || serve_by_table(table, seed, rounds))
    };
    together((0..4).map(job).collect());
    assert!((table.handle().is_ok(), table.handle().is_ok()) == (true, true));
}

/// Inserts, replaces and removes by keys that all threads know. Returns how many keys it got, and
/// those that it ended.
fn end_keys(
    table: &Table<u64>,
    known: &[AtomicU64],
    mut seed: u64,
    rounds: u64,
) -> (usize, Vec<Key>) {
    let handle = table.handle().unwrap();
    let (mut issued, mut ended) = (0, Vec::new());
    for value in 0..rounds {
        let place = &known[next(&mut seed) as usize % known.len()];
        let key = Key::from_bits(place.load(SeqCst));
        let (new, ends) = match next(&mut seed) % 3 {
            0 => (handle.try_insert(value).ok(), false),
            1 => (None, handle.remove(key).is_ok()),
            _ => match handle.replace(key, value) {
                Ok((new, _)) => (Some(new), true),
                Err(_) => (None, false),
            },
        };
        ended.extend(ends.then_some(key));
        if let Some(bits) = new.and_then(Key::to_bits) {
            issued += 1;
            place.store(bits, SeqCst);
        }
    }
    (issued, ended)
}

/// Has four threads end each other's keys.
fn end_each_key_once(slots: u32, rounds: u64) {
    let table = Options::new(slots).handles(4).open::<u64>().unwrap();
    let known: [AtomicU64; 8] = Default::default();
    // a place for each thread, not a mutex: ThreadSanitizer doesn't see that std's orders its uses
    let mut found: [(usize, Vec<Key>); 4] = Default::default();
    let jobs = found.iter_mut().zip(1..5).map(|(mine, seed)| -> Job<'_> {
        let (table, known) = (&table, &known);
        Box::new(move || *mine = end_keys(table, known, seed, rounds))
    });
    together(jobs.collect());
    let issued: usize = found.iter().map(|it| it.0).sum();
    let ended: Vec<Key> = found.into_iter().flat_map(|it| it.1).collect();
    let different: HashSet<Key> = ended.iter().copied().collect();
    assert_eq!(different.len(), ended.len(), "a key was ended twice");
    let handle = table.handle().unwrap();
    assert_eq!(issued, ended.len() + handle.len() as usize);
    let mut left = handle.iter().map(|it| it.unwrap().key());
    assert!(left.all(|it| !different.contains(&it)));
    assert!(issued as u64 > rounds / 40, "{slots} slots, {issued} keys");
}

/// Looks up in a way that notes the drops within it.
fn within<R>(kind: usize, look: impl FnOnce() -> R) -> R {
    LOOKS_UP.set(Some(kind));
    let found = look();
    LOOKS_UP.set(None);
    found
}

/// Looks slot 0 up 63 times for each replacement, in each way, until the test ends.
fn look_hot(handle: &Handle<Value>, ends: &AtomicBool) {
    let table = handle.table();
    while !ends.load(SeqCst) {
        for number in 0..63 {
            match number % 5 {
                0 => within(0, || handle.get_at(0)).unwrap().check(),
                1 => within(1, || table.get_owned_at(0)).unwrap().check(),
                2 => assert!(handle.contains(0)),
                3 => assert!(table.contains(0).unwrap()),
                // a call by the key of no value looks the slot up as well
                _ => assert!(table.remove(Key::from_bits(0)).is_err()),
            }
        }
        handle.replace_at(0, Value::new(7)).unwrap();
    }
}

/// Returns the longest time of a test that takes two minutes if no process waits for a processor:
/// few look-ups overlap if some do.
fn longest() -> Duration {
    let load = std::fs::read_to_string("/proc/loadavg").unwrap_or_default();
    let waiting: f64 = load.split(' ').next().unwrap().parse().unwrap_or(0.0);
    let processors = std::thread::available_parallelism().map_or(1, usize::from);
    Duration::from_secs(120).mul_f64((waiting / processors as f64).max(1.0))
}

/// Has four threads look one slot up until look-ups have dropped enough values. More than 20 values
/// are never alive: the one at the slot, and three of each thread.
fn overtake(enough: usize) {
    let table = Options::new(1).handles(8).open().unwrap();
    table.insert(Value::new(7)).unwrap();
    let (began, ends) = (Instant::now(), AtomicBool::new(false));
    let alive = || MADE.load(SeqCst).saturating_sub(DROPPED.load(SeqCst));
    let is_enough = || WITHIN.iter().all(|it| it.load(SeqCst) >= enough);
    let mut jobs: Vec<Job<'_>> = Vec::new();
    for _ in 0..4 {
        let (handle, ends) = (table.handle().unwrap(), &ends);
        jobs.push(Box::new(move || look_hot(&handle, ends)));
    }
    jobs.push(Box::new(|| {
        while !is_enough() && alive() <= 20 && began.elapsed() < longest() {
            std::thread::sleep(Duration::from_millis(10));
        }
        ends.store(true, SeqCst);
    }));
    together(jobs);
    println!("{WITHIN:?} values dropped in get_at and in get_owned_at");
    assert_eq!(alive(), 1, "a value is lost");
    assert!(is_enough(), "few look-ups were overtaken");
}

fn run(table: &Table<Value>, threads: u64, rounds: u64) {
    let mut jobs: Vec<Job<'_>> = Vec::new();
    for number in 0..threads {
        let handle = table.handle().unwrap();
        jobs.push(Box::new(move || serve(&handle, number, rounds)));
    }
    jobs.push(Box::new(|| serve_by_table(table, threads, rounds / 4)));
    together(jobs);
}

// A program of its own, since ThreadSanitizer reports races of the test harness, which isn't
// compiled for it.
fn main() {
    let number = |name, or| std::env::var(name).map_or(or, |it| it.parse().unwrap());
    let rounds = number("YACHTBANYAN_ROUNDS", 20_000);
    for (slots, threads) in [(2, 4), (8, 3), (256, 4)] {
        let options = Options::new(slots).handles(threads + 1).guards(threads);
        let table = options.open().unwrap();
        run(&table, u64::from(threads), rounds);
        // no guard is alive and no call runs: the values at the slots are the only ones that are
        // left
        let left = MADE.load(SeqCst) - DROPPED.load(SeqCst);
        assert_eq!(left, table.handle().unwrap().len() as usize);
        assert_eq!(left, table.into_inner().unwrap().len());
        let (made, dropped) = (MADE.load(SeqCst), DROPPED.load(SeqCst));
        println!("{slots} slots, {threads} threads: {made} values made, {dropped} dropped");
        assert_eq!(made, dropped);
    }
    hand_over(rounds / 16);
    share_seats(rounds / 4);
    for slots in [1, 2, 4, 16] {
        end_each_key_once(slots, rounds);
    }
    overtake(number("YACHTBANYAN_DROPS", 20) as usize);
    assert_eq!(MADE.load(SeqCst), DROPPED.load(SeqCst));
    assert_eq!(WRONG.load(SeqCst), 0);
}
