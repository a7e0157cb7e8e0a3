//! How long single calls take while three threads look up, and one or 58 install and remove: the
//! median, and the times that 1 of 100 and 1 of 10,000 calls exceed.
use crate::bindings::Lasting;
use crate::others::Swaps;
use crate::slabs::Slabs;
use crate::table::{Shape, Table};
use crate::work::{file, next};
use std::hint::black_box;
use std::sync::atomic::{AtomicBool, Ordering::Relaxed};
use std::sync::Barrier;
use std::time::Instant;

const READERS: usize = 3;

/// The number of slots, half of which are full at first.
const SLOTS: usize = 256;

/// The number of files that the writers install and remove.
const INSTALLS: usize = 300_000;

/// The times of many calls of one kind, in nanoseconds.
struct Times(Vec<u32>);

impl Times {
    /// Returns no times, with room for this number of calls.
    fn new(calls: usize) -> Times {
        Times(Vec::with_capacity(calls))
    }

    fn add(&mut self, call: impl FnOnce()) {
        let begun = Instant::now();
        call();
        self.0.push(begun.elapsed().as_nanos() as u32);
    }

    /// Returns the time that this many of 10,000 calls don't exceed.
    fn at(&self, most: usize) -> u32 {
        self.0[(self.0.len() - 1) * most / 10_000]
    }

    fn print(mut self, table: &str, writers: usize, call: &str) {
        self.0.sort_unstable();
        let [half, p99, p9999] = [5_000, 9_900, 9_999].map(|it| self.at(it));
        let calls = self.0.len();
        println!(
            "tails: {table}, {writers} writing: {call}: p50 {half} p99 {p99} p99.99 {p9999} ns of \
             {calls} calls"
        );
    }
}

fn read<T: Table>(table: &T, thread: usize, ends: &AtomicBool) -> Times {
    let (mut pass, mut times) = (table.pass(thread), Times::new(1 << 20));
    let mut random = thread as u32;
    while !ends.load(Relaxed) {
        random = next(random);
        let slot = (random >> 16) as usize % SLOTS;
        times.add(|| {
            black_box(table.look(&mut pass, slot));
        });
    }
    times
}

fn write<T: Table>(table: &T, thread: usize, installs: usize) -> [Times; 2] {
    let mut pass = table.pass(thread);
    let (mut inserts, mut removals) = (Times::new(installs), Times::new(installs));
    for _ in 0..installs {
        let (mut slot, file) = (None, file());
        inserts.add(|| slot = table.put_any(&mut pass, file));
        if let Some(slot) = slot {
            removals.add(|| table.take(&mut pass, slot));
        }
    }
    [inserts, removals]
}

/// Returns the times of all threads.
fn together(times: impl Iterator<Item = Times>) -> Times {
    Times(times.flat_map(|it| it.0).collect())
}

fn print<T: Table>(name: &str, writers: usize) {
    let (threads, installs) = (READERS + writers, INSTALLS / writers);
    let table = T::open(Shape {
        slots: SLOTS,
        full: SLOTS / 2,
        threads,
    });
    let (barrier, ends) = (Barrier::new(threads), AtomicBool::new(false));
    let (looks, written) = std::thread::scope(|scope| {
        let (table, barrier, ends) = (&table, &barrier, &ends);
        let reader = |thread| {
            scope.spawn(move || {
                barrier.wait();
                read(table, thread, ends)
            })
        };
        let writer = |thread| {
            scope.spawn(move || {
                barrier.wait();
                write(table, thread, installs)
            })
        };
        let writers: Vec<_> = (0..writers).map(writer).collect();
        let readers: Vec<_> = (writers.len()..threads).map(reader).collect();
        let written: Vec<_> = writers.into_iter().map(|it| it.join().unwrap()).collect();
        ends.store(true, Relaxed);
        let looks = together(readers.into_iter().map(|it| it.join().unwrap()));
        (looks, written)
    });
    let (inserts, removals): (Vec<_>, Vec<_>) = written.into_iter().map(<(_, _)>::from).unzip();
    looks.print(name, writers, "look and release");
    together(inserts.into_iter()).print(name, writers, "insert");
    together(removals.into_iter()).print(name, writers, "remove");
}

/// Prints the times of each table. Each has that of reading the clock, which comes first.
pub fn print_all() {
    let mut times = Times::new(1 << 20);
    (0..1_000_000).for_each(|_| times.add(|| ()));
    times.print("no table", 0, "nothing");
    for writers in [1, 58] {
        print::<Lasting>("Rust crate", writers);
        print::<Swaps<false>>("arc-swap load", writers);
        print::<Slabs>("sharded-slab", writers);
    }
}
