//! One call in a loop of one thread. `bench/measure-calls` counts its instructions and its locked
//! steps, and for look-ups at random the cache lines that they wait for.
use crate::bindings::{CachedSlot, Lasting, LastingKeys};
use crate::exports::Exports;
use crate::others::{CachedSwap, Swaps};
use crate::slabs::Keys;
use crate::table::{File, Shape, Table};
use crate::work::next;
use std::hint::black_box;
use yachtbanyan::{Options, MOST_SLOTS};

const FULL: usize = 128;
const SHAPE: Shape = Shape {
    slots: 256,
    full: FULL,
    threads: 1,
};

fn file() -> File {
    black_box(File { entry: 1, mark: 0 })
}

// Makes a call for each full slot in turn.
fn each(times: usize, mut call: impl FnMut(usize)) {
    (0..times).for_each(|i| call(black_box(i % FULL)));
}

/// Makes a call, or some calls one after another, `times` times. The slots that are looked up and
/// replaced are the full ones; an insertion finds one of the others.
fn repeat<T: Table>(calls: &str, times: usize) {
    let table = T::open(SHAPE);
    let mut pass = table.pass(0);
    let mut into = Vec::new();
    match calls {
        "loop" => each(times, |_| {}),
        "look" => each(times, |slot| {
            black_box(table.look(&mut pass, slot));
        }),
        "replace" => each(times, |slot| table.put(&mut pass, slot, file())),
        "insert, remove" => each(times, |_| {
            let slot = black_box(table.put_any(&mut pass, file()).expect("a free slot"));
            table.take(&mut pass, slot);
        }),
        _ => each(times, |_| {
            let slot = black_box(table.put_any(&mut pass, file()).expect("a free slot"));
            table.read(&mut pass, slot, &[], &mut into);
            table.take(&mut pass, slot);
        }),
    }
}

/// Looks values of a full table with many slots up at random.
fn look_at_random<T: Table>(times: usize) {
    const MANY: usize = 65_536;
    let shape = Shape {
        slots: MANY,
        full: MANY,
        ..SHAPE
    };
    let table = T::open(shape);
    let mut pass = table.pass(0);
    let mut random = 1;
    for _ in 0..times {
        random = next(random);
        black_box(table.look(&mut pass, (random >> 16) as usize % MANY));
    }
}

/// Replaces the value of a key, again and again.
fn replace_by_key(times: usize) {
    let options = Options::new(SHAPE.slots as u32).handles(1).readers(0);
    let table = options.guards(0).open::<File>().expect("memory");
    let handle = table.handle().expect("the handle");
    let mut keys = Vec::from_iter((0..FULL).map(|_| handle.insert(file()).expect("a free slot")));
    each(times, |slot| {
        keys[slot] = handle.replace(keys[slot], file()).expect("its value").0;
    });
}

/// Inserts into a table with two empty slots, and removes by another handle, again and again.
fn search(times: usize) {
    let table = yachtbanyan::Table::<File>::with_slots(MOST_SLOTS).expect("memory");
    let (one, other) = (table.handle(), table.handle());
    let (one, other) = (one.expect("a handle"), other.expect("a handle"));
    for _ in 2..MOST_SLOTS {
        one.insert(file()).expect("an empty slot");
    }
    each(times, |_| {
        let key = black_box(one.insert(file()).expect("an empty slot"));
        drop(other.remove(key));
    });
}

/// Makes the calls of a table, by its name and theirs.
pub fn run(table: &str, calls: &str, times: usize) {
    match (table, calls) {
        ("crate by key", "search") => search(times),
        ("crate", "look at random") => look_at_random::<Lasting>(times),
        ("crate by key", "look at random") => look_at_random::<LastingKeys>(times),
        ("sharded-slab", "look at random") => look_at_random::<Keys>(times),
        ("crate by key", "replace") => replace_by_key(times),
        ("crate by key", _) => repeat::<LastingKeys>(calls, times),
        ("core", _) => repeat::<Exports>(calls, times),
        ("crate cached", _) => repeat::<CachedSlot>(calls, times),
        ("arc-swap cache", _) => repeat::<CachedSwap>(calls, times),
        ("arc-swap load", _) => repeat::<Swaps<false>>(calls, times),
        ("sharded-slab", _) => repeat::<Keys>(calls, times),
        _ => repeat::<Lasting>(calls, times),
    }
}
