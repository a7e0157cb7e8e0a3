//! Times the proved lock-free table, also by the Rust crate in bindings/, next to a plain, unproved
//! Rust table of the same words, and all next to arc-swap, crossbeam-epoch and sharded-slab, in
//! turn in one process. Each line has the times of one round, for `bench/ratios.py`. With the
//! argument `tails` it prints how long single calls take instead, and with `searches` how long the
//! crate needs in tables that are nearly full. With `memory` it prints how many bytes tables of the
//! crate take. With `calls` it makes one call in a loop.
mod access;
mod bindings;
mod calls;
mod exports;
mod lasting_words;
mod memory;
mod others;
mod searches;
mod slabs;
mod table;
mod tails;
mod timing;
mod work;

use bindings::{CachedSlot, Lasting, LastingKeys};
use exports::{Exports, WORKERS};
use lasting_words::LastingWords;
use others::{CachedSwap, Epochs, Swaps};
use slabs::{Keys, Slabs};
use timing::time;
use work::{Row, Work};

const ROWS: &str = include_str!("../../../bench/rows.txt");

const LARGE_ROWS: &str = include_str!("../../../bench/large_rows.txt");

const CACHED_ROWS: &str = "a cached slot: look 1";

/// The function that measures and prints one round of a row, by its name, the row and the number of
/// threads.
type Round = fn(&str, Row, usize);

/// Prints the seconds that each table needs for a row.
fn print(name: &str, threads: usize, times: &[(&str, f64)]) {
    let cells: Vec<String> = times
        .iter()
        .map(|(table, it)| format!("\t{table} {it}"))
        .collect();
    println!("{name}\t{threads}{}", cells.concat());
}

/// Measures each of the tables at a row of `bench/rows.txt`.
fn round(name: &str, row: Row, threads: usize) {
    let times = [
        ("lasting", time::<Exports>(row, threads)),
        ("Rust crate", time::<Lasting>(row, threads)),
        ("lasting words", time::<LastingWords<1>>(row, threads)),
        ("arc-swap load", time::<Swaps<false>>(row, threads)),
        ("arc-swap load_full", time::<Swaps<true>>(row, threads)),
        ("crossbeam-epoch", time::<Epochs>(row, threads)),
        ("sharded-slab", time::<Slabs>(row, threads)),
    ];
    print(name, threads, &times);
}

/// Measures the table, by the calls that the crate makes and by the crate itself, and its peers at
/// a row of `bench/large_rows.txt`, unless that has too few slots for the threads.
fn large_round(name: &str, row: Row, threads: usize) {
    if matches!(row.work, Work::Chain) && row.own_slots(threads) == 0 {
        return;
    }
    let times = [
        ("lasting", time::<Exports>(row, threads)),
        ("Rust crate", time::<Lasting>(row, threads)),
        ("Rust crate keys", time::<LastingKeys>(row, threads)),
        ("lasting words", time::<LastingWords<WORKERS>>(row, threads)),
        ("sharded-slab keys", time::<Keys>(row, threads)),
        ("sharded-slab", time::<Slabs>(row, threads)),
    ];
    print(name, threads, &times);
}

/// Measures what reads one slot again and again.
fn cached_round(name: &str, row: Row, threads: usize) {
    let times = [
        ("Rust crate cached", time::<CachedSlot>(row, threads)),
        ("arc-swap cache", time::<CachedSwap>(row, threads)),
        ("arc-swap load", time::<Swaps<false>>(row, threads)),
    ];
    print(name, threads, &times);
}

/// Measures `rounds` rounds of each row whose name contains a text.
fn measure(rows: &str, round: Round, threads: usize, rounds: usize, part: &str) {
    for (name, words) in rows.lines().filter_map(|it| it.split_once(": ")) {
        let Some(row) = Row::of(words).filter(|_| name.contains(part)) else {
            continue;
        };
        (0..rounds).for_each(|_| round(name, row, threads));
    }
}

fn main() {
    let mut words = std::env::args().skip(1);
    let first = words.next().unwrap_or_default();
    match first.as_str() {
        "tails" => return tails::print_all(),
        "searches" => return searches::print_all(),
        "memory" => return memory::print_all(),
        "calls" => {
            let [table, calls, times] = [(); 3].map(|()| words.next().unwrap_or_default());
            return calls::run(&table, &calls, times.parse().unwrap_or(0));
        }
        _ => {}
    }
    let rounds = first.parse().unwrap_or(7);
    let part = words.next().unwrap_or_default();
    // arc-swap visits every thread that it has seen, so the rows with few threads come first
    for threads in [1, 2, 4] {
        measure(ROWS, round, threads, rounds, &part);
        measure(LARGE_ROWS, large_round, threads, rounds, &part);
        measure(CACHED_ROWS, cached_round, threads, rounds, &part);
    }
}
