//! The verified core and the stand-in make the same calls: random calls of several workers, in
//! turn. After each one, both have the same answer, the same numbers and tags, and the same words
//! of the table. Calls that run at once are not compared.
#![cfg(all(target_env = "gnu", not(yachtbanyan_stand_in)))]
#[path = "../src/access/core.rs"]
mod core;
#[path = "../src/access/exports.rs"]
mod exports;
#[allow(dead_code, unused_imports)]
#[path = "../src/access/stand_in/mod.rs"]
mod stand_in;
#[path = "../src/access/sync.rs"]
mod sync;

use self::core::{
    yacht_core_close, yacht_core_find, yacht_core_get, yacht_core_get_at, yacht_core_insert,
    yacht_core_is_current, yacht_core_open, yacht_core_put_empty, yacht_core_release,
    yacht_core_remove, yacht_core_remove_at, yacht_core_replace, yacht_core_replace_at, Core,
    Outcome, DONE,
};
use std::cell::Cell;
use std::collections::BTreeMap;
use std::ffi::c_void;
// it links the library
use yachtbanyan as _;

unsafe extern "C" {
    fn __libc_malloc(size: usize) -> *mut c_void;
}

thread_local! {
    /// The size of the blocks to find, and the last one that was found.
    static WANTED: Cell<usize> = const { Cell::new(0) };
    static FOUND: Cell<usize> = const { Cell::new(0) };
}

/// Allocates as the C library does, and notes where the core's words are.
#[no_mangle]
unsafe extern "C" fn malloc(size: usize) -> *mut c_void {
    // SAFETY: it is the C library's own function.
    let block = unsafe { __libc_malloc(size) };
    if WANTED.try_with(Cell::get) == Ok(size) {
        FOUND.set(block as usize);
    }
    block
}

/// What a call returned: its answer, a number of its own, and its outcome.
#[derive(Debug, PartialEq)]
struct Found(i64, u64, [u64; 4]);

/// A call of a worker.
#[derive(Clone, Copy, Debug)]
enum Call {
    GetAt(u32),
    Get(u32, u64),
    Release,
    IsCurrent(u32),
    Insert(u64),
    ReplaceAt(u32, u64),
    Replace(u32, u64, u64),
    RemoveAt(u32),
    Remove(u32, u64),
    Find,
    PutEmpty(u32, u64),
}

/// Makes a call of the core, or of the stand-in by the functions of that module.
macro_rules! call {
    ($worker:expr, $call:expr, $($by:ident)?) => {{
        let (worker, mut out, mut number): (*mut Core, _, u64) = ($worker, Outcome::default(), 0);
        // SAFETY: the worker is of an open table, and no other call uses it.
        let answer = unsafe {
            match $call {
                Call::GetAt(slot) => $($by::)?yacht_core_get_at(worker, slot, &mut out),
                Call::Get(slot, its) => $($by::)?yacht_core_get(worker, slot, its, &mut out),
                Call::Release => $($by::)?yacht_core_release(worker, &mut number),
                Call::IsCurrent(slot) => $($by::)?yacht_core_is_current(worker, slot),
                Call::Insert(tag) => $($by::)?yacht_core_insert(worker, tag, &mut number),
                Call::ReplaceAt(slot, tag) => {
                    $($by::)?yacht_core_replace_at(worker, slot, tag, &mut out)
                }
                Call::Replace(slot, its, tag) => {
                    $($by::)?yacht_core_replace(worker, slot, its, tag, &mut out)
                }
                Call::RemoveAt(slot) => $($by::)?yacht_core_remove_at(worker, slot, &mut out),
                Call::Remove(slot, its) => $($by::)?yacht_core_remove(worker, slot, its, &mut out),
                Call::Find => $($by::)?yacht_core_find(worker, &mut number),
                Call::PutEmpty(slot, tag) => $($by::)?yacht_core_put_empty(worker, slot, tag),
            }
        };
        let numbers = [out.number, out.tag, out.freed, out.released];
        Found(answer, number, numbers)
    }};
}

/// A table of the core and one of the stand-in, the place of the core's words, and what is known of
/// their files: the numbers that were drawn, and the number of tags.
struct Pair {
    core: Vec<Core>,
    plain: Vec<Core>,
    words: *const u64,
    numbers: Vec<u64>,
    tags: u64,
    random: u64,
    // how often each answer came
    answers: BTreeMap<i64, usize>,
}

impl Pair {
    fn open(slots: u32, installing: u32, count: usize) -> Pair {
        let places = || (0..count).map(|_| Core::none()).collect::<Vec<_>>();
        let (mut core, mut plain) = (places(), places());
        // SAFETY: there are `count` places.
        unsafe {
            let open = stand_in::yacht_core_open(slots, installing, plain.as_mut_ptr(), count);
            WANTED.set(8 * stand_in::words_of(&mut plain[0]).len());
            let opened = yacht_core_open(slots, installing, core.as_mut_ptr(), count);
            assert_eq!((open, opened), (DONE, DONE));
        }
        WANTED.set(0);
        Pair {
            core,
            plain,
            // the core copies its first words to those of the table
            words: FOUND.get() as *const u64,
            numbers: vec![0],
            tags: 0,
            random: slots.into(),
            answers: BTreeMap::new(),
        }
    }

    fn random(&mut self, below: u64) -> u64 {
        self.random = self
            .random
            .wrapping_mul(6_364_136_223_846_793_005)
            .wrapping_add(1_442_695_040_888_963_407);
        (self.random >> 33) % below
    }

    fn tag(&mut self) -> u64 {
        // an allocator uses addresses again
        self.tags += self.random(2);
        self.tags.max(1)
    }

    /// Returns a call. Each third one is by a number that was drawn, most often by one of the last.
    fn call(&mut self, slots: u32) -> Call {
        let slot = self.random(u64::from(slots) + u64::from(slots < 9)) as u32;
        let few = (self.numbers.len() as u64).min(1 + self.random(40));
        let back = 1 + self.random(few) as usize;
        let number = self.numbers[self.numbers.len() - back];
        match self.random(23) {
            0..=5 => Call::GetAt(slot),
            6..=7 => Call::Get(slot, number),
            8..=12 => Call::Release,
            13..=14 => Call::Insert(self.tag()),
            15 => Call::ReplaceAt(slot, self.tag()),
            16 => Call::Replace(slot, number, self.tag()),
            17 => Call::RemoveAt(slot),
            18 => Call::Remove(slot, number),
            19 => Call::Find,
            20..=21 => Call::IsCurrent(slot),
            _ => Call::PutEmpty(slot, self.tag()),
        }
    }

    /// Makes a call of both. Checks that they agree.
    fn make(&mut self, at: usize, call: Call) {
        let found = call!(&mut self.core[at], call,);
        let plain = call!(&mut self.plain[at], call, stand_in);
        assert_eq!(found, plain, "the answers of worker {at} to {call:?}");
        // SAFETY: the worker is of the open table.
        let wanted = unsafe { stand_in::words_of(&mut self.plain[at]) };
        // SAFETY: the core's table has as many words, and no call runs.
        let words = unsafe { std::slice::from_raw_parts(self.words, wanted.len()) };
        if let Some(place) = (0..words.len()).find(|it| words[*it] != wanted[*it]) {
            let (core, plain) = (words[place], wanted[place]);
            panic!("after {call:?} of worker {at} word {place} is {core:#x}, and {plain:#x}");
        }
        let Found(answer, number, [its, ..]) = found;
        self.numbers.extend([number, its].iter().filter(|it| **it != 0));
        *self.answers.entry(answer.min(0)).or_default() += 1;
    }
}

impl Drop for Pair {
    fn drop(&mut self) {
        for (core, plain) in self.core.drain(..).zip(self.plain.drain(..)) {
            // SAFETY: no call uses the workers any more.
            unsafe {
                yacht_core_close(core);
                stand_in::yacht_core_close(plain);
            }
        }
    }
}

/// Makes random calls of `count` workers, the first `installing` of which install.
fn agree(slots: u32, installing: u32, count: usize, calls: usize) -> BTreeMap<i64, usize> {
    let mut pair = Pair::open(slots, installing, count);
    for _ in 0..calls {
        let call = pair.call(slots);
        let at = pair.random(count as u64) as usize;
        pair.make(at, call);
    }
    std::mem::take(&mut pair.answers)
}

#[test]
fn the_core_and_the_stand_in_agree() {
    let mut all = BTreeMap::new();
    for (slots, installing, count, calls) in [
        (1, 1, 1, 2_000),
        (1, 3, 5, 20_000),
        (3, 2, 3, 20_000),
        (9, 4, 4, 10_000),
        (300, 2, 2, 5_000),
        (4_200, 3, 70, 500),
    ] {
        for (answer, times) in agree(slots, installing, count, calls) {
            *all.entry(answer).or_default() += times;
        }
    }
    println!("answers: {all:?}");
    // each answer but `BAD_ARGUMENT`, `NO_MEMORY` and `AGAIN`, which no call alone gets
    for answer in [0, -1, -2, -3, -4, -5, -6, -10] {
        assert!(all.get(&answer).is_some_and(|it: &usize| *it > 50), "few answers of {answer}");
    }
}
