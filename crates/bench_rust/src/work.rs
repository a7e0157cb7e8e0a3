//! The work of a thread on a table while it is measured.
use crate::table::{File, Table, READ_LEN};
use std::hint::black_box;

/// A row of `bench/rows.txt` or `bench/large_rows.txt`: the work, the number of slots, and the
/// number of slots, from the first one on, that have a file when the work begins.
#[derive(Clone, Copy)]
pub struct Row {
    pub work: Work,
    pub slots: usize,
    pub full: usize,
}

impl Row {
    /// Returns the row of these words: a kind of work, a number of slots, and the number of full
    /// slots unless all are full.
    pub fn of(words: &str) -> Option<Row> {
        let mut words = words.split(' ');
        let work = Work::named(words.next()?)?;
        let slots = words.next()?.parse().ok()?;
        let full = match words.next() {
            Some(word) => word.parse().ok()?,
            None => slots,
        };
        Some(Row { work, slots, full })
    }

    /// Returns the number of slots of a thread's own: free ones, 64 at most.
    pub fn own_slots(self, threads: usize) -> usize {
        ((self.slots - self.full) / threads).min(64)
    }

    /// Returns the own slot of a thread, from 0, for the repetition `i`.
    fn own_slot(self, threads: usize, thread: usize, i: usize) -> usize {
        let own = self.own_slots(threads);
        self.full + own * thread + i % own
    }
}

/// The operation that is repeated.
#[derive(Clone, Copy)]
pub enum Work {
    /// Looks up a random slot and releases its file.
    Look,
    /// Does the same nine times out of ten; the tenth time replaces the file there and retires the
    /// old one.
    Mixed,
    /// Installs a file at a slot that only this thread uses, looks it up, reads and releases it,
    /// and takes and retires it.
    Chain,
    /// Installs a file at an empty slot of the range, and takes and retires it.
    Allocate,
    /// Installs a file at an empty slot, looks it up, reads and releases it, and takes and retires
    /// it.
    Serve,
    /// Opens a table and closes it, on one thread.
    Opening,
}

impl Work {
    /// Returns the work of a word of `bench/rows.txt`.
    pub fn named(word: &str) -> Option<Work> {
        match word {
            "look" => Some(Work::Look),
            "mix" => Some(Work::Mixed),
            "inside" => Some(Work::Chain),
            "allocate" => Some(Work::Allocate),
            "serve" => Some(Work::Serve),
            "opening" => Some(Work::Opening),
            _ => None,
        }
    }

    /// Returns how often a thread repeats the operation.
    pub fn times(self) -> usize {
        match self {
            Work::Look => 200_000,
            Work::Mixed => 10 * INSTALLS,
            Work::Chain | Work::Allocate | Work::Serve => INSTALLS,
            Work::Opening => 50,
        }
    }
}

/// The number of files that a thread installs.
const INSTALLS: usize = 15_000;

pub fn next(random: u32) -> u32 {
    random.wrapping_mul(1_664_525).wrapping_add(1_013_904_223)
}

pub fn file() -> File {
    File {
        entry: 0,
        mark: black_box(0),
    }
}

/// Does the work of the thread with this number.
pub fn work<T: Table>(table: &T, row: Row, threads: usize, thread: usize) {
    let Row { work, slots, .. } = row;
    let pass = &mut table.pass(thread);
    let catalogue = black_box(vec![vec![7; READ_LEN]]);
    let mut into = Vec::with_capacity(READ_LEN);
    let mut random = (thread as u32).wrapping_mul(40_503).wrapping_add(1);
    for i in 0..work.times() {
        random = next(random);
        let slot = (random >> 16) as usize & (slots - 1);
        match work {
            Work::Mixed if i % 10 == 9 => table.put(pass, slot, file()),
            Work::Look | Work::Mixed => {
                black_box(table.look(pass, slot));
            }
            Work::Chain => {
                let slot = row.own_slot(threads, thread, i);
                table.put(pass, slot, file());
                table.read(pass, slot, &catalogue, &mut into);
                black_box(&into);
                table.take(pass, slot);
            }
            Work::Allocate => {
                if let Some(slot) = table.put_any(pass, file()) {
                    table.take(pass, slot);
                }
            }
            Work::Serve => {
                if let Some(slot) = table.put_any(pass, file()) {
                    table.read(pass, slot, &catalogue, &mut into);
                    black_box(&into);
                    table.take(pass, slot);
                }
            }
            Work::Opening => unreachable!("no thread shares a table that is only opened"),
        }
    }
}
