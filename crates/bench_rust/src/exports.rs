//! The proved table that never has to be closed, by the exports for C that the Rust crate calls.
//! A file is known to it by its tag.
use crate::access::core::*;
use crate::table::{read_entry, File, Shape, Table, FILE};
use std::cell::UnsafeCell;

/// The fewest workers of a table. A stock has a node for each worker. After the first 4,096 nodes
/// two share a cache line, and so would those of small stocks.
pub const WORKERS: usize = 16;

/// A table with a worker for each thread, and as many more as it takes to have 16. Its allocation
/// range is all its slots.
pub(crate) struct Exports(Vec<Place>);

/// The place of a worker.
struct Place(UnsafeCell<Core>);

// SAFETY: one thread uses the worker.
unsafe impl Sync for Place {}

fn tag_of(file: File) -> u64 {
    file.mark + 1
}

impl Exports {
    // Looks a slot up and releases its file. Returns the tag of the file, if there is one.
    fn see(&self, worker: *mut Core, slot: usize) -> Option<u64> {
        let (mut out, mut dropped) = (Outcome::default(), 0);
        // SAFETY: one thread uses this worker.
        let answer = unsafe { yacht_core_get_at(worker, slot as u32, &mut out) };
        (answer == DONE).then(|| {
            // SAFETY: as above.
            unsafe { yacht_core_release(worker, &mut dropped) };
            out.tag
        })
    }
}

impl Table for Exports {
    type Pass = *mut Core;

    fn open(shape: Shape) -> Exports {
        let count = shape.threads.max(WORKERS);
        let mut workers: Vec<Core> = (0..count).map(|_| Core::none()).collect();
        let slots = shape.slots as u32;
        // SAFETY: there are `count` places.
        let installing = shape.threads as u32;
        let answer = unsafe { yacht_core_open(slots, installing, workers.as_mut_ptr(), count) };
        assert_eq!(answer, 0, "memory");
        let places = workers.into_iter().map(|it| Place(UnsafeCell::new(it)));
        let table = Exports(places.collect());
        for slot in 0..shape.full {
            table.put(&mut table.pass(0), slot, FILE);
        }
        table
    }

    fn pass(&self, thread: usize) -> *mut Core {
        self.0[thread].0.get()
    }

    fn look(&self, worker: &mut *mut Core, slot: usize) -> u64 {
        self.see(*worker, slot).unwrap_or(0)
    }

    fn read(&self, worker: &mut *mut Core, slot: usize, catalogue: &[Vec<u8>], into: &mut Vec<u8>) {
        if self.see(*worker, slot).is_some() {
            read_entry(catalogue, 0, into);
        }
    }

    fn put(&self, worker: &mut *mut Core, slot: usize, file: File) {
        let mut out = Outcome::default();
        // SAFETY: one thread uses this worker.
        unsafe { yacht_core_replace_at(*worker, slot as u32, tag_of(file), &mut out) };
    }

    fn put_any(&self, worker: &mut *mut Core, file: File) -> Option<usize> {
        let (tag, mut number) = (tag_of(file), 0);
        loop {
            // SAFETY: one thread uses this worker.
            let slot = unsafe { yacht_core_insert(*worker, tag, &mut number) };
            if slot != AGAIN {
                return usize::try_from(slot).ok();
            }
        }
    }

    fn take(&self, worker: &mut *mut Core, slot: usize) {
        let mut out = Outcome::default();
        // SAFETY: one thread uses this worker.
        unsafe { yacht_core_remove_at(*worker, slot as u32, &mut out) };
    }
}

impl Drop for Exports {
    fn drop(&mut self) {
        for Place(worker) in self.0.drain(..) {
            // SAFETY: no thread uses the worker any more.
            unsafe { yacht_core_close(worker.into_inner()) };
        }
    }
}
