//! The calls of threads, and the files that they make. A file is used only while it is open, is
//! closed once, and is the one that a key names. If an answer is that the table is full, every slot
//! is full at a moment of the call. Afterwards the words are those of an idle table.
use super::Family;
use crate::access::core::{Core, Outcome, AGAIN, DONE, DROPPED, EMPTY, FULL, STALE};
use crate::access::stand_in::*;
use crate::access::turns::{changes, marked, reads};
use std::cell::{Cell, RefCell};
use std::collections::HashMap;

/// The thread that fills the table before the others begin.
pub(super) const FIRST: usize = 9;

/// A table with a worker for each thread, and its files by their tags.
pub(super) struct Scene {
    pub(super) cores: RefCell<Vec<Core>>,
    pub(super) files: RefCell<HashMap<u64, Box<Cell<bool>>>>,
    // the number of the file that slot 0 has at first, and the calls that removed or replaced it
    // by its key
    pub(super) number: Cell<u64>,
    pub(super) ends: Cell<u32>,
}

/// A call of a thread.
pub(super) type Call = fn(&Scene, usize);

impl Scene {
    pub(super) fn core(&self, who: usize) -> *mut Core {
        let who = if who == FIRST { 0 } else { who };
        &raw mut self.cores.borrow_mut()[who]
    }

    /// Makes a file. Returns its tag.
    fn file(&self, who: usize) -> u64 {
        let mut files = self.files.borrow_mut();
        let made = files.keys().filter(|it| **it / 100 == who as u64 + 1);
        let tag = 100 * (who as u64 + 1) + made.count() as u64;
        let place = Box::new(Cell::new(true));
        changes(&raw const *place);
        files.insert(tag, place);
        tag
    }

    fn check_open(&self, tag: u64) {
        let place = &self.files.borrow()[&tag];
        reads(&raw const **place);
        assert!(place.get(), "a closed file is used");
    }

    /// Closes files that calls returned; 0 is none.
    fn close(&self, tags: [u64; 3]) {
        for tag in tags.into_iter().filter(|it| *it != 0) {
            let place = &self.files.borrow()[&tag];
            changes(&raw const **place);
            assert!(place.replace(false), "a closed file is used");
        }
    }

    /// Uses the file that a look-up found, and releases it.
    fn use_found(&self, who: usize, found: i64, out: &Outcome) {
        let mut dropped = 0;
        if found == DONE {
            self.check_open(out.tag);
            unsafe { yacht_core_release(self.core(who), &mut dropped) };
        }
        self.close([dropped, out.freed, out.released]);
    }

    /// Ends a call that removes or replaces a file. Returns whether it did.
    fn end(&self, done: i64, out: &Outcome) -> bool {
        self.close([if done == DROPPED { out.tag } else { 0 }, out.freed, out.released]);
        done >= 0
    }

    /// Ends such a call by the key of the first file.
    fn end_key(&self, done: i64, out: &Outcome) {
        assert!(matches!(done, 0..|EMPTY| STALE | AGAIN));
        if done == DROPPED {
            let right = out.tag == 100 * (FIRST as u64 + 1);
            assert!(right, "another file than the key's is removed");
        }
        self.ends.set(self.ends.get() + u32::from(self.end(done, out)));
    }

    /// Fills a slot. Returns the file's number.
    pub(super) fn put(&self, who: usize, slot: u32) -> u64 {
        let mut out = Outcome::default();
        let done = unsafe { yacht_core_replace_at(self.core(who), slot, self.file(who), &mut out) };
        assert!(self.end(done, &out));
        out.number
    }

    fn remove(&self, who: usize, slot: u32) {
        let mut out = Outcome::default();
        let done = unsafe { yacht_core_remove_at(self.core(who), slot, &mut out) };
        self.end(done, &out);
    }

    /// Inserts a file. Returns the answer.
    fn insert(&self, who: usize) -> i64 {
        let (tag, mut number) = (self.file(who), 0);
        let done = unsafe { yacht_core_insert(self.core(who), tag, &mut number) };
        if done < 0 {
            self.close([tag, 0, 0]);
        }
        done
    }

    /// Checks what is left when all threads are done.
    pub(super) fn check(&self, family: &Family) {
        assert!(self.ends.get() < 2, "a key is ended twice");
        unsafe { check_idle(&self.cores.borrow()) };
        let open = || self.files.borrow().values().filter(|it| it.get()).count() as u32;
        let count = self.cores.borrow().len();
        for who in 0..count {
            let free = if family.group_bits.is_some() { family.slots - open() } else { 0 };
            let inserted = (0..free).find(|_| self.insert(who) < 0);
            assert_eq!(inserted, None, "an insertion finds no free slot");
            if family.group_bits.is_some() {
                assert_eq!(self.insert(who), FULL, "a full range isn't full");
            }
            (0..family.slots).for_each(|slot| self.remove(who, slot));
            assert_eq!(open(), 0, "a removed file is left");
        }
        unsafe { check_idle(&self.cores.borrow()) };
    }
}

impl Drop for Scene {
    fn drop(&mut self) {
        for it in self.cores.take() {
            // SAFETY: no thread uses the worker any more.
            unsafe { yacht_core_close(it) };
        }
    }
}

pub(super) const LOOK: Call = |it, who| {
    let mut out = Outcome::default();
    let found = unsafe { yacht_core_get_at(it.core(who), 0, &mut out) };
    it.use_found(who, found, &out);
};

/// A look-up, and a check whether the slot still has the file.
pub(super) const LOOK_CURRENT: Call = |it, who| {
    let mut out = Outcome::default();
    let found = unsafe { yacht_core_get_at(it.core(who), 0, &mut out) };
    if found == DONE {
        let told = unsafe { yacht_core_is_current(it.core(who), 0) };
        let is_there = unsafe { tag_at(it.core(who), 0) } == out.tag;
        assert!(told == i64::from(is_there), "a check of a held file is wrong");
    }
    it.use_found(who, found, &out);
};

pub(super) const LOOK_KEY: Call = |it, who| {
    let (mut out, number) = (Outcome::default(), it.number.get());
    let found = unsafe { yacht_core_get(it.core(who), 0, number, &mut out) };
    assert!(
        found != DONE || out.tag / 100 == FIRST as u64 + 1,
        "another file than the key's is found"
    );
    it.use_found(who, found, &out);
};

pub(super) const PUT: Call = |it, who| _ = it.put(who, 0);

pub(super) const PUT_SECOND: Call = |it, who| _ = it.put(who, 1);

pub(super) const REMOVE: Call = |it, who| it.remove(who, 0);

pub(super) const REMOVE_SECOND: Call = |it, who| it.remove(who, 1);

pub(super) const INSERT: Call = |it, who| {
    marked(true);
    let done = it.insert(who);
    assert!(done != FULL || marked(false), "the answer is full, and a slot was free");
};

/// A search for a free slot.
pub(super) const FIND: Call = |it, who| {
    marked(true);
    let mut number = 0;
    let done = unsafe { yacht_core_find(it.core(who), &mut number) };
    assert!(done != FULL || marked(false), "the answer is full, and a slot was free");
};

pub(super) const REMOVE_KEY: Call = |it, who| {
    let (mut out, number) = (Outcome::default(), it.number.get());
    let done = unsafe { yacht_core_remove(it.core(who), 0, number, &mut out) };
    it.end_key(done, &out);
};

pub(super) const REPLACE_KEY: Call = |it, who| {
    let (mut out, number, tag) = (Outcome::default(), it.number.get(), it.file(who));
    let done = unsafe { yacht_core_replace(it.core(who), 0, number, tag, &mut out) };
    it.end_key(done, &out);
    if done < 0 {
        it.close([tag, 0, 0]);
    }
};

/// A removal by key beside one change of its slot.
pub(super) const REMOVE_KEY_SURELY: Call = |it, who| {
    let before = it.ends.get();
    REMOVE_KEY(it, who);
    assert!(it.ends.get() > before, "a call tries no more after one change");
};
