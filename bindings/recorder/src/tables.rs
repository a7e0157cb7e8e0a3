//! The tables of std that are recorded here: one that is right, and wrong ones.
use crate::{Handle, Table, Value};
use std::cell::RefCell;
use std::sync::atomic::{AtomicUsize, Ordering::SeqCst};
use std::sync::{Arc, Mutex};

/// How a table of [`Slots`] is wrong, if it is.
#[derive(Clone, Copy, Debug, PartialEq, Eq)]
pub enum Fault {
    /// It is right.
    None,
    /// A search that found each slot full at some time says full, also if the table changed.
    OneWalk,
    /// One of this number of calls is wrong, of those that may be wrong so.
    Rare(Wrong, usize),
}

/// How a call of a table of [`Slots`] is wrong.
#[derive(Clone, Copy, Debug, PartialEq, Eq)]
pub enum Wrong {
    /// A look returns what the slot had at the thread's look before.
    Stale,
    /// A removed value is dropped at once, also while it is in use.
    Early,
    /// A removed value is never dropped.
    Lost,
    /// A removal says that the slot was empty if it had a value, and the converse.
    Take,
    /// A search says full without a look at the table.
    Full,
}

/// A table of std: a lock for each slot, and a count of all changes.
pub struct Slots {
    slots: Vec<Mutex<Option<Arc<Value>>>>,
    changes: AtomicUsize,
    /// The calls that may be wrong.
    calls: AtomicUsize,
    fault: Fault,
}

/// A thread's access to [`Slots`].
pub struct SlotsHandle<'a> {
    table: &'a Slots,
    /// What each slot had at the last look.
    copies: RefCell<Vec<Option<Arc<Value>>>>,
}

impl Slots {
    /// Opens an empty table of `slots` slots.
    pub fn new(slots: usize, fault: Fault) -> Slots {
        Slots {
            slots: (0..slots).map(|_| Mutex::new(None)).collect(),
            changes: AtomicUsize::new(0),
            calls: AtomicUsize::new(0),
            fault,
        }
    }

    /// Counts a call that may be wrong in this way, and returns whether it is wrong.
    fn is_wrong(&self, wrong: Wrong) -> bool {
        let Fault::Rare(it, calls) = self.fault else {
            return false;
        };
        it == wrong && (self.calls.fetch_add(1, SeqCst) + 1) % calls == 0
    }

    fn swap(&self, slot: usize, value: Option<Arc<Value>>) -> bool {
        let old = {
            let mut at = self.slots[slot].lock().unwrap();
            self.changes.fetch_add(1, SeqCst);
            std::mem::replace(&mut *at, value)
        };
        let Some(old) = old else {
            return false;
        };
        if self.is_wrong(Wrong::Early) {
            old.close();
        }
        if self.is_wrong(Wrong::Lost) {
            std::mem::forget(old);
        }
        true
    }

    /// Puts the value at the first slot that is empty when it is looked at.
    fn walk(&self, value: &Arc<Value>) -> Option<usize> {
        for (slot, at) in self.slots.iter().enumerate() {
            let mut at = at.lock().unwrap();
            if at.is_none() {
                self.changes.fetch_add(1, SeqCst);
                *at = Some(value.clone());
                return Some(slot);
            }
            drop(at);
            // so that other threads change the table within a walk
            if self.fault == Fault::OneWalk {
                std::thread::yield_now();
            }
        }
        None
    }
}

impl Table for Slots {
    type Handle<'a> = SlotsHandle<'a>;

    fn handle(&self) -> SlotsHandle<'_> {
        let copies = RefCell::new(vec![None; self.slots.len()]);
        SlotsHandle { table: self, copies }
    }
}

impl Handle for SlotsHandle<'_> {
    type Guard<'a>
        = Arc<Value>
    where
        Self: 'a;

    fn get(&self, slot: usize) -> Option<Arc<Value>> {
        let now = self.table.slots[slot].lock().unwrap().clone();
        let Fault::Rare(Wrong::Stale, _) = self.table.fault else {
            return now;
        };
        let old = std::mem::replace(&mut self.copies.borrow_mut()[slot], now.clone());
        if self.table.is_wrong(Wrong::Stale) {
            old
        } else {
            now
        }
    }

    fn put(&self, slot: usize, value: Value) {
        self.table.swap(slot, Some(Arc::new(value)));
    }

    fn put_any(&self, value: Value) -> Result<usize, Value> {
        if self.table.is_wrong(Wrong::Full) {
            return Err(value);
        }
        let value = Arc::new(value);
        loop {
            let before = self.table.changes.load(SeqCst);
            if let Some(slot) = self.table.walk(&value) {
                return Ok(slot);
            }
            let is_calm = before == self.table.changes.load(SeqCst);
            if is_calm || self.table.fault == Fault::OneWalk {
                return Err(Arc::into_inner(value).expect("a value of no table"));
            }
        }
    }

    fn take(&self, slot: usize) -> bool {
        self.table.swap(slot, None) != self.table.is_wrong(Wrong::Take)
    }

    fn rest(&self) {
        self.copies.borrow_mut().fill(None);
    }
}
