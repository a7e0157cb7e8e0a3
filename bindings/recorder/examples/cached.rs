//! cached SEED [right]: records random calls of three threads on a table whose readers keep copies,
//! and prints the log (docs/use/RECORDING.md). The table has a bug; with `right` it has none.
//! SEED is a number.
use recorder::{record, Handle, Plan, Table, Value};
use std::cell::RefCell;
use std::process::ExitCode;
use std::sync::atomic::{AtomicUsize, Ordering::SeqCst};
use std::sync::{Arc, Mutex};
use std::time::Duration;

type Found = Option<Arc<Value>>;

/// A slot: its value, and a number that each change of it raises.
#[derive(Default)]
struct Slot {
    value: Mutex<Found>,
    version: AtomicUsize,
}

struct Cached {
    slots: Vec<Slot>,
    is_right: bool,
}

/// A thread's access, with a copy of each slot that it looked at, and the version of the copy.
struct CachedHandle<'a> {
    table: &'a Cached,
    copies: RefCell<Vec<(usize, Found)>>,
}

impl Slot {
    /// Replaces the value, so that each copy that was made before is made again.
    fn swap(&self, value: Found, is_right: bool) -> Found {
        if !is_right {
            self.version.fetch_add(1, SeqCst);
        }
        let mut at = self.value.lock().unwrap();
        if is_right {
            self.version.fetch_add(1, SeqCst);
        }
        std::mem::replace(&mut *at, value)
    }
}

impl Table for Cached {
    type Handle<'a> = CachedHandle<'a>;

    fn handle(&self) -> CachedHandle<'_> {
        let copies = RefCell::new(vec![(0, None); self.slots.len()]);
        CachedHandle { table: self, copies }
    }
}

impl Handle for CachedHandle<'_> {
    type Guard<'a>
        = Arc<Value>
    where
        Self: 'a;

    fn get(&self, slot: usize) -> Found {
        let (at, copy) = (&self.table.slots[slot], &mut self.copies.borrow_mut()[slot]);
        let version = at.version.load(SeqCst);
        if copy.0 != version {
            *copy = (version, at.value.lock().unwrap().clone());
        }
        copy.1.clone()
    }

    fn put(&self, slot: usize, value: Value) {
        self.table.slots[slot].swap(Some(Arc::new(value)), self.table.is_right);
    }

    fn put_any(&self, value: Value) -> Result<usize, Value> {
        let slots = &self.table.slots;
        let mut locked: Vec<_> = slots.iter().map(|it| it.value.lock().unwrap()).collect();
        let Some(slot) = locked.iter().position(|it| it.is_none()) else {
            return Err(value);
        };
        slots[slot].version.fetch_add(1, SeqCst);
        *locked[slot] = Some(Arc::new(value));
        Ok(slot)
    }

    fn take(&self, slot: usize) -> bool {
        self.table.slots[slot].swap(None, self.table.is_right).is_some()
    }

    fn rest(&self) {
        self.copies.borrow_mut().fill((0, None));
    }
}

/// Reads the arguments: the seed, and whether the table is right.
fn arguments(words: &[String]) -> Result<(u64, bool), String> {
    let (seed, is_right) = match words {
        [seed] => (seed, false),
        [seed, word] if word == "right" => (seed, true),
        [_, word] => return Err(format!("'{word}' is not 'right'")),
        _ => return Err(format!("{} arguments are not 1 or 2", words.len())),
    };
    match seed.parse::<u32>() {
        Ok(seed) => Ok((seed.into(), is_right)),
        Err(_) => Err(format!("SEED is a number from 0 to {}, not '{seed}'", u32::MAX)),
    }
}

fn main() -> ExitCode {
    let words: Vec<String> = std::env::args().skip(1).collect();
    let (seed, is_right) = match arguments(&words) {
        Ok(given) => given,
        Err(fault) => {
            eprintln!("cached: {fault}\nusage: cached SEED [right]");
            return ExitCode::from(2);
        }
    };
    let plan = Plan {
        seed,
        threads: 3,
        rounds: 20,
        calls: 300,
        slots: 3,
        silence: Duration::from_secs(20),
    };
    let slots = (0..plan.slots).map(|_| Slot::default()).collect();
    record(Cached { slots, is_right }, plan).print()
}
