//! All orders of the calls of three threads at the seats of a table. Each value is read only
//! while it is alive and after it was made, and is dropped once; no thread waits for ever; and
//! afterwards each seat is free.
use crate::access::stand_in::Config;
use crate::access::sync::{yield_now, AtomicU32};
use crate::access::turns::{changes, explore, reads, with_config, Counts, Job};
use crate::{GetError, Key, NoSeat, Options, OwnedGuard, Reason, Table};
use std::cell::{Cell, RefCell};
use std::rc::Rc;
use std::sync::atomic::Ordering::{self, Acquire, Relaxed, Release, SeqCst};

/// A value. Its address in a table is no other's while the table is there.
struct Value {
    // one place of memory for each value
    place: Rc<Cell<bool>>,
    alive: Rc<Cell<usize>>,
}

impl Value {
    fn check(&self) {
        reads(Rc::as_ptr(&self.place));
        assert!(self.place.get(), "a dropped value is read");
    }
}

impl Drop for Value {
    fn drop(&mut self) {
        changes(Rc::as_ptr(&self.place));
        assert!(self.place.replace(false), "a value is dropped twice");
        self.alive.set(self.alive.get() - 1);
    }
}

/// A table whose values are counted, and a handle for each thread, if the threads have handles.
#[derive(Clone)]
struct Scene {
    table: Table<Value>,
    alive: Rc<Cell<usize>>,
    // the calls that have a seat
    calls: Rc<Cell<u32>>,
    // the values' places, which last as long as the scene
    places: Rc<RefCell<Vec<Rc<Cell<bool>>>>>,
    // a guard that a thread hands over, and its flag
    given: Rc<(AtomicU32, Cell<Option<OwnedGuard<Value>>>)>,
}

impl Scene {
    fn value(&self) -> Value {
        let place = Rc::new(Cell::new(true));
        changes(Rc::as_ptr(&place));
        self.alive.set(self.alive.get() + 1);
        self.places.borrow_mut().push(place.clone());
        Value { place, alive: self.alive.clone() }
    }

    /// Returns a key of the value at the first slot.
    fn key(&self) -> Key {
        self.table.get_owned_at(0).ok().unwrap().key()
    }

    /// Checks that each seat is free, and that each value was dropped that isn't at a slot.
    fn check(self, options: &Options) {
        let handles: Vec<_> = std::iter::from_fn(|| self.table.handle().ok()).collect();
        let readers: Vec<_> = std::iter::from_fn(|| self.table.reader().ok()).collect();
        let counts = (handles.len() as u32, readers.len() as u32);
        assert_eq!(counts, (options.handles, options.readers), "a seat is lost");
        assert_eq!(handles[0].len() as usize, self.alive.get(), "a value is lost");
        let full = loop {
            if let Err(refused) = handles[0].try_insert(self.value()) {
                break refused.reason;
            }
        };
        assert!(matches!(full, Reason::Full { .. }), "a slot is lost");
        handles[0].replace_at(0, self.value()).ok().unwrap();
        let owned = std::iter::from_fn(|| self.table.get_owned_at(0).ok());
        let owned: Vec<_> = owned.collect();
        assert_eq!(owned.len() as u32, options.guards, "a guard's seat is lost");
    }
}

/// What a thread does, with a key of the value that the first slot has at first.
type Part = fn(&Scene, Key);

/// A family of orders: a table with a value at its first slot, the takes from which on a slot is
/// hot, and the threads.
struct Family {
    options: Options,
    cold_takes: u64,
    parts: &'static [Part],
}

impl Family {
    fn scene(&self) -> (Vec<Job>, Job) {
        let scene = Scene {
            table: self.options.open().unwrap(),
            alive: Rc::default(),
            calls: Rc::default(),
            places: Rc::default(),
            given: Rc::new((AtomicU32::new(0), Cell::new(None))),
        };
        drop(scene.table.replace_at(0, scene.value()));
        let key = scene.key();
        let job = |part: &'static Part| -> Job {
            let scene = scene.clone();
            Box::new(move || part(&scene, key))
        };
        let (jobs, options) = (self.parts.iter().map(job).collect(), self.options);
        (jobs, Box::new(move || scene.check(&options)))
    }

    fn explore(&self) -> Result<Counts, String> {
        let config = Config {
            allocates: true,
            group_bits: 0,
            cold_takes: self.cold_takes,
            most_carried: 1,
            tries: 2,
        };
        with_config(config, || explore(true, || self.scene()))
    }
}

const LOOK_OWNED: Part = |it, _| match it.table.get_owned_at(0) {
    Ok(guard) => guard.check(),
    Err(error) => assert!(matches!(error, GetError::NoSeat(_) | GetError::Empty { .. })),
};

const INSERT_AND_REMOVE: Part = |it, _| match it.table.insert(it.value()) {
    Ok(key) => assert!(!it.table.remove(key).ok().unwrap().is_none()),
    Err(refused) => assert!(matches!(refused.reason, Reason::Full { .. })),
};

const HANDLE: Part = |it, _| match it.table.handle() {
    Ok(handle) => assert!(handle.insert(it.value()).is_ok()),
    Err(error) => assert_eq!(error, NoSeat::Handle { in_use: 1 }),
};

const CALL: Part = |it, _| match it.table.insert(it.value()) {
    Ok(_) => (),
    Err(refused) => assert!(matches!(refused.reason, Reason::NoSeat(_))),
};

// No call is refused while a call has the only seat.
const SEAT: Part = |it, _| match it.table.values().seats.claim_call() {
    Ok(call) => {
        it.calls.set(1);
        it.given.0.load(Relaxed);
        it.calls.set(0);
        drop(call);
    }
    Err(_) => assert_eq!(it.calls.get(), 0, "a call is refused, and there is no handle"),
};

const GIVE: Part = |it, _| {
    it.given.1.set(it.table.get_owned_at(0).ok());
    it.given.0.store(1, Release);
};

const TAKE: Part = |it, _| {
    while it.given.0.load(Acquire) == 0 {
        yield_now();
    }
    if let Some(guard) = it.given.1.take() {
        guard.check();
        drop(guard.remove());
    }
};

const REPLACE: Part = |it, _| assert!(it.table.replace_at(0, it.value()).is_ok());

const CACHE: Part = |it, _| {
    if let Ok(mut cached) = it.table.cached(0) {
        (0..2).for_each(|_| cached.get().into_iter().for_each(Value::check));
    }
};

const PUBLISH: Part = |it, key| {
    REPLACE(it, key);
    it.given.0.store(1, Release);
};

// It looks again after the replacement, if it sees the flag.
const FOLLOW: Part = |it, _| {
    let mut cached = it.table.cached(0).unwrap();
    cached.get().unwrap().check();
    if it.given.0.load(Acquire) == 1 {
        let (value, places) = (cached.get().unwrap(), it.places.borrow());
        value.check();
        assert!(!Rc::ptr_eq(&value.place, &places[0]), "an old value is found");
    }
};

const READ: Part = |it, key| match it.table.reader() {
    Ok(reader) => _ = reader.get(key).map(|it| it.check()),
    Err(error) => assert_eq!(error, NoSeat::Reader { in_use: 1 }),
};

impl Family {
    /// Returns a family at the seats of a table, which has a value at its first slot. `sizes` are
    /// the numbers of slots, handles, readers and guards.
    fn seats(cold_takes: u64, sizes: [u32; 4], parts: &'static [Part]) -> Family {
        let [slots, handles, readers, guards] = sizes;
        let options = Options::new(slots).handles(handles);
        Family { options: options.readers(readers).guards(guards), cold_takes, parts }
    }

    /// Returns the number of states. Panics if some order is wrong.
    fn states(self) -> usize {
        self.explore().unwrap_or_else(|fault| panic!("{fault}")).0
    }

    /// Checks that no order is wrong, and that there are `states` states.
    fn has(self, states: usize) {
        assert_eq!(self.states(), states, "the number of states");
    }
}

#[test]
fn no_order_at_the_seats_is_wrong() {
    Family::seats(16, [1, 1, 0, 1], &[LOOK_OWNED; 3]).has(246);
    Family::seats(16, [1, 1, 0, 3], &[LOOK_OWNED; 3]).has(2501);
    // the number depends on the memory that values get
    assert!(Family::seats(16, [2, 1, 0, 1], &[INSERT_AND_REMOVE; 3]).states() > 3000);
    Family::seats(16, [4, 1, 0, 1], &[HANDLE, SEAT, SEAT]).has(1516);
    Family::seats(16, [4, 1, 0, 1], &[HANDLE, HANDLE, CALL]).has(5053);
    Family::seats(16, [4, 1, 0, 1], &[HANDLE, CALL, CALL]).has(1580);
    Family::seats(16, [1, 1, 0, 2], &[GIVE, TAKE, REPLACE]).has(317);
    Family::seats(16, [1, 1, 1, 1], &[READ, READ, REPLACE]).has(335);
}

#[test]
fn no_order_of_guards_is_wrong() {
    Family::seats(16, [1, 1, 0, 2], &[LOOK_OWNED, LOOK_OWNED, REPLACE]).has(1827);
    Family::seats(0, [1, 1, 0, 2], &[LOOK_OWNED, LOOK_OWNED, REPLACE]).has(1659);
}

#[test]
fn no_order_of_cached_slots_is_wrong() {
    Family::seats(16, [1, 1, 0, 1], &[FOLLOW, PUBLISH]).has(50);
    Family::seats(0, [1, 1, 0, 1], &[FOLLOW, PUBLISH]).has(50);
    Family::seats(16, [1, 1, 0, 2], &[CACHE, CACHE, REPLACE]).has(7431);
    Family::seats(0, [1, 1, 0, 2], &[CACHE, CACHE, REPLACE]).has(5931);
}

/// A thread's steps at an atomic and a place of memory.
type Steps = fn(&AtomicU32, *const u8);

/// Returns the fault of two threads, or an empty text. At the end the atomic has to be 2.
fn fault_of(one: Steps, other: Steps) -> String {
    let explored = explore(false, || {
        let it = Rc::new((AtomicU32::new(0), 0_u8));
        let job = |steps: Steps, it: Rc<(AtomicU32, u8)>| -> Job {
            Box::new(move || steps(&it.0, &it.1))
        };
        let jobs = vec![job(one, it.clone()), job(other, it.clone())];
        let check = move || assert!(it.0.load(Relaxed) == 2, "an update is lost");
        (jobs, Box::new(check))
    });
    explored.err().unwrap_or_default()
}

#[test]
fn a_wrong_order_is_found() {
    let add: Steps = |it, _| {
        it.fetch_add(1, Relaxed);
    };
    assert_eq!(fault_of(add, add), "");
    let lose: Steps = |it, _| it.store(it.load(SeqCst) + 1, SeqCst);
    assert_eq!(fault_of(lose, add), "an update is lost");
    assert_eq!(fault_of(lose, |it, _| wait_for(it, 2, Relaxed)), "a thread waits for ever");
    let write: Steps = |it, at| {
        changes(at);
        it.store(2, Release);
    };
    let hide: Steps = |it, at| {
        changes(at);
        it.store(2, Relaxed);
    };
    let read: Steps = |it, at| {
        wait_for(it, 2, Acquire);
        changes(at);
    };
    let guess: Steps = |it, at| {
        wait_for(it, 2, Relaxed);
        changes(at);
    };
    assert_eq!(fault_of(write, read), "");
    assert_eq!(fault_of(hide, read), "two threads use memory in no order");
    assert_eq!(fault_of(write, guess), "two threads use memory in no order");
}

fn wait_for(it: &AtomicU32, wanted: u32, order: Ordering) {
    while it.load(order) != wanted {
        yield_now();
    }
}
