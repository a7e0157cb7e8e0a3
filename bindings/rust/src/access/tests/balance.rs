//! After each call, also one that is refused: its answer is one that it may have at a moment of the
//! call; each seat is free that no handle, reader or guard has; and each value that was made is at
//! a slot or was dropped. Over the stand-in, another handle
//! also makes a call before each step in turn, at cold and at hot slots, so that each answer of the
//! core comes.
use super::answers::{answers, moments, Answer, Call, CALLS};
use crate::{GetError, Handle, Key, NoSeat, Options, Reader, Table};
#[cfg(yachtbanyan_stand_in)]
use std::collections::BTreeSet;
use std::sync::atomic::{AtomicUsize, Ordering::SeqCst};
use std::sync::Arc;

pub(super) const HANDLES: u32 = 3;
const READERS: u32 = 1;
pub(super) const GUARDS: u32 = 3;
/// A slot that the table hasn't, which has two.
const FAR: u32 = 2;

/// Counts the values that are alive.
pub(super) struct Value(Arc<AtomicUsize>);

impl Drop for Value {
    fn drop(&mut self) {
        self.0.fetch_sub(1, SeqCst);
    }
}

impl Value {
    fn new(alive: &Arc<AtomicUsize>) -> Value {
        alive.fetch_add(1, SeqCst);
        Value(alive.clone())
    }
}

/// The value that slot 1 has before the call.
#[derive(Clone, Copy, Debug, PartialEq)]
pub(super) enum Before {
    Empty,
    Full,
    /// It has one that an owned guard holds.
    Held,
}

/// What is taken while the call runs.
#[derive(Clone, Copy, Debug, PartialEq)]
pub(super) enum Beside {
    Nothing,
    /// The handle's and the reader's own seat.
    Own,
    /// These, and each seat of guards.
    Guards,
    /// Each handle.
    Handles,
}

/// What another handle does within the call: its name, how often, and a call.
pub(super) type Other = (&'static str, usize, fn(&Handle<Value>, Value));

#[cfg(yachtbanyan_stand_in)]
const OTHERS: [Other; 5] = [
    ("replaces", 1, |it, value| drop(it.replace_at(1, value))),
    ("removes", 1, |it, _| drop(it.remove_at(1))),
    ("inserts", 1, |it, value| drop(it.try_insert(value))),
    // never is each slot full meanwhile, if slot 1 is empty before
    ("moves", 1, |it, value| {
        drop(it.remove_at(0));
        drop(it.replace_at(1, value));
    }),
    ("looks", 8, |it, _| drop(it.get_at(1))),
];

pub(super) struct Scene {
    pub(super) table: Table<Value>,
    pub(super) handle: Handle<Value>,
    pub(super) reader: Reader<Value>,
    alive: Arc<AtomicUsize>,
}

impl Scene {
    fn open() -> Scene {
        let options = Options::new(2).handles(HANDLES).readers(READERS);
        let table = options.guards(GUARDS).open().unwrap();
        Scene {
            handle: table.handle().unwrap(),
            reader: table.reader().unwrap(),
            table,
            alive: Arc::default(),
        }
    }

    pub(super) fn value(&self) -> Value {
        Value::new(&self.alive)
    }
}

/// A call, and what is there before it, beside it and within it: what another handle does, after
/// this number of steps.
#[derive(Clone, Copy)]
pub(super) struct Case {
    pub(super) name: &'static str,
    call: Call,
    pub(super) before: Before,
    pub(super) beside: Beside,
    pub(super) nth: usize,
    pub(super) other: Option<(Other, usize)>,
}

/// Makes a call within which another handle makes one. Returns its answer, and whether it made as
/// many steps.
#[cfg(yachtbanyan_stand_in)]
fn make(scene: &Scene, key: Key, case: Case) -> (Answer, bool) {
    let Some(((_, times, call), after)) = case.other else {
        return ((case.call)(scene, key), true);
    };
    let (other, alive) = (scene.table.handle().unwrap(), scene.alive.clone());
    let run = move || call(&other, Value::new(&alive));
    crate::access::turns::meet(after, times, run, || (case.call)(scene, key))
}

#[cfg(not(yachtbanyan_stand_in))]
fn make(scene: &Scene, key: Key, case: Case) -> (Answer, bool) {
    ((case.call)(scene, key), true)
}

/// Makes a call, and checks what is left. Returns whether it made as many steps as the case has.
fn check(case: Case) -> bool {
    let Case { before, beside, .. } = case;
    let scene = Scene::open();
    scene.table.replace_at(0, scene.value()).unwrap();
    scene.table.replace_at(1, scene.value()).unwrap();
    let stale = scene.handle.get_at(1).unwrap().key();
    scene.table.replace_at(1, scene.value()).unwrap();
    let right = scene.handle.get_at(1).unwrap().key();
    // each pass is listed, and a slot that may be hot is hot
    drop((scene.reader.get_at(1), scene.table.get_owned_at(1)));
    let others: Vec<_> = (1..HANDLES).map(|_| scene.table.handle().unwrap()).collect();
    let all = others.iter().chain([&scene.handle]);
    all.for_each(|it| assert!(it.contains(1)));
    drop(others);
    let held = (before == Before::Held).then(|| scene.table.get_owned_at(1).unwrap());
    if before == Before::Empty {
        scene.table.remove_at(1).unwrap();
    }
    let far = Key::from_bits(u64::from(FAR) << 1 | 1 << 13);
    let key = [right, stale, Key::from_bits(0), far][case.nth];
    let owns = (beside == Beside::Own || beside == Beside::Guards)
        .then(|| (scene.handle.get_at(0), scene.reader.get_at(0)));
    let mut guards = Vec::new();
    while beside == Beside::Guards {
        match scene.table.get_owned_at(0) {
            Ok(guard) => guards.push(guard),
            Err(_) => break,
        }
    }
    let taken = std::iter::from_fn(|| scene.table.handle().ok());
    let handles: Vec<_> = taken.take_while(|_| beside == Beside::Handles).collect();
    let (answer, is_made) = make(&scene, key, case);
    drop((held, owns, guards, handles));
    check_answer(&scene, case, answer);
    check_scene(scene, case);
    is_made
}

impl Case {
    fn what(&self) -> String {
        let other = self.other.map(|((other, ..), after)| (other, after));
        let (before, beside) = (self.before, self.beside);
        let what = format!("{} by key {}", self.name, self.nth);
        format!("{what}, {before:?}, beside {beside:?}, within {other:?}")
    }
}

/// Checks that a call may have this answer, and that a key which it returned finds its value.
fn check_answer(scene: &Scene, case: Case, (answer, key): Answer) {
    let moments = moments(&case);
    let may_be: Vec<_> = moments.map(|it| answers(&case, it)).concat();
    let (what, is_right) = (case.what(), may_be.contains(&answer));
    assert!(is_right, "the answer of {what}: {answer}, not {may_be:?}");
    let is_there = key.is_none_or(|key| scene.table.get_owned(key).is_ok());
    assert!(is_there || case.other.is_some(), "the key of {what}");
}

/// Checks what is left after a call.
fn check_scene(scene: Scene, case: Case) {
    let what = case.what();
    let alive = scene.alive.load(SeqCst);
    assert_eq!(alive as u32, scene.handle.len(), "values after {what}");
    // a value that each seat can hold
    drop(scene.handle.replace_at(0, scene.value()));
    let mut owned = Vec::new();
    let error = loop {
        match scene.table.get_owned_at(0) {
            Ok(guard) => owned.push(guard),
            Err(error) => break error,
        }
    };
    let none = GetError::NoSeat(NoSeat::Guard { in_use: GUARDS });
    let found = (owned.len() as u32, error);
    assert_eq!(found, (GUARDS, none), "seats of guards after {what}");
    let (table, handle, reader) = (scene.table, scene.handle, scene.reader);
    assert!(handle.get_at(0).is_ok(), "the handle's seat after {what}");
    assert!(reader.get_at(0).is_ok(), "the reader's seat after {what}");
    drop((handle, reader));
    let handles: Vec<_> = std::iter::from_fn(|| table.handle().ok()).collect();
    let readers: Vec<_> = std::iter::from_fn(|| table.reader().ok()).collect();
    let counts = (handles.len() as u32, readers.len() as u32);
    let wanted = (HANDLES, READERS);
    assert_eq!(counts, wanted, "handles and readers after {what}");
}

/// Returns each call, before each value at the slot.
fn cases() -> impl Iterator<Item = Case> {
    let befores = [Before::Empty, Before::Full, Before::Held];
    let cases = |before: Before| {
        CALLS.iter().map(move |&(name, call)| Case {
            name,
            call,
            before,
            beside: Beside::Nothing,
            nth: 0,
            other: None,
        })
    };
    befores.into_iter().flat_map(cases)
}

#[test]
fn each_call_leaves_every_seat_and_value() {
    use Beside::{Guards, Handles, Nothing, Own};
    for case in cases() {
        for beside in [Nothing, Own, Guards, Handles] {
            for nth in 0..4 {
                assert!(check(Case { beside, nth, ..case }));
            }
        }
    }
}

/// Makes each call, and before each of its steps another one. Returns the calls that gave their
/// turns up, to try again.
#[cfg(yachtbanyan_stand_in)]
fn check_each_step(cold_takes: u64) -> BTreeSet<&'static str> {
    use crate::access::stand_in::Config;
    use crate::access::turns::{with_config, yields};

    let mut again = BTreeSet::new();
    let core = Config::of_core(2, 12);
    with_config(Config { cold_takes, ..core }, || {
        for case in cases() {
            for (other, nth) in OTHERS.iter().flat_map(|it| [(*it, 0), (*it, 1)]) {
                let before = yields();
                (0..).find(|&after| {
                    let other = Some((other, after));
                    !check(Case { other, nth, ..case })
                });
                if yields() > before {
                    again.insert(case.name);
                }
            }
        }
    });
    again
}

#[cfg(yachtbanyan_stand_in)]
#[test]
fn each_call_that_another_one_meets_leaves_every_seat_and_value() {
    let again = check_each_step(16);
    let of_both = ["insert", "remove", "replace"];
    let names = of_both.iter().flat_map(|it| [format!("Handle::{it}"), format!("Table::{it}")]);
    for name in names.chain(["Handle::insert_with".into()]) {
        assert!(again.contains(&name[..]), "{name} never tries again");
    }
}

#[cfg(yachtbanyan_stand_in)]
#[test]
fn each_call_that_another_one_meets_at_a_hot_slot_leaves_every_seat_and_value() {
    check_each_step(0);
}
