//! Each call with its answer in words, and the answers that it may have at a moment of the table.
use super::balance::{Before, Beside, Case, Scene, Value, GUARDS, HANDLES};
use crate::{Cached, GetError, Guard, Key, Old, OwnedCached, OwnedGuard};
use crate::{Reason, Refused, RemoveError};
use std::fmt::Debug;

/// An answer in words, and the key of a value that the call installed.
pub(super) type Answer = (String, Option<Key>);
/// A call with a key.
pub(super) type Call = fn(&Scene, Key) -> Answer;

/// Returns what can't be refused.
fn sure<R>(found: R) -> Result<R, ()> {
    Ok(found)
}

fn insert_with(it: &Scene) -> Result<Key, Reason> {
    let mut given = None;
    let answer = it.handle.insert_with(|key| {
        given = Some(key);
        it.value()
    });
    assert!(answer.is_err() || answer.ok() == given, "another key");
    answer
}

/// Looks a cached slot up twice.
macro_rules! look_twice {
    ($($name:ident($cached:ty);)*) => { $(
        fn $name(cached: Result<$cached, GetError>) -> Result<(), GetError> {
            let mut cached = cached?;
            let (slot, sees) = (cached.slot(), cached.get().is_some());
            cached.get();
            sees.then_some(()).ok_or(GetError::Empty { slot })
        }
    )* };
}

look_twice! { cached(Cached<'_, Value>); owned_cached(OwnedCached<Value>); }

/// Returns the answer of a call that is done as `done` says.
fn said<R, E: Debug>(answer: Result<R, E>, done: impl FnOnce(R) -> Answer) -> Answer {
    answer.map_or_else(|error| (format!("{error:?}"), None), done)
}

fn found<R>(_: R) -> Answer {
    ("found".into(), None)
}

fn count(number: usize) -> Answer {
    (number.to_string(), None)
}

fn inserted(key: Key) -> Answer {
    (format!("at {}", key.slot()), Some(key))
}

fn removed(old: Old<Value>) -> Answer {
    (format!("{:?}", old.map(drop)), None)
}

fn replaced((key, old): (Key, Old<Value>)) -> Answer {
    (removed(old).0, Some(key))
}

fn reason(refused: Refused<Value>) -> Reason {
    refused.reason
}

/// Defines the calls by their names, each with what is said of its result.
macro_rules! calls {
    ($($name:literal |$it:ident, $key:ident| $result:expr => $done:expr;)*) => {
        pub(super) const CALLS: &[(&str, Call)] =
            &[$(($name, |$it: &Scene, $key: Key| said($result, $done))),*];
    };
}

calls! {
    "Handle::get_at" |it, key| it.handle.get_at(key.slot()) => found;
    "Handle::get" |it, key| it.handle.get(key) => found;
    "Reader::get_at" |it, key| it.reader.get_at(key.slot()) => found;
    "Reader::get" |it, key| it.reader.get(key) => found;
    "Table::get_owned_at" |it, key| it.table.get_owned_at(key.slot()) => found;
    "Table::get_owned" |it, key| it.table.get_owned(key) => found;
    "Reader::cached, get_at" |it, key| cached(it.reader.cached(key.slot())) => found;
    "Table::cached, get_at" |it, key| owned_cached(it.table.cached(key.slot())) => found;
    "Handle::insert" |it, _key| it.handle.insert(it.value()).map_err(reason) => inserted;
    "Handle::try_insert" |it, _key| it.handle.try_insert(it.value()).map_err(reason) => inserted;
    "Handle::insert_with" |it, _key| insert_with(it) => inserted;
    "Table::insert" |it, _key| it.table.insert(it.value()).map_err(reason) => inserted;
    "Handle::replace_at" |it, key|
        it.handle.replace_at(key.slot(), it.value()).map_err(reason) => replaced;
    "Table::replace_at" |it, key|
        it.table.replace_at(key.slot(), it.value()).map_err(reason) => replaced;
    "Handle::replace" |it, key| it.handle.replace(key, it.value()).map_err(reason) => replaced;
    "Table::replace" |it, key| it.table.replace(key, it.value()).map_err(reason) => replaced;
    "Handle::remove_at" |it, key|
        it.handle.remove_at(key.slot()).map_err(RemoveError::from) => removed;
    "Table::remove_at" |it, key| it.table.remove_at(key.slot()) => removed;
    "Handle::remove" |it, key| it.handle.remove(key) => removed;
    "Table::remove" |it, key| it.table.remove(key) => removed;
    "Guard::remove" |it, key|
        it.handle.get(key).map_err(RemoveError::from).and_then(Guard::remove) => removed;
    "Guard::remove of a reader" |it, key|
        it.reader.get(key).map_err(RemoveError::from).and_then(Guard::remove) => removed;
    "OwnedGuard::remove" |it, key|
        it.table.get_owned(key).map_err(RemoveError::from).and_then(OwnedGuard::remove) => removed;
    "Handle::contains" |it, key| sure(it.handle.contains(key.slot()).into()) => count;
    "Table::contains" |it, key| it.table.contains(key.slot()).map(usize::from) => count;
    "Handle::iter" |it, _key|
        it.handle.iter().map(|it| it.map(drop)).collect::<Result<Vec<()>, _>>()
            => |it| count(it.len());
    "Reader::iter" |it, _key|
        it.reader.iter().collect::<Result<Vec<_>, _>>() => |it| count(it.len());
    "Handle::len" |it, _key| sure(it.handle.len()) => |it| count(it as usize);
    "Handle::is_empty" |it, _key| sure(it.handle.is_empty()) => |it| count(it.into());
    "Table::handle" |it, _key| sure([it.table.handle(), it.table.handle()]) => |two|
        count(two.into_iter().flatten().count());
    "Table::reader" |it, _key| sure([it.table.reader(), it.table.reader()]) => |two|
        count(two.into_iter().flatten().count());
}

/// What slot 1 has at a moment: nothing, the value of the right key, or another one.
#[derive(Clone, Copy, PartialEq)]
pub(super) enum One {
    Empty,
    Right,
    Other,
}

/// Whether slot 0 has a value at a moment, and what slot 1 has.
pub(super) type Moment = (bool, One);

/// Returns the moments of a call: before the other handle's call, within and after it.
pub(super) fn moments(case: &Case) -> [Moment; 3] {
    let one = match case.before {
        Before::Empty => One::Empty,
        _ => One::Right,
    };
    let other = case.other.map(|((name, ..), _)| name);
    match (other, one) {
        (Some("moves"), _) => [(true, one), (false, one), (false, One::Other)],
        (Some("replaces"), _) | (Some("inserts"), One::Empty) => {
            [(true, one), (true, one), (true, One::Other)]
        }
        (Some("removes"), _) => [(true, one), (true, one), (true, One::Empty)],
        _ => [(true, one); 3],
    }
}

/// Returns the answers that a call may have, if the table is as at this moment.
pub(super) fn answers(case: &Case, moment: Moment) -> Vec<String> {
    let (zero, one) = moment;
    let slots = usize::from(zero) + usize::from(one != One::Empty);
    let no_guard = format!("Guard {{ in_use: {GUARDS} }}");
    let no_handle = format!("Handle {{ in_use: {HANDLES} }}");
    let has_guards = case.beside != Beside::Guards;
    let has_handles = case.beside != Beside::Handles;
    let visits = ["Handle::len", "Handle::is_empty", "Handle::iter", "Reader::iter"];
    match case.name {
        "Handle::iter" | "Reader::iter" if !has_guards => vec![no_guard],
        // it sees each slot at a moment of its own
        name if visits.contains(&name) && !zero => vec!["0".into(), "1".into(), "2".into()],
        "Handle::is_empty" => vec![usize::from(slots == 0).to_string()],
        name if visits.contains(&name) => vec![slots.to_string()],
        "Table::handle" if has_handles => vec![(2 - usize::from(case.other.is_some())).to_string()],
        "Table::handle" | "Table::reader" => vec!["0".into()],
        "Handle::contains" => vec![usize::from(is_full(case.nth, moment)).to_string()],
        "Table::contains" if has_handles => {
            vec![usize::from(is_full(case.nth, moment)).to_string()]
        }
        "Table::contains" => vec![no_handle],
        "Table::insert" if !has_handles => vec![format!("NoSeat({no_handle})")],
        name if name.contains("insert") => insertions(case, moment),
        name => {
            let looks = name.contains("get") || name.contains("Guard");
            let lends = name.starts_with("Table") && !looks;
            let mut all = at_slot(case, moment);
            if looks && !has_guards {
                all = vec![format!("NoSeat({no_guard})")];
            } else if lends && !has_handles {
                all = vec![format!("NoSeat({no_handle})")];
            } else if (name == "Guard::remove of a reader" || name == "OwnedGuard::remove")
                && !has_handles
                && (all[0] == "InUse" || all[0] == "Unused(())")
            {
                all = vec![format!("NoSeat({no_handle})")];
            }
            // a call may look at the slot's number or at the seats first
            all.extend((case.nth == 3).then(no_slot));
            all
        }
    }
}

fn no_slot() -> String {
    "NoSlot(NoSlot { slot: 2, slots: 2 })".into()
}

/// Checks whether the slot of the case's key has a value.
fn is_full(nth: usize, (zero, one): Moment) -> bool {
    match nth {
        0 | 1 => one != One::Empty,
        2 => zero,
        _ => false,
    }
}

fn insertions(case: &Case, (zero, one): Moment) -> Vec<String> {
    let mut all: Vec<String> = Vec::new();
    all.extend((!zero).then(|| "at 0".into()));
    all.extend((one == One::Empty).then(|| "at 1".into()));
    if all.is_empty() {
        all.push("Full { slots: 2 }".into());
    }
    let may_miss = case.name == "Handle::try_insert" && case.other.is_some();
    all.extend(may_miss.then(|| "Again".into()));
    all
}

/// Returns the answers of a call at a slot, or by a key, that has its seats.
fn at_slot(case: &Case, moment: Moment) -> Vec<String> {
    let Case { name, nth, .. } = *case;
    let is_keyed = !name.ends_with("_at");
    let slot = [1, 1, 0, 2][nth];
    if nth == 3 {
        return vec![no_slot()];
    }
    if !is_full(nth, moment) {
        return vec![match name.ends_with("e_at") {
            true => "None".into(), // it replaces or removes
            false => format!("Empty {{ slot: {slot} }}"),
        }];
    }
    if is_keyed && (nth != 0 || moment.1 != One::Right) {
        return vec![format!("Stale {{ slot: {slot} }}")];
    }
    if name.contains("get") {
        return vec!["found".into()];
    }
    let is_held = match nth {
        2 => case.beside == Beside::Own || case.beside == Beside::Guards,
        _ => case.before == Before::Held && moment.1 == One::Right,
    };
    let word = if is_held { "InUse" } else { "Unused(())" };
    let mut all = vec![word.to_string()];
    // the other handle's look-up may be a user of the value
    all.extend(case.other.map(|_| "InUse".into()));
    all
}
