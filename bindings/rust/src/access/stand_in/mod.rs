//! An unproved stand-in for the core, in plain Rust: the core's interface over the same words and
//! the same steps. Sanitizers see all of it, tests explore its orders, and the benchmark measures
//! the core against it. It is never part of a library that is handed out
//! (`--cfg yachtbanyan_stand_in`).
//!
//! A cold file is looked up by an addition to its slot's word, a hot one by its node in the pass's
//! own hold word. A slot's word always names a node; an installation or a removal puts a node of
//! its pass's stock there, and takes the one that was named (`crates/fx_lasting`).
#[cfg(all(test, yachtbanyan_stand_in))]
mod idle;
mod pass;
mod range;
mod words;

use super::core::{
    Core, Outcome, AGAIN, BAD_ARGUMENT, BUSY, DONE, DROPPED, EMPTY, FULL, IDLE, IN_USE, NO_SLOT,
    READER, STALE,
};
use super::core::{MOST_INSTALLING, MOST_SLOTS, MOST_WORKERS};
use super::sync::{self, Turn};
use std::sync::Arc;

#[cfg(all(test, yachtbanyan_stand_in))]
pub(crate) use idle::{check_idle, is_every_slot_full, tag_at};
pub(crate) use pass::{Looked, Miss, Pass};
pub(crate) use range::Found;
pub(crate) use words::{node_in, Config, Table};

/// A worker: a pass, and the file that it holds.
struct Worker {
    table: Arc<Table>,
    held: Option<usize>,
    // the number of the next file, or 0 if all were used, the distance to the one after it, and the
    // number that was drawn for the next file at an empty slot
    number: u64,
    step: u64,
    kept: u64,
    pass: Pass,
}

impl Worker {
    // Draws the number of a file that is installed.
    fn draw(&mut self) -> u64 {
        let number = self.number;
        self.number = match number {
            0 => 0,
            _ => number.checked_add(self.step).unwrap_or(0),
        };
        number
    }

    // Returns why a call is refused that needs a worker which holds nothing, and a slot.
    fn refuses(&self, slot: Option<u32>, installs: bool) -> Option<i64> {
        if self.held.is_some() {
            return Some(BUSY);
        }
        if slot.is_some_and(|it| it as usize >= self.table.size) {
            return Some(NO_SLOT);
        }
        (installs && self.pass.stock.is_empty()).then_some(READER)
    }

    // Notes that the worker holds the file of a node. Writes its tag, and its number, which is
    // loaded unless a call by key has done so.
    fn hold(&mut self, node: usize, number: Option<u64>, out: &mut Outcome) -> i64 {
        out.tag = self.table.tag(node).load(sync::SeqCst);
        out.number = number.unwrap_or_else(|| self.table.number(node).load(sync::SeqCst));
        self.held = Some(node);
        DONE
    }

    // Retires the file of a slot that had this word.
    fn retire(&mut self, word: u64, out: &mut Outcome) -> i64 {
        answer(self.table.retire(&mut self.pass, word), IN_USE, &mut out.tag)
    }

    // Removes the file of a key, by a worker that isn't refused. The pass holds it meanwhile, and
    // its hold ends with the removal.
    fn remove(&mut self, slot: u32, number: u64, out: &mut Outcome) -> i64 {
        let Worker { table, pass, .. } = self;
        let node = match look_key(table, pass, slot, number, out) {
            Ok(node) => node,
            Err(refusal) => return refusal,
        };
        match table.take_held(pass, slot as usize, node) {
            Ok(word) => self.retire(word, out),
            Err(miss) => {
                out.released = table.release(pass, node).unwrap_or(0);
                code_of(miss)
            }
        }
    }

    // Replaces the file of a key. The pass holds it meanwhile, and its hold ends with the
    // replacement.
    fn replace(&mut self, slot: u32, number: u64, tag: u64, out: &mut Outcome) -> i64 {
        let next = self.number;
        let Worker { table, pass, .. } = self;
        if slot as usize >= table.size {
            return NO_SLOT;
        }
        let it = table.put_key(pass, slot as usize, number, tag, next);
        out.freed = it.freed.unwrap_or(0);
        out.released = it.released.unwrap_or(0);
        match it.changed {
            Ok(word) => self.retire(word, out),
            Err(miss) => code_of(miss),
        }
    }
}

// Looks up the file with this number. Returns its node, which the pass holds, or the reason why
// there is none.
fn look_key(
    table: &Table,
    pass: &mut Pass,
    slot: u32,
    number: u64,
    out: &mut Outcome,
) -> Result<usize, i64> {
    if slot as usize >= table.size {
        return Err(NO_SLOT);
    }
    let Looked { found, freed } = table.look_up(pass, slot as usize);
    out.freed = freed.unwrap_or(0);
    let (node, _) = found.ok_or(EMPTY)?;
    if number != 0 && table.number(node).load(sync::SeqCst) == number {
        return Ok(node);
    }
    out.released = table.release(pass, node).unwrap_or(0);
    Err(STALE)
}

// Writes the tag of a file that nobody uses any more. Returns `kept` if there is none.
fn answer(closed: Option<u64>, kept: i64, out: &mut u64) -> i64 {
    *out = closed.unwrap_or(0);
    if closed.is_some() {
        DROPPED
    } else {
        kept
    }
}

fn code_of(miss: Miss) -> i64 {
    match miss {
        Miss::Empty => EMPTY,
        Miss::Other => STALE,
        Miss::Again => AGAIN,
    }
}

fn code_found(found: &Found) -> i64 {
    match found {
        Found::At(slot) => *slot as i64,
        Found::Full => FULL,
        Found::Again => AGAIN,
    }
}

// SAFETY of all below: as of the core's functions, a handle is valid, and one call at a time uses
// it.
unsafe fn worker<'a>(handle: *mut Core) -> Turn<'a, Worker> {
    // SAFETY: the handle came from `yacht_core_open`.
    sync::call(unsafe { &mut *(*handle).worker().cast() })
}

pub unsafe fn yacht_core_open(slots: u32, installing: u32, out: *mut Core, count: usize) -> i64 {
    let is_right = (1..=MOST_SLOTS).contains(&slots)
        && (1..=MOST_INSTALLING.min(count as u32)).contains(&installing)
        && count <= MOST_WORKERS as usize;
    if !is_right {
        return BAD_ARGUMENT;
    }
    let (slots, makers) = (slots as usize, installing as usize);
    let config = sync::config(Config::of_core(slots, count));
    let table = Arc::new(Table::open(config, slots, count, makers));
    for at in 0..count {
        let installs = at < makers;
        let it = Worker {
            table: Arc::clone(&table),
            held: None,
            number: if installs { at as u64 + 1 } else { 0 },
            step: installing.into(),
            kept: 0,
            pass: Pass::new(&table, at + 1, installs),
        };
        // SAFETY: there is room for `count` handles.
        unsafe { *out.add(at) = Core::of(Box::into_raw(Box::new(it)).cast()) };
    }
    DONE
}

pub unsafe fn yacht_core_close(handle: Core) {
    // SAFETY: the handle is used no more.
    drop(unsafe { Box::from_raw(handle.worker().cast::<Worker>()) });
}

/// Defines the calls of a worker that write an outcome or a number, unless they are refused: each
/// with the slot that must be there, and whether the worker installs.
macro_rules! calls {
    ($($name:ident($it:ident $(, $given:ident: $kind:ty)* => $out:ident: $to:ty;
                   $slot:expr, $installs:literal) $body:block)*) => { $(
        pub unsafe fn $name(handle: *mut Core, $($given: $kind,)* out: *mut $to) -> i64 {
            let (mut $it, $out) = unsafe { (worker(handle), &mut *out) };
            *$out = <$to>::default();
            if let Some(refusal) = $it.refuses($slot, $installs) {
                return refusal;
            }
            $body
        }
    )* };
}

calls! {
    yacht_core_get_at(it, slot: u32 => out: Outcome; Some(slot), false) {
        let Worker { table, pass, .. } = &mut *it;
        let Looked { found, freed } = table.look_up(pass, slot as usize);
        out.freed = freed.unwrap_or(0);
        found.map_or(EMPTY, |(node, _)| it.hold(node, None, out))
    }

    yacht_core_get(it, slot: u32, number: u64 => out: Outcome; None, false) {
        let Worker { table, pass, .. } = &mut *it;
        match look_key(table, pass, slot, number, out) {
            Ok(node) => it.hold(node, Some(number), out),
            Err(refusal) => refusal,
        }
    }

    yacht_core_insert(it, tag: u64 => number: u64; None, true) {
        let next = it.number;
        let Worker { table, pass, .. } = &mut *it;
        let found = table.try_put_any(pass, tag, next);
        if let Found::At(_) = found {
            *number = it.draw();
        }
        code_found(&found)
    }

    yacht_core_replace_at(it, slot: u32, tag: u64 => out: Outcome; Some(slot), true) {
        out.number = it.draw();
        let Worker { table, pass, .. } = &mut *it;
        let old = table.put(pass, slot as usize, tag, out.number);
        if node_in(old).is_none() {
            return DONE;
        }
        it.retire(old, out)
    }

    yacht_core_replace(it, slot: u32, number: u64, tag: u64 => out: Outcome; None, true) {
        let done = it.replace(slot, number, tag, out);
        if done >= 0 {
            out.number = it.draw();
        }
        done
    }

    yacht_core_remove_at(it, slot: u32 => out: Outcome; Some(slot), true) {
        let Worker { table, pass, .. } = &mut *it;
        let old = table.take(pass, slot as usize);
        if node_in(old).is_none() {
            return EMPTY;
        }
        it.retire(old, out)
    }

    yacht_core_remove(it, slot: u32, number: u64 => out: Outcome; None, true) {
        it.remove(slot, number, out)
    }

    yacht_core_find(it => number: u64; None, true) {
        let Worker { table, pass, .. } = &mut *it;
        let found = table.find(pass);
        if let Found::At(_) = found {
            it.kept = it.draw();
            *number = it.kept;
        }
        code_found(&found)
    }
}

pub unsafe fn yacht_core_release(handle: *mut Core, dropped: *mut u64) -> i64 {
    let (mut it, dropped) = unsafe { (worker(handle), &mut *dropped) };
    *dropped = 0;
    let Some(node) = it.held.take() else {
        return IDLE;
    };
    let Worker { table, pass, .. } = &mut *it;
    answer(table.release(pass, node), DONE, dropped)
}

pub unsafe fn yacht_core_is_current(handle: *mut Core, slot: u32) -> i64 {
    let it = unsafe { worker(handle) };
    match it.held {
        None => IDLE,
        Some(_) if slot as usize >= it.table.size => NO_SLOT,
        Some(node) => it.table.is_current(slot as usize, node).into(),
    }
}

pub unsafe fn yacht_core_put_empty(handle: *mut Core, slot: u32, tag: u64) -> i64 {
    let mut it = unsafe { worker(handle) };
    let number = std::mem::take(&mut it.kept);
    if let Some(refusal) = it.refuses(Some(slot), true) {
        return refusal;
    }
    let Worker { table, pass, .. } = &mut *it;
    let put = table.put_empty(pass, slot as usize, tag, number);
    put.map_or_else(code_of, |()| DONE)
}

/// Makes this the next number of a worker.
///
/// # Safety
/// As of the core's functions.
pub unsafe fn draw_next(handle: *mut Core, number: u64) {
    unsafe { worker(handle) }.number = number;
}

/// Returns the words of a worker's table.
///
/// # Safety
/// As of the core's functions.
pub unsafe fn words_of(handle: *mut Core) -> Vec<u64> {
    unsafe { worker(handle) }.table.words().collect()
}
