//! The only unsafe code: calls of the core, and the boxes of the values.
//!
//! A value is in a box. Its tag, which the core keeps with the value's file, is the box's address.
//! A look-up returns the tag of the file that the worker holds then, and so the value's address.
//! The core counts holds and returns the tag to exactly one call, when nobody can hold the value
//! any more; that call gets the box.
//!
//! The arguments in these files name what they rest on. Clauses of the core's exports
//! (`fx_server_c`, and the records of `specs/Answers.antt` in `fx_server`): `found` (the worker
//! holds the file that was found, and the tag and the number are that file's), `released`,
//! `placed`, `allocated` and `removed` (which file is returned to be closed, by its tag, and that a
//! call by key changes the slot only if it has the key's file), and `checked` (whether a slot has
//! the file that the worker holds). Each says that the worker stays in
//! its table (`StaysInTable`). So laws of every history (`fx_plain::laws`: `no_close_while_held`,
//! `closed_at_most_once`) and of every state of the table (`fx_lasting::laws`: `has_one_history`,
//! `removed_files_have_users`) hold of what all workers of a table do together.
//!
//! One rule of this crate is cited as well. *One user*: a seat (`seats.rs`) is used by one thread
//! at a time. Its number is claimed by an exchange that acquires, and returned by an operation that
//! releases. In between, one value has it: a reader, a handle, a guard, a cached slot, or a call of
//! the table.
mod cached;
mod core;
mod exports;
mod guard;
mod handle;
mod keys;
mod reader;
mod seats;
#[allow(dead_code)]
#[cfg(yachtbanyan_stand_in)]
mod stand_in;
mod storage;
mod sync;
mod table;
mod table_keys;
#[cfg(test)]
mod tests;
#[cfg(all(test, yachtbanyan_stand_in))]
mod turns;
mod values;
mod with;

pub use self::cached::{Cached, OwnedCached};
pub(crate) use self::core::{MOST_INSTALLING, MOST_SLOTS, MOST_WORKERS};
pub use self::guard::{Guard, OwnedGuard, Part};
pub use self::handle::Handle;
pub use self::reader::Reader;
pub use self::table::Table;
