//! Records what threads call on a table of slots, and prints it as a log (docs/use/RECORDING.md).
//! The Python module `yachtlog` has the verified judge decide whether the rules of the table allow
//! it.
//!
//! To record a table of your own, implement [`Table`] and [`Handle`] for it: four calls.
//! `src/tables.rs` has a table of std, and `examples/sharded_slab` one that chooses its slots by
//! itself. Without its default feature `yachtbanyan` this crate needs no library.
//!
//! A ticket of one shared counter orders the lines of all threads. A call's ticket is taken before
//! it begins, and its answer's after it returned, so a call whose answer is before another call in
//! the log had returned when that one began.
#[cfg(all(doctest, feature = "yachtbanyan", not(yachtbanyan_stand_in)))]
mod bounds;
#[cfg(all(feature = "yachtbanyan", not(yachtbanyan_stand_in)))]
pub mod c;
#[cfg(feature = "yachtbanyan")]
pub mod library;
mod log;
mod meeting;
mod play;
pub mod tables;

pub use log::{Log, Value};
pub use meeting::Cut;
pub use play::{record, Plan};
use std::ops::Deref;

/// A table of slots that threads share.
pub trait Table: Send + Sync + 'static {
    /// A thread's access to the table.
    type Handle<'a>: Handle
    where
        Self: 'a;

    /// Returns an access for the calling thread. Panics if the table has none for another thread.
    fn handle(&self) -> Self::Handle<'_>;
}

/// The calls of a thread on a table.
pub trait Handle {
    /// A hold, which keeps its value alive.
    type Guard<'a>: Deref<Target = Value>
    where
        Self: 'a;

    /// The table chooses the slot, or key, of each value itself: `put` is never called.
    const CHOOSES: bool = false;

    /// Returns a hold of the value at a slot, or `None` if the slot is empty.
    fn get(&self, slot: usize) -> Option<Self::Guard<'_>>;

    /// Puts a value at a slot. A value that was there is dropped by its last user. A table that
    /// chooses its slots has no such call.
    fn put(&self, _slot: usize, _value: Value) {
        unreachable!("the table chooses its slots");
    }

    /// Puts a value at an empty slot and returns the slot.
    ///
    /// # Errors
    /// Returns the value if each slot has a value.
    fn put_any(&self, value: Value) -> Result<usize, Value>;

    /// Empties a slot, and returns whether it had a value, which its last user drops.
    fn take(&self, slot: usize) -> bool;

    /// Drops what the handle keeps for later calls, and waits for threads of the table that drop
    /// values. Called when no thread is in a call of the table but this one.
    fn rest(&self) {}
}
