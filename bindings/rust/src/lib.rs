#![doc = include_str!("../README.md")]
#![deny(missing_docs, unsafe_code, unsafe_op_in_unsafe_fn)]
#![warn(missing_debug_implementations)]

#[allow(unsafe_code)]
mod access;
#[cfg(doctest)]
mod bounds;
pub mod direct;
pub mod docs;
mod errors;
mod iter;
mod key;
mod old;
mod options;
mod unwind;

pub use access::{Cached, Guard, Handle, OwnedCached, OwnedGuard, Part, Reader, Table};
pub use errors::{GetError, NoSeat, NoSlot, OpenError, Reason, Refused, RemoveError};
pub use iter::Iter;
pub use key::Key;
pub use old::Old;
pub use options::Options;

/// The largest number of slots of a table.
pub const MOST_SLOTS: u32 = access::MOST_SLOTS;
/// The largest number of handles of a table.
pub const MOST_HANDLES: u32 = access::MOST_INSTALLING;
/// The largest number of seats of a table: two for each handle, one for each reader, and one for
/// each further living guard and cached slot.
pub const MOST_SEATS: u32 = access::MOST_WORKERS;
