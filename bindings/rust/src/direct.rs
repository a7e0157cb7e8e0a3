//! The life of a direct descriptor: when a slot of a ring's table is free, when it may be closed,
//! and whose a completion is. For a server on `io_uring` with direct descriptors (fixed files).
//!
//! Nothing here makes a system call: [`Slots`] says what to submit, and takes the completions.
//!
//! ```text
//! free -> opening -> live -> ending -> closing -> free
//! ```
//!
//! [`Slots::reserve`] takes a free slot, and the caller submits an open there (`openat`, `accept`,
//! `socket`). The life of the slot has a name, its [`Key`], which is also the `user_data` of each
//! request. A request on the file is counted from before its submission ([`Slots::start`]) until
//! its last completion ([`Slots::finish`]). After [`Slots::end`] no request is started, and once
//! none is left, a call returns [`Next::Close`]: now the slot is to be closed. An open, requests
//! and a close may also be submitted at once, linked: [`Slots::chain`].
//!
//! [`Lives`] does all that around a ring: a server takes its events, as `examples/echo.rs` does. It
//! works over any crate for rings, by the trait [`Ring`]. Nothing of it is proved.
//!
//! # Promise
//!
//! A request that was started under a key finds the file that the open under this key installed,
//! and an open finds its slot empty. Each file is asked to be closed at most once, or once more
//! after each close that failed. When a slot is reserved, nothing of an earlier life is left there.
//! This is proved of the library beneath, under the premises of docs/use/DIRECT.md ("Promise"):
//!
//! - The slots of [`Slots::new`] are empty, and nobody else writes them.
//! - There is one submission for each call, and [`Slots::finish`] is called once, after the last
//!   completion of the request (DIRECT, "The last completion").
//! - Each key goes to the `Slots` that returned it: the first keys of two rings are equal.
//!
//! # Values, and other threads
//!
//! [`Slots<T>`](Slots) keeps a value for each life, which the life's end returns. A drop of the
//! slots drops all values, also buffers that requests in flight use. So drop them once
//! [`Slots::in_flight`] is 0.
//!
//! Threads that work on a connection hold a value of a [`Table`](crate::Table): it has a [`User`],
//! and the machine counts it as one user. Whichever thread drops the value, the key goes to a
//! queue, [`Releases`], that the ring's thread collects. A timer needs no user: if it fires after
//! the life is over, each call by its key is refused as [`Refusal::Stale`].
//!
//! The numbers below 2^24 are the `user_data` of no key, and are free for requests without one.
#[cfg(doctest)]
mod bounds;
#[allow(unsafe_code)]
mod core;
mod errors;
mod key;
mod lives;
#[cfg(test)]
mod lives_tests;
#[allow(unsafe_code)]
mod machine;
mod releases;
mod ring;
mod slots;
#[cfg(any(test, yachtbanyan_stand_in))]
#[allow(dead_code, unsafe_code)]
mod stand_in;
#[cfg(test)]
mod tests;

pub use errors::{AdoptError, OpenError, OtherSlots, Refusal, ReserveError};
pub use key::{Key, MOST_KIND};
pub use lives::{Event, Lives, MOST_OWN_KIND};
pub use releases::{Releases, User};
pub use ring::{Completion, Entry, Request, Ring};
pub use slots::{Adopted, After, Chain, Member, Next, Phase, PhaseName, Slots};

/// The largest number of slots.
pub const MOST_SLOTS: u32 = core::MOST_SLOTS;
