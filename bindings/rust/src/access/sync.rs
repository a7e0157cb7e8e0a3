//! The atomics and the waiting of this crate: those of std. In the crate's own tests over the
//! stand-in, threads take turns at each of their steps ([`turns`](super::turns)).
#![allow(dead_code, unused_imports)]
#[cfg(not(all(test, yachtbanyan_stand_in)))]
pub(crate) use self::plain::{begin, changes, config, names, Call};
#[cfg(all(test, yachtbanyan_stand_in))]
pub(crate) use super::turns::{
    begin, changes, config, names, yield_now, AtomicU32, AtomicU64, Call,
};
use std::ops::{Deref, DerefMut};
pub(crate) use std::sync::atomic::Ordering::{self, SeqCst};
#[cfg(not(all(test, yachtbanyan_stand_in)))]
pub(crate) use std::sync::atomic::{AtomicU32, AtomicU64};
#[cfg(not(all(test, yachtbanyan_stand_in)))]
pub(crate) use std::thread::yield_now;

/// A worker of the stand-in, for one call.
pub(crate) struct Turn<'a, T>(&'a mut T, #[allow(dead_code)] Call);

/// Begins a call of a worker.
#[inline(always)]
pub(crate) fn call<T>(worker: &mut T) -> Turn<'_, T> {
    let call = begin(worker);
    Turn(worker, call)
}

impl<T> Deref for Turn<'_, T> {
    type Target = T;

    #[inline(always)]
    fn deref(&self) -> &T {
        self.0
    }
}

impl<T> DerefMut for Turn<'_, T> {
    #[inline(always)]
    fn deref_mut(&mut self) -> &mut T {
        self.0
    }
}

/// What an exploration notes, for threads that take no turns: nothing.
#[cfg(not(all(test, yachtbanyan_stand_in)))]
mod plain {
    /// The call of a worker.
    pub(crate) struct Call;

    #[inline(always)]
    pub(crate) fn begin<T>(_: *const T) -> Call {
        Call
    }

    /// Notes a use of memory that no other thread may use meanwhile.
    #[inline(always)]
    pub(crate) fn changes<T>(_: *const T) {}

    /// Names the address of a value.
    #[inline(always)]
    pub(crate) fn names(_: u64) {}

    /// Returns the constants with which a table is opened.
    #[inline(always)]
    pub(crate) fn config<C>(of_core: C) -> C {
        of_core
    }
}
