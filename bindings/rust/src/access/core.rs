//! The C interface of the verified core (`crates/fx_server_c`), or the stand-in for it. A worker of
//! the core is one pass of its table. A value is known to the core by its tag, which it returns to
//! whoever holds the value or has to drop it, and by a number that the core draws, none of them
//! twice (`numbers_are_drawn_once`).
#![allow(dead_code)]

/// A worker of the core, which its place in memory owns: one pointer, or null if there is none.
#[repr(C)]
pub(crate) struct Core {
    worker: *mut std::ffi::c_void,
}

impl Core {
    /// Returns a place without a worker.
    pub(crate) const fn none() -> Core {
        Core::of(std::ptr::null_mut())
    }

    /// Returns a place of the worker at this address.
    pub(crate) const fn of(worker: *mut std::ffi::c_void) -> Core {
        Core { worker }
    }

    /// Returns the address of the worker, or null if there is none.
    pub(crate) fn worker(&self) -> *mut std::ffi::c_void {
        self.worker
    }
}

/// The largest number of slots.
pub(crate) const MOST_SLOTS: u32 = 1_048_576;
/// The largest number of workers.
pub(crate) const MOST_WORKERS: u32 = 1024;
/// The largest number of workers that install values.
pub(crate) const MOST_INSTALLING: u32 = 64;

pub(crate) use super::exports::*;
#[cfg(yachtbanyan_stand_in)]
pub(crate) use super::stand_in::*;
