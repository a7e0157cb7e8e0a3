//! The exports of the verified core, and the numbers that they return. In the core's words a value
//! is a file. `scripts/declare-core` writes this file from `crates/fx_server_c/src/exports.rt`,
//! which describes each function.
#![allow(dead_code, unused_imports)]
use super::core::Core;

/// The numbers that a call returns beside its answer. Each is 0 if there is no such file.
#[repr(C)]
#[derive(Clone, Copy, Default)]
pub struct Outcome {
    /// The number of the file that was found or installed.
    pub number: u64,
    /// The tag of the file that was found, or that was removed and nobody uses any more.
    pub tag: u64,
    /// The tag of a removed file that the call's look-up was the last to use.
    pub freed: u64,
    /// The tag of a file that the call held and was the last to use.
    pub released: u64,
}

/// The call is done. If it installs a file, the slot was empty.
pub const DONE: i64 = 0;
/// The call is done, and it returned the tag of a file that nobody uses any more.
pub const DROPPED: i64 = 1;
/// The call is done, and the file that was at the slot is still used.
pub const IN_USE: i64 = 2;
/// The slot is empty.
pub const EMPTY: i64 = -1;
/// The table has no such slot.
pub const NO_SLOT: i64 = -2;
/// The worker holds a file.
pub const BUSY: i64 = -3;
/// The worker holds no file.
pub const IDLE: i64 = -4;
/// The worker only looks files up.
pub const READER: i64 = -5;
/// At one step every slot had a file.
pub const FULL: i64 = -6;
/// An insertion or a search found neither a slot nor a step at which every slot had a file, since
/// others were emptying or filling slots; or the slot's word changed during the call.
pub const AGAIN: i64 = -7;
/// An argument is out of range.
pub const BAD_ARGUMENT: i64 = -8;
/// An allocation failed.
pub const NO_MEMORY: i64 = -9;
/// The slot has another file than that of the key, or the call fills only an empty slot.
pub const STALE: i64 = -10;

#[cfg(not(yachtbanyan_stand_in))]
unsafe extern "C" {
    pub fn yacht_core_open(slots: u32, installing: u32, workers: *mut Core, count: usize) -> i64;
    pub fn yacht_core_close(worker: Core);
    pub fn yacht_core_get_at(worker: *mut Core, slot: u32, out: *mut Outcome) -> i64;
    pub fn yacht_core_get(worker: *mut Core, slot: u32, number: u64, out: *mut Outcome) -> i64;
    pub fn yacht_core_release(worker: *mut Core, dropped: *mut u64) -> i64;
    pub fn yacht_core_is_current(worker: *mut Core, slot: u32) -> i64;
    pub fn yacht_core_insert(worker: *mut Core, tag: u64, number: *mut u64) -> i64;
    pub fn yacht_core_replace_at(worker: *mut Core, slot: u32, tag: u64, out: *mut Outcome) -> i64;
    pub fn yacht_core_replace(
        worker: *mut Core,
        slot: u32,
        number: u64,
        tag: u64,
        out: *mut Outcome,
    ) -> i64;
    pub fn yacht_core_remove_at(worker: *mut Core, slot: u32, out: *mut Outcome) -> i64;
    pub fn yacht_core_remove(worker: *mut Core, slot: u32, number: u64, out: *mut Outcome) -> i64;
    pub fn yacht_core_find(worker: *mut Core, number: *mut u64) -> i64;
    pub fn yacht_core_put_empty(worker: *mut Core, slot: u32, tag: u64) -> i64;
}
