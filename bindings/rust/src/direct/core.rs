//! The C interface of the verified machine (`crates/fx_direct_c`, include/yachtdirect.h), or the
//! stand-in for it.
#![allow(dead_code)]

/// A machine. Its field is its own.
#[repr(C)]
pub struct Machine {
    pub slots: *mut u8,
}

/// Defines numbers of the header.
macro_rules! numbers {
    ($($name:ident $number:literal),*) => { $(pub const $name: i32 = $number;)* };
}

// the answers, as yachtdirect.h describes them
numbers! { DONE 0, CLOSE 1, FULL -6, BAD_ARGUMENT -8, NO_MEMORY -9, STALE -10, IS_OPENING -11 }
numbers! { IS_LIVE -12, IS_ENDING -13, IS_CLOSING -14, TOO_MANY_REQUESTS -15, TOO_MANY_USERS -16 }
numbers! { IS_CHAINED -17, STOPPED -18, NOT_FREE -19, OTHER_MACHINE -20 }
// the phases
numbers! { OPENING 1, LIVE 2, ENDING 3, CLOSING 4, CHAINED 5 }

/// The largest number of slots.
pub const MOST_SLOTS: u32 = 1_048_576;

#[cfg(yachtbanyan_stand_in)]
pub(super) use super::stand_in::*;

#[cfg(not(yachtbanyan_stand_in))]
unsafe extern "C" {
    pub fn yacht_direct_open_6(machine: *mut Machine, slots: u32, first: u32, length: u32) -> i32;
    pub fn yacht_direct_free(machine: Machine);
    pub fn yacht_direct_reserve(machine: *mut Machine, key: *mut u64, slot: *mut u32) -> i32;
    pub fn yacht_direct_opened(machine: *mut Machine, key: u64, result: i32, slot: *mut u32)
        -> i32;
    pub fn yacht_direct_adopt(machine: *mut Machine, slot: u32, key: *mut u64) -> i32;
    pub fn yacht_direct_stop(machine: *mut Machine);
    pub fn yacht_direct_chain(
        machine: *mut Machine,
        key: u64,
        requests: u32,
        closes: u32,
        slot: *mut u32,
    ) -> i32;
    pub fn yacht_direct_chained(
        machine: *mut Machine,
        key: u64,
        member: u32,
        result: i32,
        slot: *mut u32,
    ) -> i32;
    pub fn yacht_direct_start(machine: *mut Machine, key: u64, slot: *mut u32) -> i32;
    pub fn yacht_direct_finish(machine: *mut Machine, key: u64, slot: *mut u32) -> i32;
    pub fn yacht_direct_hold(machine: *mut Machine, key: u64) -> i32;
    pub fn yacht_direct_release(machine: *mut Machine, key: u64, slot: *mut u32) -> i32;
    pub fn yacht_direct_end(machine: *mut Machine, key: u64, slot: *mut u32) -> i32;
    pub fn yacht_direct_closed(machine: *mut Machine, key: u64) -> i32;
    pub fn yacht_direct_close_failed(machine: *mut Machine, key: u64, slot: *mut u32) -> i32;
    pub fn yacht_direct_phase(
        machine: *mut Machine,
        key: u64,
        requests: *mut u32,
        users: *mut u32,
    ) -> i32;
    pub fn yacht_direct_len(machine: *mut Machine) -> u32;
    pub fn yacht_direct_in_flight(machine: *mut Machine) -> u64;
    pub fn yacht_direct_key_at(machine: *mut Machine, slot: u32, key: *mut u64) -> i32;
    pub fn yacht_direct_key_in(machine: *mut Machine, phase: i32, from: u32, key: *mut u64) -> i32;
}
