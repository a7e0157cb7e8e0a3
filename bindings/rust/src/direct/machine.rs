//! The verified machine (`crates/fx_direct_c`), by its C interface, or the stand-in for it.
//!
//! The only unsafe code of this module. A machine has memory of its own, which its calls alone
//! use. It is one thread's at a time, since it isn't `Sync`.
use super::core::{self, Machine as Raw, CLOSE, DONE, FULL, NOT_FREE, NO_MEMORY, STOPPED};
use super::errors::{AdoptError, OpenError, Refusal, ReserveError};
use super::key::Key;
use super::slots::{Member, Next, Phase, PhaseName};
use std::cell::UnsafeCell;
use std::mem::MaybeUninit;
use std::ops::Range;

/// The machine of one ring.
pub struct Machine {
    raw: UnsafeCell<Raw>,
}

// SAFETY: the memory of a machine has no owner but the machine, and no thread's own state: its
// value may go to another thread (`fx_direct::machine_crosses`).
unsafe impl Send for Machine {}

/// Calls a function of the library for a machine.
macro_rules! call {
    ($it:ident.$name:ident($($given:expr),*)) => {
        // SAFETY: the machine is open, and no other thread uses it.
        unsafe { core::$name($it.raw.get(), $($given),*) }
    };
}

impl Machine {
    pub fn open(slots: u32, range: Range<u32>) -> Result<Machine, OpenError> {
        let length = range.end.saturating_sub(range.start);
        let mut raw = MaybeUninit::uninit();
        // SAFETY: it writes the machine if it returns DONE, and else nothing.
        match unsafe { core::yacht_direct_open_6(raw.as_mut_ptr(), slots, range.start, length) } {
            DONE => Ok(Machine { raw: UnsafeCell::new(unsafe { raw.assume_init() }) }),
            NO_MEMORY => Err(OpenError::NoMemory),
            _ => Err(OpenError::Slots(slots)),
        }
    }

    // Calls a function of the machine that is passed a key and writes a number.
    fn numbered(
        &self,
        call: unsafe extern "C" fn(*mut Raw, u64, *mut u32) -> i32,
        key: Key,
    ) -> Result<(i32, u32), Refusal> {
        let mut slot = 0;
        // SAFETY: the machine is open, and no other thread uses it.
        let answer = unsafe { call(self.raw.get(), key.bits(), &mut slot) };
        if answer < 0 {
            return Err(Refusal::of(answer, key));
        }
        Ok((answer, slot))
    }

    fn next(
        &mut self,
        call: unsafe extern "C" fn(*mut Raw, u64, *mut u32) -> i32,
        key: Key,
    ) -> Result<Next, Refusal> {
        let (answer, slot) = self.numbered(call, key)?;
        next_of(answer, key, slot)
    }

    pub fn reserve(&mut self, slots: u32) -> Result<Key, ReserveError> {
        let (mut key, mut slot) = (0, 0);
        match call!(self.yacht_direct_reserve(&mut key, &mut slot)) {
            DONE => Ok(Key::from_bits(key).0),
            STOPPED => Err(ReserveError::Stopped),
            _ => Err(ReserveError::Full { slots }),
        }
    }

    // Adopts the file at a slot, and returns whether its close is asked for.
    pub fn adopt(&mut self, slot: u32) -> Result<(Key, Next), AdoptError> {
        let mut key = 0;
        let answer = call!(self.yacht_direct_adopt(slot, &mut key));
        match answer {
            DONE => Ok((Key::from_bits(key).0, Next::Nothing)),
            CLOSE => Ok((Key::from_bits(key).0, Next::Close(slot))),
            NOT_FREE => Err(AdoptError::NotFree { slot }),
            FULL => Err(AdoptError::Full { slot }),
            _ => Err(AdoptError::OutOfRange { slot }),
        }
    }

    pub fn stop(&mut self) {
        call!(self.yacht_direct_stop())
    }

    pub fn opened(&mut self, key: Key, result: i32) -> Result<Next, Refusal> {
        let mut slot = 0;
        let answer = call!(self.yacht_direct_opened(key.bits(), result, &mut slot));
        next_of(answer, key, slot)
    }

    pub fn chain(&mut self, key: Key, requests: u32, closes: bool) -> Result<u32, Refusal> {
        let (mut slot, closes) = (0, u32::from(closes));
        let answer = call!(self.yacht_direct_chain(key.bits(), requests, closes, &mut slot));
        done(answer, key)?;
        Ok(slot)
    }

    pub fn chained(&mut self, key: Key, member: Member, result: i32) -> Result<Next, Refusal> {
        let (mut slot, member) = (0, member as u32);
        let answer = call!(self.yacht_direct_chained(key.bits(), member, result, &mut slot));
        next_of(answer, key, slot)
    }

    pub fn start(&mut self, key: Key) -> Result<u32, Refusal> {
        Ok(self.numbered(core::yacht_direct_start, key)?.1)
    }

    pub fn finish(&mut self, key: Key) -> Result<Next, Refusal> {
        self.next(core::yacht_direct_finish, key)
    }

    pub fn hold(&mut self, key: Key) -> Result<(), Refusal> {
        done(call!(self.yacht_direct_hold(key.bits())), key)
    }

    pub fn release(&mut self, key: Key) -> Result<Next, Refusal> {
        self.next(core::yacht_direct_release, key)
    }

    pub fn end(&mut self, key: Key) -> Result<Next, Refusal> {
        self.next(core::yacht_direct_end, key)
    }

    pub fn closed(&mut self, key: Key) -> Result<(), Refusal> {
        done(call!(self.yacht_direct_closed(key.bits())), key)
    }

    pub fn close_failed(&mut self, key: Key) -> Result<u32, Refusal> {
        Ok(self.numbered(core::yacht_direct_close_failed, key)?.1)
    }

    pub fn phase(&self, key: Key) -> Option<Phase> {
        let (mut requests, mut users) = (0, 0);
        let phase = call!(self.yacht_direct_phase(key.bits(), &mut requests, &mut users));
        match phase {
            core::OPENING => Some(Phase::Opening),
            core::LIVE => Some(Phase::Live { requests, users }),
            core::ENDING => Some(Phase::Ending { requests, users }),
            core::CLOSING => Some(Phase::Closing),
            core::CHAINED => Some(Phase::Chained { requests }),
            _ => None,
        }
    }

    pub fn len(&self) -> u32 {
        call!(self.yacht_direct_len())
    }

    pub fn in_flight(&self) -> u64 {
        call!(self.yacht_direct_in_flight())
    }

    // Returns the key of the life at a slot.
    pub fn key_at(&self, slot: u32) -> Option<Key> {
        let mut key = 0;
        let answer = call!(self.yacht_direct_key_at(slot, &mut key));
        (answer == DONE).then(|| Key::from_bits(key).0)
    }

    // Returns the key of the first life in a phase, from a slot on.
    pub fn key_in(&self, phase: PhaseName, from: u32) -> Option<Key> {
        let (mut key, phase) = (0, phase as i32);
        let answer = call!(self.yacht_direct_key_in(phase, from, &mut key));
        (answer == DONE).then(|| Key::from_bits(key).0)
    }
}

fn next_of(answer: i32, key: Key, slot: u32) -> Result<Next, Refusal> {
    done(answer, key)?;
    Ok(if answer == CLOSE { Next::Close(slot) } else { Next::Nothing })
}

fn done(answer: i32, key: Key) -> Result<(), Refusal> {
    if answer < 0 {
        return Err(Refusal::of(answer, key));
    }
    Ok(())
}

impl Drop for Machine {
    fn drop(&mut self) {
        // SAFETY: the machine is open, and nobody uses it after this.
        unsafe { core::yacht_direct_free(self.raw.get().read()) }
    }
}
