//! The values of a table, and the calls of the core on them.
use super::core::{self, Core, Outcome};
use super::seats::Seats;
use super::sync;
use crate::errors::{GetError, NoSlot, OpenError, Reason};
use crate::key::Key;
use crate::old::Old;
use crate::options::Options;
use std::marker::PhantomData;
use std::mem::MaybeUninit;
use std::num::NonZeroU64;

/// The part of a table that its users share.
pub(super) struct Values<T> {
    pub(super) seats: Seats,
    slots: u32,
    _owns: PhantomData<T>,
    /// A table takes values of `T` and gives them out, so `T` must be neither shortened nor
    /// lengthened: a clone of a `Table<&'static str>` that were a `Table<&'a str>` would take a
    /// reference that the other gives out as `&'static str`.
    _takes_and_gives: PhantomData<fn(T) -> T>,
}

/// A value that a seat holds: its address and its number.
pub(super) struct Held<T> {
    pub(super) value: *const T,
    pub(super) number: Option<NonZeroU64>,
}

impl<T> Held<T> {
    /// Returns the value of the outcome of a look-up that found one. The tag and the number are
    /// those of the file that the worker holds (`found`).
    #[inline(always)]
    pub(super) fn of(out: &Outcome) -> Held<T> {
        Held { value: out.tag as usize as *const T, number: NonZeroU64::new(out.number) }
    }
}

/// What a look-up looks for: a slot's value, or the value with a key. It is passed in registers.
pub(super) trait Wanted: Copy {
    fn slot(self) -> u32;

    /// Calls the core. Returns its answer.
    ///
    /// # Safety
    /// As of `Values::look`. `out` may be written.
    unsafe fn look(self, core: *mut Core, out: *mut Outcome) -> i64;
}

/// The value at a slot.
#[derive(Clone, Copy)]
pub(super) struct At(pub(super) u32);

impl Wanted for At {
    #[inline(always)]
    fn slot(self) -> u32 {
        self.0
    }

    #[inline(always)]
    unsafe fn look(self, core: *mut Core, out: *mut Outcome) -> i64 {
        // SAFETY: as the caller ensures.
        unsafe { core::yacht_core_get_at(core, self.0, out) }
    }
}

impl Wanted for Key {
    #[inline(always)]
    fn slot(self) -> u32 {
        Key::slot(self)
    }

    #[inline(always)]
    unsafe fn look(self, core: *mut Core, out: *mut Outcome) -> i64 {
        // SAFETY: as the caller ensures.
        unsafe { core::yacht_core_get(core, Key::slot(self), self.bits_of_number(), out) }
    }
}

/// Values that a call was the last to use, to be dropped at its end.
pub(super) type Unused<T> = Vec<Box<T>>;

/// The reason why a round of an installation at any slot installed nothing.
pub(super) enum Round {
    Full,
    Again,
}

/// Drops a value, if there is one. A call does this last, since the drop may panic.
#[inline]
pub(super) fn drop_last<T>(freed: Option<Box<T>>) {
    #[cold]
    #[inline(never)]
    fn drop_value<T>(value: Box<T>) {
        drop(value);
    }

    if let Some(value) = freed {
        drop_value(value);
    }
}

/// Drops the values that a call was the last to use. A call does this last, since a drop may panic:
/// the others are dropped then, too.
#[inline]
pub(super) fn drop_unused<T>(unused: Unused<T>) {
    #[cold]
    #[inline(never)]
    fn drop_all<T>(unused: Unused<T>) {
        drop(unused);
    }

    if !unused.is_empty() {
        drop_all(unused);
    }
}

/// Returns the box of a value by its tag.
///
/// # Safety
/// The core returned the tag to this call as that of a closed file, or the value with this tag was
/// never installed.
unsafe fn value_of<T>(tag: u64) -> Box<T> {
    order::acquire(tag);
    // SAFETY: the tag is the address of a box (`tag_of`), and no other call gets it
    // (`closed_at_most_once`, `has_one_history`).
    unsafe { Box::from_raw(tag as usize as *mut T) }
}

// Returns the tag of a value that is about to be installed, which is the address of its box.
#[inline]
fn tag_of<T>(value: Box<T>) -> u64 {
    let tag = Box::into_raw(value) as usize as u64;
    sync::names(tag);
    order::release(tag);
    tag
}

impl<T> Values<T> {
    /// Opens a table of empty slots.
    pub(super) fn open(options: &Options) -> Result<Values<T>, OpenError> {
        Ok(Values {
            seats: Seats::open(options)?,
            slots: options.slots,
            _owns: PhantomData,
            _takes_and_gives: PhantomData,
        })
    }

    #[inline]
    pub(super) fn slots(&self) -> u32 {
        self.slots
    }

    #[inline]
    pub(super) fn no_slot(&self, slot: u32) -> NoSlot {
        let slots = self.slots;
        NoSlot { slot, slots }
    }

    /// Checks that there is such a slot.
    pub(super) fn check(&self, slot: u32) -> Result<(), GetError> {
        match slot < self.slots {
            true => Ok(()),
            false => Err(GetError::NoSlot(self.no_slot(slot))),
        }
    }

    /// Returns the reason why a value isn't installed if every slot has one.
    pub(super) fn full(&self) -> Reason {
        let slots = self.slots;
        Reason::Full { slots }
    }

    /// Looks up a slot or a key. Returns the core's answer and its outcome. If it is `DONE`, the
    /// seat holds the value of the outcome ([`Held::of`]) until `release`. The caller drops the
    /// values that the look-up was the last to use (`add_unused`).
    ///
    /// # Safety
    /// The core's worker is of a seat that the caller has (one user). It holds nothing.
    #[inline(always)]
    pub(super) unsafe fn look<'o>(
        &self,
        core: *mut Core,
        wanted: impl Wanted,
        out: &'o mut MaybeUninit<Outcome>,
    ) -> (i64, &'o Outcome) {
        // SAFETY: no other call uses the core's worker meanwhile.
        let answer = unsafe { wanted.look(core, out.as_mut_ptr()) };
        // SAFETY: the core writes all of it, whatever its answer is (`found`).
        let out = unsafe { out.assume_init_ref() };
        if answer == core::DONE {
            order::acquire(out.tag);
        }
        (answer, out)
    }

    /// Returns the error of a call that has this number of the core.
    pub(super) fn get_error(&self, number: i64, slot: u32) -> GetError {
        match number {
            core::EMPTY => GetError::Empty { slot },
            core::STALE => GetError::Stale { slot },
            _ => GetError::NoSlot(self.no_slot(slot)),
        }
    }

    /// Checks whether a slot has the value that a seat holds, by one load.
    ///
    /// # Safety
    /// The core's worker is of a seat that the caller has (one user). It holds a value.
    #[inline(always)]
    pub(super) unsafe fn is_current(&self, core: *mut Core, slot: u32) -> bool {
        // SAFETY: no other call uses the core's worker meanwhile.
        unsafe { core::yacht_core_is_current(core, slot) == 1 }
    }

    /// Ends the hold of a seat. Returns its value if this call closed it. `value` is its address,
    /// for a sanitizer alone; it is null if the caller doesn't know it.
    ///
    /// # Safety
    /// The core's worker is of a seat that the caller has (one user). If it holds a value, no
    /// reference to that by this hold is left.
    #[inline]
    pub(super) unsafe fn release(&self, core: *mut Core, value: *const T) -> Option<Box<T>> {
        order::release(value as usize as u64);
        let mut closed = MaybeUninit::uninit();
        // SAFETY: no other call uses the core's worker meanwhile.
        let answer = unsafe { core::yacht_core_release(core, closed.as_mut_ptr()) };
        // SAFETY: the core closed this file in this call, and wrote its tag (`released`).
        (answer == core::DROPPED).then(|| unsafe { value_of(closed.assume_init()) })
    }

    /// Looks a slot or a key up and releases what is found. Returns whether there was a value, and
    /// the values that these calls were the last to use.
    ///
    /// # Safety
    /// As of `look`.
    pub(super) unsafe fn sees(&self, core: *mut Core, wanted: impl Wanted) -> (bool, Unused<T>) {
        let (mut out, mut unused) = (MaybeUninit::uninit(), Vec::new());
        // SAFETY: as the caller ensures.
        let (answer, out) = unsafe { self.look(core, wanted, &mut out) };
        let sees = answer == core::DONE;
        // SAFETY: the core closed these files in the look-up (`found`).
        unsafe { add_unused(&mut unused, out) };
        if sees {
            // SAFETY: the seat holds this value, to which there is no reference.
            unused.extend(unsafe { self.release(core, Held::of(out).value) });
        }
        (sees, unused)
    }

    /// Installs a value at a slot. Returns its key, and what was there, or `Err` with the value if
    /// there is no such slot.
    ///
    /// # Safety
    /// The core's worker is of a seat that the caller has (one user). It installs, and holds
    /// nothing.
    #[inline]
    pub(super) unsafe fn replace_at(
        &self,
        core: *mut Core,
        slot: u32,
        value: Box<T>,
    ) -> Result<(Key, Old<Box<T>>), Box<T>> {
        let (tag, mut out) = (tag_of(value), Outcome::default());
        // SAFETY: no other call uses the core's worker meanwhile.
        let answer = unsafe { core::yacht_core_replace_at(core, slot, tag, &mut out) };
        if answer < 0 {
            // SAFETY: the core refused the file, so the value was never installed (`placed`).
            return Err(unsafe { value_of(tag) });
        }
        let key = Key::new(slot, NonZeroU64::new(out.number));
        // SAFETY: this is the answer of the call (`placed`).
        Ok((key, unsafe { old_of(answer, &out) }))
    }

    /// Makes one round to install a value at a free slot. Returns its key, or the value and the
    /// reason.
    ///
    /// # Safety
    /// As of `replace_at`.
    pub(super) unsafe fn try_insert(
        &self,
        core: *mut Core,
        value: Box<T>,
    ) -> Result<Key, (Box<T>, Round)> {
        let (tag, mut number) = (tag_of(value), 0);
        // SAFETY: no other call uses the core's worker meanwhile.
        let answer = unsafe { core::yacht_core_insert(core, tag, &mut number) };
        if answer >= 0 {
            return Ok(Key::new(answer as u32, NonZeroU64::new(number)));
        }
        let reason = if answer == core::AGAIN { Round::Again } else { Round::Full };
        // SAFETY: the core installed nothing, so the value is still this call's (`allocated`).
        Err((unsafe { value_of(tag) }, reason))
    }

    /// Installs a value at a free slot. Returns its key, or the value if at one moment every slot
    /// had one.
    ///
    /// # Safety
    /// As of `replace_at`.
    #[inline]
    pub(super) unsafe fn insert(&self, core: *mut Core, value: Box<T>) -> Result<Key, Box<T>> {
        let (tag, mut number) = (tag_of(value), 0);
        loop {
            // SAFETY: no other call uses the core's worker meanwhile.
            let answer = unsafe { core::yacht_core_insert(core, tag, &mut number) };
            if answer >= 0 {
                return Ok(Key::new(answer as u32, NonZeroU64::new(number)));
            }
            if answer != core::AGAIN {
                // SAFETY: the core installed nothing, so the value is still this call's
                // (`allocated`).
                return Err(unsafe { value_of(tag) });
            }
            sync::yield_now();
        }
    }

    /// Finds an empty slot. Returns the key of a value that `insert_at` then installs there, or the
    /// reason why there is no such slot.
    ///
    /// # Safety
    /// As of `replace_at`.
    pub(super) unsafe fn find(&self, core: *mut Core) -> Result<Key, Round> {
        let mut number = 0;
        // SAFETY: no other call uses the core's worker meanwhile.
        match unsafe { core::yacht_core_find(core, &mut number) } {
            core::AGAIN => Err(Round::Again),
            answer if answer < 0 => Err(Round::Full),
            answer => Ok(Key::new(answer as u32, NonZeroU64::new(number))),
        }
    }

    /// Installs a value at a slot if that is empty. The value has the key that was found last.
    /// Returns the value if the slot isn't empty, or if it changed meanwhile.
    ///
    /// # Safety
    /// As of `replace_at`. The slot is that of a key which was found for this call.
    pub(super) unsafe fn insert_at(
        &self,
        core: *mut Core,
        slot: u32,
        value: Box<T>,
    ) -> Result<(), Box<T>> {
        let tag = tag_of(value);
        // SAFETY: no other call uses the core's worker meanwhile.
        match unsafe { core::yacht_core_put_empty(core, slot, tag) } {
            core::DONE => Ok(()),
            // SAFETY: the core installed nothing, so the value is still this call's (`placed`).
            _ => Err(unsafe { value_of(tag) }),
        }
    }

    /// Empties a slot. Returns what was there.
    ///
    /// # Safety
    /// As of `replace_at`.
    #[inline]
    pub(super) unsafe fn remove_at(
        &self,
        core: *mut Core,
        slot: u32,
    ) -> Result<Old<Box<T>>, NoSlot> {
        let mut out = Outcome::default();
        // SAFETY: no other call uses the core's worker meanwhile.
        match unsafe { core::yacht_core_remove_at(core, slot, &mut out) } {
            core::NO_SLOT => Err(self.no_slot(slot)),
            // SAFETY: this is the answer of the call (`removed`).
            answer => Ok(unsafe { old_of(answer, &out) }),
        }
    }

    /// Removes the value with a key. Returns what became of it, or why nothing was removed, and the
    /// values that the call was the last to use. It tries again while other threads count look-ups
    /// at the slot.
    ///
    /// # Safety
    /// As of `replace_at`.
    #[inline]
    pub(super) unsafe fn remove(
        &self,
        core: *mut Core,
        key: Key,
    ) -> (Result<Old<Box<T>>, GetError>, Unused<T>) {
        let (slot, number) = (key.slot(), key.bits_of_number());
        let mut unused = Vec::new();
        loop {
            let mut out = Outcome::default();
            // SAFETY: no other call uses the core's worker meanwhile.
            let answer = unsafe { core::yacht_core_remove(core, slot, number, &mut out) };
            // SAFETY: the core closed these files in this call (`removed`).
            unsafe { add_unused(&mut unused, &out) };
            if answer >= 0 {
                // SAFETY: this is the answer of the call (`removed`).
                return (Ok(unsafe { old_of(answer, &out) }), unused);
            }
            if answer != core::AGAIN {
                return (Err(self.get_error(answer, slot)), unused);
            }
            sync::yield_now();
        }
    }

    /// Installs a value in place of the one with a key. Returns its key and what became of the old
    /// value, or the value and why it isn't installed; and the values that the call was the last to
    /// use. It tries again while other threads count look-ups at the slot.
    ///
    /// # Safety
    /// As of `replace_at`.
    #[inline(always)]
    #[allow(clippy::type_complexity)]
    pub(super) unsafe fn replace(
        &self,
        core: *mut Core,
        key: Key,
        value: Box<T>,
    ) -> (Result<(Key, Old<Box<T>>), (Box<T>, GetError)>, Unused<T>) {
        let (slot, number, tag) = (key.slot(), key.bits_of_number(), tag_of(value));
        let mut unused = Vec::new();
        loop {
            let mut out = Outcome::default();
            // SAFETY: no other call uses the core's worker meanwhile.
            let answer = unsafe { core::yacht_core_replace(core, slot, number, tag, &mut out) };
            // SAFETY: the core closed these files in this call (`placed`).
            unsafe { add_unused(&mut unused, &out) };
            if answer >= 0 {
                let fresh = Key::new(slot, NonZeroU64::new(out.number));
                // SAFETY: this is the answer of the call (`placed`).
                return (Ok((fresh, unsafe { old_of(answer, &out) })), unused);
            }
            if answer != core::AGAIN {
                // SAFETY: the core refused the file, so it was never installed (`placed`).
                let value = unsafe { value_of(tag) };
                return (Err((value, self.get_error(answer, slot))), unused);
            }
            sync::yield_now();
        }
    }
}

/// Returns what became of the old value of a call that is done, or found its slot empty.
///
/// # Safety
/// The core returned this answer and this outcome, and the caller uses them once.
#[inline]
unsafe fn old_of<T>(answer: i64, out: &Outcome) -> Old<Box<T>> {
    match answer {
        // SAFETY: the core closed this file in the call.
        core::DROPPED => Old::Unused(unsafe { value_of(out.tag) }),
        core::IN_USE => Old::InUse,
        _ => Old::None,
    }
}

/// Returns the values that a call was the last to use.
///
/// # Safety
/// The core returned this outcome, and the caller uses it once.
#[cold]
#[inline(never)]
unsafe fn unused_of<T>(out: &Outcome) -> Unused<T> {
    let tags = [out.freed, out.released].into_iter().filter(|&it| it != 0);
    // SAFETY: the core closed these files in the call.
    tags.map(|tag| unsafe { value_of(tag) }).collect()
}

/// Checks whether a call was the last to use some value.
#[inline(always)]
pub(super) fn frees(out: &Outcome) -> bool {
    out.freed | out.released != 0
}

/// Adds the values that a call was the last to use.
///
/// # Safety
/// As of `unused_of`.
#[inline]
pub(super) unsafe fn add_unused<T>(unused: &mut Unused<T>, out: &Outcome) {
    if frees(out) {
        // SAFETY: as the caller ensures.
        unused.extend(unsafe { unused_of(out) });
    }
}

impl<T> Drop for Values<T> {
    fn drop(&mut self) {
        let mut values: Vec<Box<T>> = Vec::new();
        for slot in 0..self.slots {
            // SAFETY: no handle is left and no call runs, so nobody uses this seat.
            let old = unsafe { self.remove_at(self.seats.installing[0].core(), slot) };
            values.extend(old.ok().and_then(Old::unused));
        }
        // No call runs and no guard is alive, so every other value has been dropped or returned
        // (`removed_files_have_users`). These are dropped with the list, one after another, even if
        // the drop of one panics.
    }
}

/// The order that the core makes between threads, for ThreadSanitizer, which can't see into the
/// library. Each thread that finds a value comes after the one that installed it, and the one that
/// drops it comes after all that released it.
#[cfg(yachtbanyan_thread_sanitizer)]
mod order {
    use std::ffi::c_void;

    unsafe extern "C" {
        fn __tsan_acquire(address: *mut c_void);
        fn __tsan_release(address: *mut c_void);
    }

    pub(super) fn acquire(tag: u64) {
        // SAFETY: the sanitizer takes any address as a name.
        unsafe { __tsan_acquire(tag as usize as *mut c_void) }
    }

    pub(super) fn release(tag: u64) {
        // SAFETY: as above.
        unsafe { __tsan_release(tag as usize as *mut c_void) }
    }
}

#[cfg(not(yachtbanyan_thread_sanitizer))]
mod order {
    #[inline(always)]
    pub(super) fn acquire(_: u64) {}

    #[inline(always)]
    pub(super) fn release(_: u64) {}
}
