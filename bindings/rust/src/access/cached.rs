//! Values that a seat keeps while their slot has them.
use super::core;
use super::handle::Handle;
use super::reader::Reader;
use super::seats::Place;
use super::table::Table;
use super::values::{add_unused, drop_last, drop_unused, At, Held, Unused, Values};
use crate::errors::GetError;
use std::fmt;
use std::mem::MaybeUninit;

/// The value that a seat found at a slot, and holds, if there was one.
struct Kept<T> {
    place: Place,
    slot: u32,
    /// The address of the value that the seat holds, or null.
    value: *const T,
}

impl<T> Kept<T> {
    fn new(place: Place, slot: u32) -> Kept<T> {
        Kept { place, slot, value: std::ptr::null() }
    }

    /// Returns the value that the slot has, or `None` if it has none.
    ///
    /// # Safety
    /// The seat is the caller's (one user), and is one of these values.
    #[inline]
    unsafe fn get(&mut self, values: &Values<T>) -> Option<&T> {
        let core = self.place.core;
        // SAFETY: as the caller ensures. The seat holds the value if there is one.
        if self.value.is_null() || !unsafe { values.is_current(core, self.slot) } {
            // SAFETY: as the caller ensures.
            unsafe { self.look(values) };
        }
        // SAFETY: the core closes no file that is held (`no_close_while_held`, `has_one_history`).
        // The next look ends the hold, and `self` is borrowed until then.
        unsafe { self.value.as_ref() }
    }

    /// Ends the hold, and looks the slot up again. Drops what this was the last to use.
    ///
    /// # Safety
    /// As of `get`.
    #[inline(never)]
    unsafe fn look(&mut self, values: &Values<T>) {
        let (mut out, mut unused) = (MaybeUninit::uninit(), Unused::new());
        // SAFETY: as the caller ensures. No reference to the value is left: `self` isn't borrowed.
        unused.extend(unsafe { self.release(values) });
        // SAFETY: as the caller ensures. The seat holds nothing.
        let (answer, out) = unsafe { values.look(self.place.core, At(self.slot), &mut out) };
        // SAFETY: the core closed these files in the look-up (`found`).
        unsafe { add_unused(&mut unused, out) };
        if answer == core::DONE {
            self.value = Held::of(out).value;
        }
        drop_unused(unused);
    }

    /// Ends the hold, if there is one. Returns the value if this closed it.
    ///
    /// # Safety
    /// As of `get`. No reference to the value is left.
    unsafe fn release(&mut self, values: &Values<T>) -> Option<Box<T>> {
        let value = std::mem::replace(&mut self.value, std::ptr::null());
        if value.is_null() {
            return None;
        }
        // SAFETY: as the caller ensures.
        unsafe { values.release(self.place.core, value) }
    }
}

/// A slot that a [`Reader`] reads again and again, as a configuration. It keeps one seat, and the
/// value that it found last: while the slot has this value, [`Cached::get`] is one load. While the
/// slot is empty, each `get` is a look-up.
///
/// ```
/// use yachtbanyan::Table;
///
/// let table = Table::<String>::with_slots(1)?;
/// let (handle, reader) = (table.handle()?, table.reader()?);
/// let mut config = reader.cached(0)?;
/// assert_eq!(config.get(), None);
/// handle.replace_at(0, "first".to_string())?;
/// assert_eq!(config.get().unwrap(), "first");
/// handle.replace_at(0, "second".to_string())?;
/// assert_eq!(config.get().unwrap(), "second");
/// # Ok::<(), Box<dyn std::error::Error>>(())
/// ```
///
/// A value that is replaced or removed lives on until the next `get` finds that, or until this is
/// dropped. So a thread that reads seldom keeps an old value.
#[must_use = "a cached slot keeps a seat until it is dropped"]
pub struct Cached<'r, T> {
    kept: Kept<T>,
    reader: &'r Reader<T>,
}

/// A slot that is read again and again, as by [`Cached`]. It has a guard's seat of the table, keeps
/// the table alive, and borrows nothing: it may be stored, and go to another thread.
///
/// ```
/// use yachtbanyan::Table;
///
/// let table = Table::<u32>::with_slots(1)?;
/// table.insert(8080)?;
/// let mut port = table.cached(0)?;
/// let thread = std::thread::spawn(move || port.get().copied());
/// assert_eq!(thread.join().unwrap(), Some(8080));
/// # Ok::<(), Box<dyn std::error::Error>>(())
/// ```
#[must_use = "a cached slot keeps a seat until it is dropped"]
pub struct OwnedCached<T> {
    kept: Kept<T>,
    // it is dropped after `drop` has run
    table: Table<T>,
}

// SAFETY: another thread may read the value (`T: Sync`) and end the hold, which may give it the
// value to drop (`T: Send`). It has this seat alone (one user).
unsafe impl<T: Send + Sync> Send for OwnedCached<T> {}

/// Gives cached slots what they have alike.
macro_rules! caches {
    ($($cached:ident $(<$lifetime:lifetime>)? by $by:ident;)*) => { $(
        impl<T> $cached<$($lifetime,)? T> {
            /// Returns the value that the slot has, or `None` if it has none. It is one load while
            /// the slot has the value that this found last. Otherwise it drops its hold of that
            /// value, and looks the slot up: both may drop values, as
            /// [`Reader::get_at`](crate::Reader::get_at). It follows what is ordered before it, as
            /// a look-up does, and never lacks a seat.
            #[inline]
            pub fn get(&mut self) -> Option<&T> {
                let $cached { kept, $by } = self;
                // SAFETY: the seat is this one's, and `&mut self` its only user (one user).
                unsafe { kept.get($by.values()) }
            }

            /// Returns the slot.
            pub fn slot(&self) -> u32 {
                self.kept.slot
            }
        }

        impl<T> Drop for $cached<$($lifetime,)? T> {
            fn drop(&mut self) {
                let $cached { kept, $by } = self;
                // SAFETY: the seat is this one's (one user), and every reference to the value
                // borrowed this.
                let freed = unsafe { kept.release($by.values()) };
                $by.give_back(kept.place.number);
                drop_last(freed);
            }
        }

        impl<T> fmt::Debug for $cached<$($lifetime,)? T> {
            fn fmt(&self, f: &mut fmt::Formatter<'_>) -> fmt::Result {
                let mut it = f.debug_struct(stringify!($cached));
                it.field("slot", &self.kept.slot).finish_non_exhaustive()
            }
        }
    )* };
}

caches! { Cached<'_> by reader; OwnedCached by table; }

impl<T> Reader<T> {
    /// Returns a slot to be read again and again: see [`Cached`]. It takes the reader's own seat,
    /// or, if a guard or another cached slot of this reader has that, a guard's seat of the table.
    ///
    /// # Errors
    /// `NoSlot` if the table has no such slot, `NoSeat` if the reader's own seat is taken and the
    /// table has none for a guard.
    pub fn cached(&self, slot: u32) -> Result<Cached<'_, T>, GetError> {
        self.values().check(slot)?;
        let place = self.take_seat().map_err(GetError::NoSeat)?;
        Ok(Cached { kept: Kept::new(place, slot), reader: self })
    }
}

impl<T> Handle<T> {
    /// Returns a slot to be read again and again, as [`Reader::cached`].
    ///
    /// # Errors
    /// As of [`Reader::cached`].
    pub fn cached(&self, slot: u32) -> Result<Cached<'_, T>, GetError> {
        self.reader.cached(slot)
    }
}

impl<T> Table<T> {
    /// Returns a slot to be read again and again, which borrows nothing: see [`OwnedCached`]. It
    /// takes a guard's seat of the table until it is dropped.
    ///
    /// # Errors
    /// `NoSlot` if the table has no such slot, `NoSeat` if all guards' seats are in use.
    pub fn cached(&self, slot: u32) -> Result<OwnedCached<T>, GetError> {
        self.values().check(slot)?;
        let place = self.values().seats.claim_guard().map_err(GetError::NoSeat)?;
        Ok(OwnedCached { kept: Kept::new(place, slot), table: self.clone() })
    }
}
