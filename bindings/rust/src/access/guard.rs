//! Guards of values.
use super::reader::Reader;
use super::seats::Place;
use super::table::Table;
use super::values::{drop_last, Held, Values};
use crate::key::Key;
use std::fmt;
use std::mem::ManuallyDrop;
use std::num::NonZeroU64;
use std::ops::Deref;

/// A value that a [`Handle`](crate::Handle) or a [`Reader`] looked up. It stays alive until the
/// guard is dropped, even if another thread replaces or removes it in the meantime. The last user
/// drops the value: if that is this guard, its drop does.
///
/// A guard stays on its thread; an [`OwnedGuard`] may go anywhere. Other threads may read through
/// `&Guard`. If a guard is forgotten (`std::mem::forget`), its value stays until its handle or
/// reader is dropped. A method of the value that is named `slot`, `key` or `remove` is called as
/// `(*guard).key()`.
///
/// ```
/// use yachtbanyan::{Old, Table};
///
/// let table = Table::<String>::with_slots(1)?;
/// let handle = table.handle()?;
/// handle.insert("first".to_string())?;
/// let guard = handle.get_at(0)?;
/// assert_eq!(handle.replace_at(0, "second".to_string())?.1, Old::InUse);
/// assert_eq!((guard.as_str(), guard.slot()), ("first", 0));
/// drop(guard); // drops "first"
/// assert_eq!(*handle.get_at(0)?, "second");
/// # Ok::<(), Box<dyn std::error::Error>>(())
/// ```
#[must_use = "the value is released when the guard is dropped"]
pub struct Guard<'r, T> {
    value: *const T,
    number: Option<NonZeroU64>,
    pub(super) reader: &'r Reader<T>,
    place: Place,
    slot: u32,
}

// SAFETY: a shared guard gives references to the value, its slot and its key. It uses no seat.
unsafe impl<T: Sync> Sync for Guard<'_, T> {}

impl<'r, T> Guard<'r, T> {
    /// Makes a guard of a value that this seat of the reader holds.
    #[inline]
    pub(super) fn new(
        reader: &'r Reader<T>,
        held: Held<T>,
        place: Place,
        slot: u32,
    ) -> Guard<'r, T> {
        Guard { value: held.value, number: held.number, reader, place, slot }
    }

    /// Returns the same guard, part by part: the compiler can keep those in registers.
    #[inline(always)]
    pub(super) fn moved(self) -> Guard<'r, T> {
        let guard = ManuallyDrop::new(self);
        let Guard { value, number, reader, place, slot } = *guard;
        Guard { value, number, reader, place, slot }
    }

    #[inline]
    fn values(&self) -> &Values<T> {
        self.reader.values()
    }

    /// Ends the hold, and gives its seat back. Returns the value if this closed it.
    #[inline]
    pub(super) fn end(self) -> Option<Box<T>> {
        let guard = ManuallyDrop::new(self);
        // SAFETY: the guard isn't dropped.
        unsafe { guard.release() }
    }

    // Ends the hold, and gives its seat back.
    //
    // SAFETY of a call: the guard is used no more.
    #[inline]
    unsafe fn release(&self) -> Option<Box<T>> {
        // SAFETY: the seat is the reader's (one user), on whose thread the guard is. It holds the
        // guard's value, and every reference to the value borrowed the guard.
        let freed = unsafe { self.values().release(self.place.core, self.value) };
        self.reader.give_back(self.place.number);
        freed
    }
}

/// A value that [`Table::get_owned`] or [`Table::get_owned_at`] looked up. It borrows nothing: it
/// may be kept over an `.await`, stored, and go to another thread.
///
/// It stays alive until the guard is dropped, even if another thread replaces or removes it in the
/// meantime. The last user drops the value. An owned guard keeps the table alive. One that is
/// forgotten keeps its value, its seat and the table for ever.
///
/// ```
/// use yachtbanyan::Table;
///
/// let table = Table::<String>::with_slots(1)?;
/// let key = table.insert("value".to_string())?;
/// let own = table.get_owned(key)?;
/// drop(table);
/// let thread = std::thread::spawn(move || own.len());
/// assert_eq!(thread.join().unwrap(), 5);
/// # Ok::<(), Box<dyn std::error::Error>>(())
/// ```
#[must_use = "the value is released when the guard is dropped"]
pub struct OwnedGuard<T> {
    value: *const T,
    number: Option<NonZeroU64>,
    place: Place,
    slot: u32,
    // it is dropped after `drop` has run
    pub(super) table: Table<T>,
}

// SAFETY: another thread may read the value (`T: Sync`) and end the hold, which may give it the
// value to drop (`T: Send`). It has the guard's seat alone (one user).
unsafe impl<T: Send + Sync> Send for OwnedGuard<T> {}
// SAFETY: a shared guard gives references to the value, its slot and its key. It uses no seat.
unsafe impl<T: Sync> Sync for OwnedGuard<T> {}

impl<T> OwnedGuard<T> {
    /// Makes a guard of a value that this seat of the table holds.
    #[inline]
    pub(super) fn new(table: Table<T>, held: Held<T>, place: Place, slot: u32) -> OwnedGuard<T> {
        OwnedGuard { value: held.value, number: held.number, place, slot, table }
    }

    /// Ends the hold, and gives its seat back. Returns the value if this closed it.
    pub(super) fn end(self) -> Option<Box<T>> {
        let guard = ManuallyDrop::new(self);
        // SAFETY: the guard isn't dropped, and its table is read once.
        let (freed, table) = unsafe { (guard.release(), std::ptr::read(&raw const guard.table)) };
        drop(table);
        freed
    }

    #[inline]
    fn values(&self) -> &Values<T> {
        self.table.values()
    }

    // Ends the hold, and gives its seat back.
    //
    // SAFETY of a call: the guard is used no more, but for its table.
    #[inline]
    unsafe fn release(&self) -> Option<Box<T>> {
        let values = self.values();
        // SAFETY: the seat is this guard's (one user). It holds this guard's value, and every
        // reference to the value borrowed the guard.
        let freed = unsafe { values.release(self.place.core, self.value) };
        values.seats.give_back(self.place.number);
        freed
    }
}

/// A guard of a part of a value, such as a field ([`Guard::map`], [`OwnedGuard::map`]). It keeps
/// the guard `G` of the whole value until it is dropped.
#[must_use = "the value is released when the guard is dropped"]
pub struct Part<G, U: ?Sized> {
    part: *const U,
    _guard: G,
}

// SAFETY: another thread may read the part (`U: Sync`) and end the guard (`G: Send`).
unsafe impl<G: Send, U: Sync + ?Sized> Send for Part<G, U> {}
// SAFETY: a shared part gives references to `U` alone.
unsafe impl<G, U: Sync + ?Sized> Sync for Part<G, U> {}

impl<G, U: ?Sized> Deref for Part<G, U> {
    type Target = U;

    #[inline]
    fn deref(&self) -> &U {
        // SAFETY: a function made this reference of one to the guard's value, of any lifetime. The
        // value stays where it is until the guard's end.
        unsafe { &*self.part }
    }
}

impl<G, U: fmt::Debug + ?Sized> fmt::Debug for Part<G, U> {
    fn fmt(&self, f: &mut fmt::Formatter<'_>) -> fmt::Result {
        (**self).fmt(f)
    }
}

/// Gives a guard what guards have alike, and prints its value.
macro_rules! guards {
    ($($guard:ident $(<$lifetime:lifetime>)?;)*) => { $(
        impl<T> $guard<$($lifetime,)? T> {
            /// Returns the slot at which the value was found.
            #[inline]
            pub fn slot(&self) -> u32 {
                self.slot
            }

            /// Checks whether the slot still has this value, by one load. The answer is right at a
            /// moment of the call, and follows what is ordered before the call, as a look-up does.
            /// It takes `&mut self`, since it uses the guard's seat, which one thread may use.
            ///
            /// ```
            /// let table = yachtbanyan::Table::<&str>::with_slots(1)?;
            /// let handle = table.handle()?;
            /// handle.insert("first")?;
            /// let (mut guard, mut own) = (handle.get_at(0)?, table.get_owned_at(0)?);
            /// assert!(guard.is_current() && own.is_current());
            /// handle.replace_at(0, "second")?;
            /// assert!(!guard.is_current() && !own.is_current());
            /// # Ok::<(), Box<dyn std::error::Error>>(())
            /// ```
            #[inline]
            pub fn is_current(&mut self) -> bool {
                let (core, slot) = (self.place.core, self.slot);
                // SAFETY: the seat is this guard's, and holds its value. `&mut self` is the only
                // reference to the guard, so no other thread uses the seat (one user).
                unsafe { self.values().is_current(core, slot) }
            }

            /// Makes a guard of a part of the value, as [`std::cell::Ref::map`]. It is called as
            /// a function, so it hides no method `map` of the value. If `part` panics, the guard
            /// is dropped.
            ///
            /// ```
            /// use yachtbanyan::{Guard, OwnedGuard, Table};
            ///
            /// let table = Table::<(u16, &str)>::with_slots(1)?;
            /// let (handle, _) = (table.handle()?, table.insert((80, "http"))?);
            /// let port = Guard::map(handle.get_at(0)?, |it| &it.0);
            /// let name = OwnedGuard::map(table.get_owned_at(0)?, |it| it.1);
            /// handle.remove_at(0)?;
            /// assert_eq!((*port, &*name), (80, "http"));
            /// # Ok::<(), Box<dyn std::error::Error>>(())
            /// ```
            pub fn map<U: ?Sized>(guard: Self, part: impl FnOnce(&T) -> &U) -> Part<Self, U> {
                Part { part: part(&guard), _guard: guard }
            }

            /// Returns the key of the value, by which others find it while it is at its slot.
            #[inline]
            pub fn key(&self) -> Key {
                Key::new(self.slot, self.number)
            }
        }

        impl<T> Deref for $guard<$($lifetime,)? T> {
            type Target = T;

            #[inline]
            fn deref(&self) -> &T {
                // SAFETY: the core closes no file that is held (`no_close_while_held`,
                // `has_one_history`), so the box is there until the guard's end. The guard keeps
                // the core: it borrows a reader, or has a table.
                unsafe { &*self.value }
            }
        }

        impl<T> Drop for $guard<$($lifetime,)? T> {
            #[inline]
            fn drop(&mut self) {
                // SAFETY: nobody uses a guard after its drop, but for its table.
                let freed = unsafe { self.release() };
                drop_last(freed);
            }
        }

        guards! { Debug of $guard $($lifetime)? }
        guards! { Display of $guard $($lifetime)? }
    )* };
    ($shown:ident of $guard:ident $($lifetime:lifetime)?) => {
        impl<T: fmt::$shown> fmt::$shown for $guard<$($lifetime,)? T> {
            fn fmt(&self, f: &mut fmt::Formatter<'_>) -> fmt::Result {
                (**self).fmt(f)
            }
        }
    };
}

guards! { Guard<'_>; OwnedGuard; }
