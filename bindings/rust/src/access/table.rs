//! The table.
use super::core;
use super::guard::OwnedGuard;
use super::handle::Handle;
use super::reader::Reader;
use super::values::{add_unused, drop_unused, At, Held, Values, Wanted};
use crate::errors::{GetError, NoSeat, OpenError, Reason, Refused, RemoveError};
use crate::key::Key;
use crate::old::Old;
use crate::options::Options;
use std::fmt;
use std::mem::MaybeUninit;
use std::sync::Arc;

/// A table of slots, each of which is empty or has a value of type `T`.
///
/// A clone is the same table. Values that are in slots are dropped when the last clone, handle,
/// reader and owned guard is dropped. Threads may share a table if `T: Send + Sync`: they share
/// references to values, and any of them may drop a value.
///
/// A thread with a [`Handle`] calls that. A task without one calls the table, which lends a seat
/// for the call.
#[must_use = "a table is dropped with its last user"]
pub struct Table<T> {
    values: Arc<Values<T>>,
}

// SAFETY: threads get references to values (`T: Sync`), and any of them may get a value to drop it
// (`T: Send`). A seat has one user.
unsafe impl<T: Send + Sync> Send for Table<T> {}
// SAFETY: as above.
unsafe impl<T: Send + Sync> Sync for Table<T> {}

impl<T> Table<T> {
    /// Opens a table of `slots` empty slots, for up to 16 handles, 16 readers and 128 further
    /// guards. [`Options`] sets other numbers.
    ///
    /// # Errors
    /// `Slots` unless `slots` is from 1 to [`MOST_SLOTS`](crate::MOST_SLOTS), `NoMemory` if an
    /// allocation of the core fails.
    ///
    /// ```
    /// use yachtbanyan::{OpenError, Table};
    ///
    /// assert_eq!(Table::<u64>::with_slots(100)?.slots(), 100);
    /// assert_eq!(Table::<u64>::with_slots(0).unwrap_err(), OpenError::Slots(0));
    /// # Ok::<(), OpenError>(())
    /// ```
    pub fn with_slots(slots: u32) -> Result<Table<T>, OpenError> {
        Options::new(slots).open()
    }

    // A `Values` is shared between threads by a `Table` alone, which has the bounds.
    #[allow(clippy::arc_with_non_send_sync)]
    pub(crate) fn open(options: &Options) -> Result<Table<T>, OpenError> {
        let values = Arc::new(Values::open(options)?);
        Ok(Table { values })
    }

    #[inline]
    pub(super) fn values(&self) -> &Values<T> {
        &self.values
    }

    /// Gives a guard's seat back.
    #[inline]
    pub(super) fn give_back(&self, number: u32) {
        self.values.seats.give_back(number);
    }

    /// Returns the number of slots. They are numbered from 0.
    pub fn slots(&self) -> u32 {
        self.values.slots()
    }

    /// Takes a handle, which installs, for one thread at a time. It is free again when it is
    /// dropped. If calls of the table use all seats that no handle has, it waits for the end of
    /// one.
    ///
    /// # Errors
    /// [`NoSeat::Handle`] if all are in use.
    ///
    /// ```
    /// use yachtbanyan::Options;
    ///
    /// let table = Options::new(4).handles(1).open::<u64>()?;
    /// let handle = table.handle()?;
    /// let error = table.handle().unwrap_err();
    /// let words = "1 handle is in use; to have more, set Options::handles (at most 64)";
    /// assert_eq!(error.to_string(), words);
    /// drop(handle);
    /// assert!(table.handle().is_ok());
    /// # Ok::<(), Box<dyn std::error::Error>>(())
    /// ```
    pub fn handle(&self) -> Result<Handle<T>, NoSeat> {
        let place = self.values.seats.claim_handle()?;
        Ok(Handle::new(self.clone(), place))
    }

    /// Takes a reader, which looks slots up, for one thread at a time. It is free again when it is
    /// dropped.
    ///
    /// # Errors
    /// [`NoSeat::Reader`] if all are in use.
    ///
    /// ```
    /// let table = yachtbanyan::Options::new(4).readers(100).open::<u64>()?;
    /// let readers: Vec<_> = (0..100).map(|_| table.reader().unwrap()).collect();
    /// let error = table.reader().unwrap_err();
    /// let words = "100 readers are in use; to have more, set Options::readers (at most 1022)";
    /// assert_eq!(error.to_string(), words);
    /// # Ok::<(), Box<dyn std::error::Error>>(())
    /// ```
    pub fn reader(&self) -> Result<Reader<T>, NoSeat> {
        let place = self.values.seats.claim_reader()?;
        Ok(Reader::new(self.clone(), place, None))
    }

    /// Returns a guard of the value at a slot that borrows nothing. It takes a guard's seat of the
    /// table until it is dropped. The look-up may drop another value: one that it saw first, and
    /// that others replaced or removed while it ran. So a lock that the drop of a value takes must
    /// not be held here. It never waits for another thread.
    ///
    /// # Errors
    /// `Empty` if the slot has no value, `NoSlot` if the table has no such slot, `NoSeat` if all
    /// guards' seats are in use.
    ///
    /// ```
    /// use yachtbanyan::{OwnedGuard, Table};
    ///
    /// # async fn answer(_: &str) {}
    /// async fn serve(page: OwnedGuard<String>) {
    ///     answer(&page).await; // `page` is held over the await
    /// }
    ///
    /// # fn spawn(_: impl std::future::Future<Output = ()> + Send + 'static) {}
    /// let table = Table::<String>::with_slots(4)?;
    /// table.replace_at(3, "page".to_string())?;
    /// spawn(serve(table.get_owned_at(3)?));
    /// # Ok::<(), Box<dyn std::error::Error>>(())
    /// ```
    pub fn get_owned_at(&self, slot: u32) -> Result<OwnedGuard<T>, GetError> {
        self.find_owned(At(slot))
    }

    pub(super) fn find_owned(&self, wanted: impl Wanted) -> Result<OwnedGuard<T>, GetError> {
        let (seats, slot) = (&self.values.seats, wanted.slot());
        let place = seats.claim_guard().map_err(GetError::NoSeat)?;
        let (mut out, mut unused) = (MaybeUninit::uninit(), Vec::new());
        // SAFETY: the seat is this call's (one user).
        let (answer, out) = unsafe { self.values.look(place.core, wanted, &mut out) };
        // SAFETY: the core closed these files in the look-up (`found`).
        unsafe { add_unused::<T>(&mut unused, out) };
        let guard = if answer == core::DONE {
            Ok(OwnedGuard::new(self.clone(), Held::of(out), place, slot))
        } else {
            seats.give_back(place.number);
            Err(self.values.get_error(answer, slot))
        };
        drop_unused(unused);
        guard
    }

    /// Installs a value at a free slot, and returns its key, by a seat for this call. It may wait
    /// as long as one other thread is stopped within its own insert, replace or remove. It also
    /// waits while other calls of the table use all seats that no handle has.
    ///
    /// # Errors
    /// `Full` with the value if at one moment during the call every slot had a value, `NoSeat` with
    /// the value if all seats that install have handles.
    pub fn insert(&self, value: T) -> Result<Key, Refused<T>> {
        let call = match self.values.seats.claim_call() {
            Ok(call) => call,
            Err(error) => return Err(Refused::new(value, Reason::NoSeat(error))),
        };
        // SAFETY: the seat is this call's (one user).
        match unsafe { self.values.insert(call.core(), Box::new(value)) } {
            Ok(key) => Ok(key),
            Err(value) => Err(Refused::new(*value, self.values.full())),
        }
    }

    /// Installs a value at a slot, by a seat for this call. Returns its key, and what became of the
    /// old value. A value that is in use is dropped by its last user. The call waits while others
    /// of the table use all seats that no handle has.
    ///
    /// # Errors
    /// `NoSlot` with the value if the table has no such slot, `NoSeat` with the value if all seats
    /// that install have handles.
    ///
    /// ```
    /// use yachtbanyan::{Old, Table};
    ///
    /// let table = Table::<u64>::with_slots(4)?;
    /// let (first, none) = table.replace_at(2, 7)?;
    /// let (second, old) = table.replace_at(2, 8)?;
    /// assert_eq!((none, old), (Old::None, Old::Unused(7)));
    /// assert!(table.get_owned(first).is_err() && *table.get_owned(second)? == 8);
    /// # Ok::<(), Box<dyn std::error::Error>>(())
    /// ```
    pub fn replace_at(&self, slot: u32, value: T) -> Result<(Key, Old<T>), Refused<T>> {
        let call = match self.values.seats.claim_call() {
            Ok(call) => call,
            Err(error) => return Err(Refused::new(value, Reason::NoSeat(error))),
        };
        // SAFETY: the seat is this call's (one user).
        match unsafe { self.values.replace_at(call.core(), slot, Box::new(value)) } {
            Ok((key, old)) => Ok((key, old.map(|it| *it))),
            Err(value) => {
                let reason = Reason::NoSlot(self.values.no_slot(slot));
                Err(Refused::new(*value, reason))
            }
        }
    }

    /// Empties a slot, by a seat for this call. Returns what became of its value: `Old::None` if it
    /// was empty. A value that is in use is dropped by its last user. It waits while other calls of
    /// the table use all seats that no handle has.
    ///
    /// # Errors
    /// `NoSlot` if the table has no such slot, `NoSeat` if all seats that install have handles.
    pub fn remove_at(&self, slot: u32) -> Result<Old<T>, RemoveError> {
        let call = self.values.seats.claim_call()?;
        // SAFETY: the seat is this call's (one user).
        let old = unsafe { self.values.remove_at(call.core(), slot) };
        drop(call);
        Ok(old?.map(|it| *it))
    }

    /// Checks whether a slot has a value, by a seat for this call. A slot that the table hasn't has
    /// none. It is a look-up: it may drop values that others replaced or removed while it ran. It
    /// waits while other calls of the table use all seats that no handle has.
    ///
    /// # Errors
    /// [`NoSeat::Handle`] if all seats that install have handles.
    pub fn contains(&self, slot: u32) -> Result<bool, NoSeat> {
        self.sees(At(slot))
    }

    pub(super) fn sees(&self, wanted: impl Wanted) -> Result<bool, NoSeat> {
        let call = self.values.seats.claim_call()?;
        // SAFETY: the seat is this call's (one user).
        let (sees, unused) = unsafe { self.values.sees(call.core(), wanted) };
        drop(call);
        drop_unused(unused);
        Ok(sees)
    }

    /// Ends the table, and returns its values with their slots.
    ///
    /// # Errors
    /// The table, if it has another user: a clone, a handle, a reader, an owned guard or a part of
    /// its value, or a cached slot.
    ///
    /// ```
    /// let table = yachtbanyan::Table::<&str>::with_slots(4)?;
    /// table.replace_at(3, "three")?;
    /// let guard = table.get_owned_at(3)?;
    /// let table = table.into_inner().unwrap_err();
    /// drop(guard);
    /// assert_eq!(table.into_inner().unwrap(), [(3, "three")]);
    /// # Ok::<(), Box<dyn std::error::Error>>(())
    /// ```
    pub fn into_inner(mut self) -> Result<Vec<(u32, T)>, Table<T>> {
        if Arc::get_mut(&mut self.values).is_none() {
            return Err(self);
        }
        let value = |slot| Some((slot, self.remove_at(slot).ok()?.unused()?));
        Ok((0..self.slots()).filter_map(value).collect())
    }
}

impl<T> Clone for Table<T> {
    fn clone(&self) -> Table<T> {
        Table { values: Arc::clone(&self.values) }
    }
}

impl<T> fmt::Debug for Table<T> {
    fn fmt(&self, f: &mut fmt::Formatter<'_>) -> fmt::Result {
        f.debug_struct("Table").field("slots", &self.slots()).finish_non_exhaustive()
    }
}
