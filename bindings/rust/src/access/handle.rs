//! Handles.
use super::core::Core;
use super::guard::Guard;
use super::reader::Reader;
use super::seats::{Installer, Place};
use super::storage::{self, Spare};
use super::table::Table;
use super::values::{At, Round, Values, Wanted};
use crate::errors::{GetError, NoSeat, NoSlot, Reason, Refused};
use crate::iter::Iter;
use crate::key::Key;
use crate::old::Old;
use std::cell::Cell;

/// The access of one thread at a time to a [`Table`]: it looks slots up, and installs and removes
/// values. It is `Send`, but not `Sync`: if the compiler refuses to share a `Cell`, take a handle
/// for each thread. A guard of [`Table::get_owned`] may go to another thread.
///
/// ```
/// use yachtbanyan::Table;
///
/// let table = Table::<u64>::with_slots(8)?;
/// std::thread::scope(|scope| {
///     for number in 0..4 {
///         let handle = table.handle().unwrap();
///         scope.spawn(move || {
///             handle.replace_at(number, u64::from(number)).unwrap();
///             assert_eq!(*handle.get_at(number).unwrap(), u64::from(number));
///         });
///     }
/// });
/// # Ok::<(), yachtbanyan::OpenError>(())
/// ```
///
/// Each call takes `&self`, so a handle installs and removes while guards of it are alive. An
/// asynchronous function takes `&mut Handle`, so that its future is `Send`:
///
/// ```
/// use yachtbanyan::{Handle, Key, Table};
///
/// # async fn read_from_network() -> u64 { 7 }
/// async fn serve(handle: &mut Handle<u64>) -> Key {
///     let value = read_from_network().await;
///     let key = handle.insert(value).unwrap();
///     read_from_network().await;
///     key
/// }
///
/// # fn spawn(_: impl Future<Output = Key> + Send + 'static) {}
/// # use std::future::Future;
/// let table = Table::<u64>::with_slots(8)?;
/// let mut handle = table.handle()?;
/// spawn(async move { serve(&mut handle).await });
/// # Ok::<(), Box<dyn std::error::Error>>(())
/// ```
#[must_use = "a handle is in use until it is dropped"]
pub struct Handle<T> {
    pub(super) reader: Reader<T>,
    installer: Installer,
    pub(super) spare: Spare<T>,
    /// Whether the handle makes a value for `insert_with`.
    pub(super) making: Cell<bool>,
}

impl<T> Handle<T> {
    /// Makes a handle of the seats that the caller claimed, which have the same number.
    pub(super) fn new(table: Table<T>, own: Place) -> Handle<T> {
        let installer = table.values().seats.installer(own.number);
        Handle {
            reader: Reader::new(table, own, Some(installer)),
            installer,
            spare: Spare::default(),
            making: Cell::new(false),
        }
    }

    #[inline]
    pub(super) fn parts(&self) -> (&Values<T>, *mut Core) {
        (self.reader.table().values(), self.installer.core)
    }

    /// Stores a value that the handle installs.
    #[inline]
    pub(super) fn store(&self, value: T) -> Box<T> {
        storage::put(&self.spare, value)
    }

    /// Gives a value back that isn't installed.
    pub(super) fn refuse(&self, value: Box<T>, reason: Reason) -> Refused<T> {
        let value = storage::take(&self.spare, value);
        Refused { value, reason }
    }

    /// Returns a guard of the value at a slot. The look-up may drop another value: one that it saw
    /// first, and that others replaced or removed while it ran. So a lock that the drop of a value
    /// takes must not be held here.
    ///
    /// # Errors
    /// `Empty` if the slot has no value, `NoSlot` if the table has no such slot, `NoSeat` if a
    /// guard or a cached slot of this handle is alive already and the table has no seat for
    /// another.
    ///
    /// ```
    /// use yachtbanyan::{GetError, Table};
    ///
    /// let table = Table::<&str>::with_slots(4)?;
    /// let handle = table.handle()?;
    /// handle.replace_at(3, "three")?;
    /// assert_eq!(*handle.get_at(3)?, "three");
    /// assert_eq!(handle.get_at(2).unwrap_err(), GetError::Empty { slot: 2 });
    /// let error = handle.get_at(4).unwrap_err();
    /// assert_eq!(error.to_string(), "slot 4 is out of range: the table has slots 0 to 3");
    /// # Ok::<(), Box<dyn std::error::Error>>(())
    /// ```
    #[inline]
    pub fn get_at(&self, slot: u32) -> Result<Guard<'_, T>, GetError> {
        self.reader.get_at(slot)
    }

    /// Installs a value at a free slot, and returns its key. It may wait as long as one other
    /// thread is stopped within its own insert, replace or remove: [`Handle::try_insert`] doesn't.
    ///
    /// # Errors
    /// With the value: `Full` if at one moment during the call every slot had a value, `Making`
    /// within the function of an [`insert_with`](Handle::insert_with) of this handle.
    ///
    /// ```
    /// use yachtbanyan::{Reason, Table};
    ///
    /// let table = Table::<&str>::with_slots(1)?;
    /// let handle = table.handle()?;
    /// let key = handle.insert("first")?;
    /// assert_eq!(*handle.get(key)?, "first");
    /// let refused = handle.insert("second").unwrap_err();
    /// assert_eq!((refused.value, refused.reason), ("second", Reason::Full { slots: 1 }));
    /// # Ok::<(), Box<dyn std::error::Error>>(())
    /// ```
    pub fn insert(&self, value: T) -> Result<Key, Refused<T>> {
        if self.making.get() {
            return Err(Refused::new(value, Reason::Making));
        }
        let (values, core) = self.parts();
        // SAFETY: the seat is this handle's (one user), and holds nothing between two calls.
        match unsafe { values.insert(core, self.store(value)) } {
            Ok(key) => Ok(key),
            Err(value) => Err(self.refuse(value, values.full())),
        }
    }

    /// Looks for a free slot once, and installs a value there. Returns its key. It waits for no
    /// thread.
    ///
    /// # Errors
    /// With the value: `Full` if at one moment during the call every slot had a value; `Again` if
    /// no slot was free when it was looked at, and others were filling or emptying slots; `Making`
    /// within the function of an [`insert_with`](Handle::insert_with) of this handle.
    ///
    /// ```
    /// use yachtbanyan::{Reason, Table};
    ///
    /// let table = Table::<&str>::with_slots(1)?;
    /// let handle = table.handle()?;
    /// match handle.try_insert("value") {
    ///     Ok(key) => assert_eq!(key.slot(), 0),
    ///     Err(refused) if refused.reason == Reason::Again => println!("later: {}", refused.value),
    ///     Err(refused) => return Err(refused.into()),
    /// }
    /// # Ok::<(), Box<dyn std::error::Error>>(())
    /// ```
    pub fn try_insert(&self, value: T) -> Result<Key, Refused<T>> {
        if self.making.get() {
            return Err(Refused::new(value, Reason::Making));
        }
        let (values, core) = self.parts();
        // SAFETY: the seat is this handle's (one user), and holds nothing between two calls.
        match unsafe { values.try_insert(core, self.store(value)) } {
            Ok(key) => Ok(key),
            Err((value, Round::Again)) => Err(self.refuse(value, Reason::Again)),
            Err((value, Round::Full)) => Err(self.refuse(value, values.full())),
        }
    }

    /// Installs a value at a slot. Returns its key, and what became of the old value. An old value
    /// that is in use is dropped by its last user.
    ///
    /// # Errors
    /// `NoSlot` with the value if the table has no such slot.
    ///
    /// ```
    /// use yachtbanyan::{Old, Table};
    ///
    /// let table = Table::<&str>::with_slots(1)?;
    /// let handle = table.handle()?;
    /// assert_eq!(handle.replace_at(0, "first")?.1, Old::None);
    /// let (key, old) = handle.replace_at(0, "second")?;
    /// assert_eq!(old, Old::Unused("first"));
    /// let guard = handle.get(key)?;
    /// assert_eq!(handle.replace_at(0, "third")?.1, Old::InUse);
    /// assert_eq!(*guard, "second");
    /// # Ok::<(), Box<dyn std::error::Error>>(())
    /// ```
    #[inline]
    pub fn replace_at(&self, slot: u32, value: T) -> Result<(Key, Old<T>), Refused<T>> {
        let (values, core) = self.parts();
        // SAFETY: the seat is this handle's (one user), and holds nothing between two calls.
        match unsafe { values.replace_at(core, slot, self.store(value)) } {
            Ok((key, old)) => Ok((key, old.map(|it| storage::take(&self.spare, it)))),
            Err(value) => Err(self.refuse(value, Reason::NoSlot(values.no_slot(slot)))),
        }
    }

    /// Empties a slot. Returns what became of its value: `Old::None` if it was empty. A value that
    /// is in use is dropped by its last user.
    ///
    /// # Errors
    /// [`NoSlot`] if the table has no such slot.
    ///
    /// ```
    /// use yachtbanyan::{Old, Table};
    ///
    /// let table = Table::<&str>::with_slots(2)?;
    /// let handle = table.handle()?;
    /// handle.replace_at(1, "value")?;
    /// assert_eq!(handle.remove_at(1)?, Old::Unused("value"));
    /// assert_eq!(handle.remove_at(1)?, Old::None);
    /// assert!(handle.remove_at(2).is_err());
    /// # Ok::<(), Box<dyn std::error::Error>>(())
    /// ```
    #[inline]
    pub fn remove_at(&self, slot: u32) -> Result<Old<T>, NoSlot> {
        let (values, core) = self.parts();
        // SAFETY: the seat is this handle's (one user), and holds nothing between two calls.
        let old = unsafe { values.remove_at(core, slot) }?;
        Ok(old.map(|it| storage::take(&self.spare, it)))
    }

    /// Checks whether a slot has a value. A slot that the table hasn't has none. It is a look-up,
    /// and may drop values that others replaced or removed while it ran.
    pub fn contains(&self, slot: u32) -> bool {
        self.sees(At(slot))
    }

    pub(super) fn sees(&self, wanted: impl Wanted) -> bool {
        let (values, core) = self.parts();
        // SAFETY: the seat is this handle's (one user), and holds nothing between two calls.
        let (sees, unused) = unsafe { values.sees(core, wanted) };
        drop(unused);
        sees
    }

    /// Returns the number of slots that had a value when each was looked at. It looks every slot up
    /// by [`Handle::contains`].
    ///
    /// ```
    /// let table = yachtbanyan::Table::<u64>::with_slots(4)?;
    /// let handle = table.handle()?;
    /// assert!(handle.is_empty());
    /// handle.insert(7)?;
    /// assert_eq!(handle.len(), 1);
    /// # Ok::<(), Box<dyn std::error::Error>>(())
    /// ```
    pub fn len(&self) -> u32 {
        let slots = 0..self.table().slots();
        slots.map(|it| u32::from(self.contains(it))).sum()
    }

    /// Checks whether no slot had a value when each was looked at, by [`Handle::contains`].
    pub fn is_empty(&self) -> bool {
        !(0..self.table().slots()).any(|it| self.contains(it))
    }

    /// Returns an iterator over guards of the values, as [`Reader::iter`].
    pub fn iter(&self) -> Iter<'_, T> {
        self.reader.iter()
    }

    /// Looks each slot up in its turn, as [`Handle::iter`], and removes its value if `keep` returns
    /// `false` for the guard. Returns the number of removed values. What comes to a slot after its
    /// turn stays, and so does what replaces the value of the guard meanwhile.
    ///
    /// # Errors
    /// As of [`Iter`]. Earlier slots had their turns, also if `keep` panics.
    ///
    /// ```
    /// let table = yachtbanyan::Table::<u32>::with_slots(8)?;
    /// let handle = table.handle()?;
    /// assert!((0..8).all(|it| handle.insert(it).is_ok()));
    /// assert_eq!((handle.retain(|it| **it % 2 == 0)?, handle.len()), (4, 4));
    /// # Ok::<(), Box<dyn std::error::Error>>(())
    /// ```
    pub fn retain(&self, mut keep: impl FnMut(&Guard<'_, T>) -> bool) -> Result<u32, NoSeat> {
        let mut removed = 0;
        for guard in self {
            let guard = guard?;
            removed += u32::from(!keep(&guard) && guard.remove().is_ok());
        }
        Ok(removed)
    }

    /// Returns an iterator that empties each slot in its turn, by [`Handle::remove_at`]. It yields
    /// each slot that had a value, and what became of the value. Slots that it doesn't reach stay
    /// as they are, also if it is dropped.
    ///
    /// ```
    /// let table = yachtbanyan::Table::<&str>::with_slots(4)?;
    /// let handle = table.handle()?;
    /// handle.replace_at(3, "three")?;
    /// assert!(handle.drain().eq([(3, yachtbanyan::Old::Unused("three"))]));
    /// # Ok::<(), Box<dyn std::error::Error>>(())
    /// ```
    pub fn drain(&self) -> impl Iterator<Item = (u32, Old<T>)> + '_ {
        let slots = 0..self.table().slots();
        let all = slots.map(|it| (it, self.remove_at(it).unwrap_or(Old::None)));
        all.filter(|(_, old)| !old.is_none())
    }

    /// Empties each slot in its turn, as [`Handle::drain`], and drops the values. A value in use is
    /// dropped by its last user. If a drop panics, later slots stay as they are.
    pub fn clear(&self) {
        self.drain().for_each(drop);
    }

    /// Returns the table.
    #[inline]
    pub fn table(&self) -> &Table<T> {
        self.reader.table()
    }
}
