//! The calls by key of handles and guards. Each is one call of the core, which finds the value of
//! the key or none, and replaces or removes that value or nothing.
use super::guard::{Guard, OwnedGuard};
use super::handle::Handle;
use super::storage;
use super::values::{drop_last, drop_unused, Unused, Values};
use crate::errors::{GetError, NoSeat, Reason, Refused, RemoveError};
use crate::key::Key;
use crate::old::Old;

/// The result of a removal by key, and the values that the call was the last to use.
type Removed<T> = (Result<Old<Box<T>>, GetError>, Unused<T>);

/// Removes the value with a key by a seat for this call, which is given back before a value is
/// dropped.
#[inline(never)]
pub(super) fn remove_by_call<T>(values: &Values<T>, key: Key) -> Result<Removed<T>, NoSeat> {
    let call = values.seats.claim_call()?;
    // SAFETY: the seat is this call's (one user).
    Ok(unsafe { values.remove(call.core(), key) })
}

/// Returns the fate of a value that its guard removed, or tried to, by what the end of the guard
/// closed. It drops what else the call was the last to use.
fn of_guard<T>(removed: Removed<T>, last: Option<Box<T>>) -> Result<Old<T>, RemoveError> {
    let (removed, unused) = removed;
    let old = match removed {
        // the guard held the value until its end
        Ok(Old::InUse) => Ok(last.map_or(Old::InUse, |it| Old::Unused(*it))),
        other => {
            drop_last(last);
            other.map(|old| old.map(|it| *it))
        }
    };
    drop_unused(unused);
    Ok(old?)
}

impl<T> Guard<'_, T> {
    /// Removes this value from its slot, by its key, and ends the guard. Returns what became of the
    /// value. A guard of a handle uses the handle's seat, and one of a reader a seat for this call:
    /// then it waits while calls of the table use all seats that no handle has. It tries again
    /// while other threads count look-ups at the slot.
    ///
    /// # Errors
    /// `Empty` if the slot has no value any more, `Stale` if it has another one or this one has no
    /// number ([`Key`]), `NoSeat` if it is the guard of a reader, and all seats that install have
    /// handles. The guard ends in any case.
    ///
    /// ```
    /// use yachtbanyan::{Old, RemoveError, Table};
    ///
    /// let table = Table::<&str>::with_slots(1)?;
    /// let handle = table.handle()?;
    /// handle.insert("first")?;
    /// let (guard, other) = (handle.get_at(0)?, handle.get_at(0)?);
    /// handle.replace_at(0, "second")?;
    /// assert_eq!(guard.remove(), Err(RemoveError::Stale { slot: 0 }));
    /// assert_eq!(*other, "first");
    /// assert_eq!(handle.get_at(0)?.remove(), Ok(Old::Unused("second")));
    /// # Ok::<(), Box<dyn std::error::Error>>(())
    /// ```
    #[inline]
    pub fn remove(self) -> Result<Old<T>, RemoveError> {
        let (values, key) = (self.reader.table().values(), self.key());
        let removed = match self.reader.installer {
            // SAFETY: the seat is the handle's (one user), on whose thread this guard is, and holds
            // nothing between two calls.
            Some(installer) => unsafe { values.remove(installer.core, key) },
            None => remove_by_call(values, key)?,
        };
        of_guard(removed, self.end())
    }
}

impl<T> OwnedGuard<T> {
    /// Removes this value from its slot, by its key and a seat for this call, and ends the guard.
    /// Returns what became of the value. The call waits while others of the table use all seats
    /// that no handle has, and tries again while other threads count look-ups at the slot.
    ///
    /// # Errors
    /// `Empty` if the slot has no value any more, `Stale` if it has another one or this one has no
    /// number ([`Key`]), `NoSeat` if all seats that install have handles. The guard ends in any
    /// case.
    ///
    /// ```
    /// use yachtbanyan::{Old, Table};
    ///
    /// let table = Table::<u64>::with_slots(4)?;
    /// let guard = table.get_owned(table.insert(7)?)?;
    /// assert_eq!(guard.remove(), Ok(Old::Unused(7)));
    /// # Ok::<(), Box<dyn std::error::Error>>(())
    /// ```
    pub fn remove(self) -> Result<Old<T>, RemoveError> {
        let removed = remove_by_call(self.table.values(), self.key())?;
        of_guard(removed, self.end())
    }
}

impl<T> Handle<T> {
    /// Returns a guard of the value with this key. It is a look-up, as [`Handle::get_at`].
    ///
    /// # Errors
    /// `Stale` if the slot has another value, and as of [`Handle::get_at`].
    ///
    /// ```
    /// use yachtbanyan::{GetError, Table};
    ///
    /// let table = Table::<&str>::with_slots(1)?;
    /// let handle = table.handle()?;
    /// let key = handle.insert("first")?;
    /// assert_eq!(*handle.get(key)?, "first");
    /// handle.replace_at(0, "second")?;
    /// assert_eq!(handle.get(key).unwrap_err(), GetError::Stale { slot: 0 });
    /// handle.remove_at(0)?;
    /// assert_eq!(handle.get(key).unwrap_err(), GetError::Empty { slot: 0 });
    /// # Ok::<(), Box<dyn std::error::Error>>(())
    /// ```
    #[inline]
    pub fn get(&self, key: Key) -> Result<Guard<'_, T>, GetError> {
        self.reader.get(key)
    }

    /// Installs a value in place of the one with this key. Returns the new value's key, and what
    /// became of the old value, whose key is stale then. It looks the slot up, as
    /// [`Handle::get_at`], and tries again while other threads count look-ups there.
    ///
    /// # Errors
    /// With the new value: `Stale` if the slot has another value than that of the key, `Empty` if
    /// it has none, `NoSlot` if the table has no such slot.
    ///
    /// ```
    /// use yachtbanyan::{Old, Reason, Table};
    ///
    /// let table = Table::<&str>::with_slots(1)?;
    /// let handle = table.handle()?;
    /// let first = handle.insert("first")?;
    /// let (second, old) = handle.replace(first, "second")?;
    /// assert_eq!(old, Old::Unused("first"));
    /// let refused = handle.replace(first, "third").unwrap_err();
    /// assert_eq!((refused.value, refused.reason), ("third", Reason::Stale { slot: 0 }));
    /// assert_eq!(*handle.get(second)?, "second");
    /// # Ok::<(), Box<dyn std::error::Error>>(())
    /// ```
    #[inline]
    pub fn replace(&self, key: Key, value: T) -> Result<(Key, Old<T>), Refused<T>> {
        let ((values, core), value) = (self.parts(), self.store(value));
        // SAFETY: the seat is this handle's (one user), and holds nothing between two calls.
        let (replaced, unused) = unsafe { values.replace(core, key, value) };
        let replaced = match replaced {
            Ok((fresh, old)) => Ok((fresh, old.map(|it| storage::take(&self.spare, it)))),
            Err((value, error)) => Err(self.refuse(value, error.into())),
        };
        drop_unused(unused);
        replaced
    }

    /// Replaces the value at a slot by the value that `f` returns for it. If the slot has another
    /// value by then, `f` is called again with that one: so an `f` that always replaces the slot's
    /// value is called without end. Returns the new key, what became of the old value, and the
    /// number of calls of `f`.
    ///
    /// # Errors
    /// `Empty` if the slot has no value, `NoSlot` and `NoSeat` as of [`Handle::get_at`], `Stale` if
    /// the value has no number ([`Key`]).
    ///
    /// ```
    /// let table = yachtbanyan::Table::<u32>::with_slots(1)?;
    /// let handle = table.handle()?;
    /// handle.insert(6)?;
    /// let (key, _, runs) = handle.update_at(0, |it| it + 1)?;
    /// assert_eq!((*handle.get(key)?, runs), (7, 1));
    /// # Ok::<(), Box<dyn std::error::Error>>(())
    /// ```
    pub fn update_at(
        &self,
        slot: u32,
        mut f: impl FnMut(&T) -> T,
    ) -> Result<(Key, Old<T>, u32), GetError> {
        let mut runs = 0;
        loop {
            let guard = self.get_at(slot)?;
            let (key, made) = (guard.key(), f(&guard));
            drop(guard);
            runs += 1;
            match self.replace(key, made).map_err(|refused| refused.reason) {
                Ok((key, old)) => return Ok((key, old, runs)),
                // a value that has no number is never replaced by key
                Err(_) if key.bits_of_number() == 0 => return Err(GetError::Stale { slot }),
                Err(Reason::Empty { slot }) => return Err(GetError::Empty { slot }),
                Err(_) => {}
            }
        }
    }

    /// Checks whether the slot of a key has the key's value. It is a look-up, as
    /// [`Handle::contains`].
    pub fn contains_key(&self, key: Key) -> bool {
        self.sees(key)
    }

    /// Removes the value with this key. Returns what became of it. A value that is in use is
    /// dropped by its last user. It looks the slot up, as [`Handle::get_at`], and tries again while
    /// other threads count look-ups there.
    ///
    /// # Errors
    /// `Stale` if the slot has another value, `Empty` if it has none, `NoSlot` if the table has no
    /// such slot.
    ///
    /// ```
    /// use yachtbanyan::{Old, RemoveError, Table};
    ///
    /// let table = Table::<&str>::with_slots(1)?;
    /// let handle = table.handle()?;
    /// let first = handle.insert("first")?;
    /// assert_eq!(handle.remove(first), Ok(Old::Unused("first")));
    /// let second = handle.insert("second")?;
    /// assert_eq!(handle.remove(first), Err(RemoveError::Stale { slot: 0 }));
    /// assert_eq!(*handle.get(second)?, "second");
    /// # Ok::<(), Box<dyn std::error::Error>>(())
    /// ```
    #[inline]
    pub fn remove(&self, key: Key) -> Result<Old<T>, RemoveError> {
        let (values, core) = self.parts();
        // SAFETY: the seat is this handle's (one user), and holds nothing between two calls.
        let (old, unused) = unsafe { values.remove(core, key) };
        let old = old.map(|old| old.map(|it| storage::take(&self.spare, it)));
        drop_unused(unused);
        Ok(old?)
    }
}
