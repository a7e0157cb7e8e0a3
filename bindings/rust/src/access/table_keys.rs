//! The calls of a table by key, by seats for each call ([`keys`](super::keys)).
use super::guard::OwnedGuard;
use super::keys::remove_by_call;
use super::table::Table;
use super::values::drop_unused;
use crate::errors::{GetError, NoSeat, Reason, Refused, RemoveError};
use crate::key::Key;
use crate::old::Old;

impl<T> Table<T> {
    /// Returns a guard of the value with this key that borrows nothing. It is a look-up, as
    /// [`Table::get_owned_at`].
    ///
    /// # Errors
    /// `Stale` if the slot has another value, and as of [`Table::get_owned_at`].
    pub fn get_owned(&self, key: Key) -> Result<OwnedGuard<T>, GetError> {
        self.find_owned(key)
    }

    /// Checks whether the slot of a key has the key's value, as [`Table::contains`].
    ///
    /// # Errors
    /// [`NoSeat::Handle`] if all seats that install have handles.
    pub fn contains_key(&self, key: Key) -> Result<bool, NoSeat> {
        self.sees(key)
    }

    /// Installs a value in place of the one with this key, by a seat for this call, as
    /// [`Handle::replace`](crate::Handle::replace). The call waits while others of the table use
    /// all seats that no handle has.
    ///
    /// # Errors
    /// With the new value: `Stale` if the slot has another value than that of the key, `Empty` if
    /// it has none, `NoSlot` if the table has no such slot, `NoSeat` if all seats that install have
    /// handles.
    pub fn replace(&self, key: Key, value: T) -> Result<(Key, Old<T>), Refused<T>> {
        let values = self.values();
        let call = match values.seats.claim_call() {
            Ok(call) => call,
            Err(error) => return Err(Refused::new(value, Reason::NoSeat(error))),
        };
        // SAFETY: the seat is this call's (one user).
        let (replaced, unused) = unsafe { values.replace(call.core(), key, Box::new(value)) };
        // a drop may call the table, and so may need this seat
        drop(call);
        let replaced = match replaced {
            Ok((fresh, old)) => Ok((fresh, old.map(|it| *it))),
            Err((value, error)) => Err(Refused::new(*value, error.into())),
        };
        drop_unused(unused);
        replaced
    }

    /// Removes the value with this key, by a seat for this call, as
    /// [`Handle::remove`](crate::Handle::remove). The call waits while others of the table use all
    /// seats that no handle has.
    ///
    /// # Errors
    /// `Stale` if the slot has another value, `Empty` if it has none, `NoSlot` if the table has no
    /// such slot, `NoSeat` if all seats that install have handles.
    pub fn remove(&self, key: Key) -> Result<Old<T>, RemoveError> {
        let (old, unused) = remove_by_call(self.values(), key)?;
        let old = old.map(|old| old.map(|it| *it));
        drop_unused(unused);
        Ok(old?)
    }
}
