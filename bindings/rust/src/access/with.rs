//! Installations of a value that is made from its key.
use super::handle::Handle;
use super::storage;
use super::sync;
use super::values::Round;
use crate::errors::Reason;
use crate::key::Key;
use std::cell::Cell;

/// Marks a handle as long as it makes a value, which may panic.
struct Making<'h>(&'h Cell<bool>);

impl Making<'_> {
    fn begin(mark: &Cell<bool>) -> Making<'_> {
        mark.set(true);
        Making(mark)
    }
}

impl Drop for Making<'_> {
    fn drop(&mut self) {
        self.0.set(false);
    }
}

impl<T> Handle<T> {
    /// Makes a value from its key, and installs it at a free slot. Returns the key. So what names
    /// the value elsewhere, as an event loop, has its key before anybody finds the value.
    ///
    /// It looks for a slot that is empty, calls `make` with the key that a value gets there, and
    /// installs the value if the slot is still empty. If the slot was filled meanwhile, the value
    /// is dropped, and the call looks again: `make` is called again, with another key. No value
    /// ever gets a key that was lost. Like [`Handle::insert`], it may wait as long as one other
    /// thread is stopped within its own insert, replace or remove.
    ///
    /// `make` may look up, replace and remove with this handle. It may not insert with it: the
    /// value would get the slot that was found. If it panics, nothing is installed.
    ///
    /// # Errors
    /// `Full` if at one moment during the call every slot had a value. If `make` was called before,
    /// what it made was dropped. `Making` within the `make` of this handle.
    ///
    /// ```
    /// use yachtbanyan::{Key, Table};
    ///
    /// struct Connection {
    ///     registered: u64,
    /// }
    ///
    /// // such as `epoll_ctl`, with this data
    /// fn register(data: u64) -> Connection {
    ///     Connection { registered: data }
    /// }
    ///
    /// let table = Table::<Connection>::with_slots(16)?;
    /// let handle = table.handle()?;
    /// let key = handle.insert_with(|key| register(key.to_bits().unwrap()))?;
    /// let event = handle.get(key)?.registered;
    /// assert_eq!(Key::from_bits(event), key);
    /// # Ok::<(), Box<dyn std::error::Error>>(())
    /// ```
    pub fn insert_with(&self, mut make: impl FnMut(Key) -> T) -> Result<Key, Reason> {
        if self.making.get() {
            return Err(Reason::Making);
        }
        loop {
            let (values, core) = self.parts();
            // SAFETY: the seat is this handle's (one user), and holds nothing between two calls.
            let key = match unsafe { values.find(core) } {
                Ok(key) => key,
                Err(Round::Full) => return Err(values.full()),
                Err(Round::Again) => {
                    sync::yield_now();
                    continue;
                }
            };
            let made = {
                let _making = Making::begin(&self.making);
                make(key)
            };
            let value = self.store(made);
            // SAFETY: as above. The core found the slot of the key for this call.
            match unsafe { values.insert_at(core, key.slot(), value) } {
                Ok(()) => return Ok(key),
                Err(value) => drop(storage::take(&self.spare, value)),
            }
        }
    }
}
