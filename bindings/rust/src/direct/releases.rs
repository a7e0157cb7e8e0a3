//! Users in other threads.
use super::key::Key;
use std::fmt;
use std::mem;
use std::panic::RefUnwindSafe;
use std::sync::{Arc, Mutex, PoisonError};

/// The keys of users that were dropped, in any thread, for the ring's thread, which calls
/// [`Slots::release`](super::Slots::release) for each. The queue belongs to the slots that made it
/// ([`Slots::releases`](super::Slots::releases)), and others refuse it.
///
/// ```
/// use yachtbanyan::Table;
/// use yachtbanyan::direct::{Next, OtherSlots, Slots, User};
///
/// struct Connection {
///     user: User,
///     // and what threads share of it
/// }
///
/// let mut slots = Slots::<()>::new(4)?;
/// let releases = slots.releases(|| { /* write to the ring's eventfd */ });
/// let table = Table::with_slots(4)?;
/// let key = slots.reserve()?;
/// slots.opened(key, 0)?;
/// let user = slots.hold_by(key, &releases)?;
/// let name = table.insert(Connection { user })?; // workers know the connection by this key
/// let held = table.get_owned(name)?; // a worker holds it
/// assert_eq!(held.user.key(), key);
/// drop(table.remove(name)?); // the connection ends: nobody finds it any more
/// assert_eq!(slots.end(key)?, Next::Nothing); // the worker is left
/// drop(held); // in the worker's thread
/// let other = Slots::<()>::new(4)?; // those of another ring
/// assert_eq!(other.collect(&releases), Err(OtherSlots));
/// for key in slots.collect(&releases)? {
///     assert_eq!(slots.release(key)?, Next::Close(key.slot()));
/// }
/// # Ok::<(), Box<dyn std::error::Error>>(())
/// ```
#[derive(Clone)]
pub struct Releases {
    shared: Arc<Shared>,
}

struct Shared {
    // the number of the slots that made the queue
    slots: u64,
    keys: Mutex<Vec<Key>>,
    wake: Box<dyn Fn() + Send + Sync>,
}

// a panic leaves the queue as it is: nothing is done between its lock and its change
impl RefUnwindSafe for Shared {}

impl Releases {
    pub(super) fn new(slots: u64, wake: impl Fn() + Send + Sync + 'static) -> Releases {
        let keys = Mutex::default();
        let wake = Box::new(wake);
        Releases { shared: Arc::new(Shared { slots, keys, wake }) }
    }

    pub(super) fn is_of(&self, slots: u64) -> bool {
        self.shared.slots == slots
    }

    pub(super) fn collect(&self) -> Vec<Key> {
        mem::take(&mut self.shared.keys.lock().unwrap_or_else(PoisonError::into_inner))
    }

    pub(super) fn user(&self, key: Key) -> User {
        let shared = self.shared.clone();
        User { shared, key }
    }
}

/// A user of a life in any thread: part of a value that threads share. Its drop posts the key to
/// [`Releases`]. [`Slots::hold_by`](super::Slots::hold_by) returns it.
#[must_use = "its drop ends the use"]
pub struct User {
    shared: Arc<Shared>,
    key: Key,
}

impl User {
    /// Returns the key of the life.
    pub fn key(&self) -> Key {
        self.key
    }
}

impl Drop for User {
    fn drop(&mut self) {
        let mut keys = self.shared.keys.lock().unwrap_or_else(PoisonError::into_inner);
        let was_empty = keys.is_empty();
        keys.push(self.key);
        drop(keys);
        if was_empty {
            (self.shared.wake)();
        }
    }
}

impl fmt::Debug for Releases {
    fn fmt(&self, f: &mut fmt::Formatter<'_>) -> fmt::Result {
        f.debug_struct("Releases").finish_non_exhaustive()
    }
}

impl fmt::Debug for User {
    fn fmt(&self, f: &mut fmt::Formatter<'_>) -> fmt::Result {
        f.debug_struct("User").field("key", &self.key).finish_non_exhaustive()
    }
}
