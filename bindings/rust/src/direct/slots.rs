//! The slots of one ring's table.
use super::errors::{AdoptError, OpenError, OtherSlots, Refusal, ReserveError};
use super::key::Key;
use super::machine::Machine;
use super::releases::{Releases, User};
use std::fmt;
use std::ops::Range;
use std::sync::atomic::{AtomicU64, Ordering::Relaxed};

static NUMBERS: AtomicU64 = AtomicU64::new(0);

/// What a caller does after a call by which a request, a user or a life ends.
#[must_use = "a slot that isn't closed is never free again"]
#[derive(Clone, Copy, Debug, PartialEq, Eq)]
pub enum Next {
    /// Nothing.
    Nothing,
    /// Submit the close of this slot, with the key as its `user_data`: nobody uses the file any
    /// more. A life has one such answer, which is repeated by [`Slots::close_failed`] alone.
    Close(u32),
}

/// The phase of a life.
#[derive(Clone, Copy, Debug, PartialEq, Eq)]
pub enum Phase {
    /// The open isn't completed.
    Opening,
    /// The file is open.
    Live {
        /// The number of requests in flight.
        requests: u32,
        /// The number of users that are no requests.
        users: u32,
    },
    /// The life was ended, and requests or users are left.
    Ending {
        /// The number of requests in flight.
        requests: u32,
        /// The number of users that are no requests.
        users: u32,
    },
    /// The close was asked for, and isn't completed.
    Closing,
    /// A chain is in flight.
    Chained {
        /// The number of its requests in flight.
        requests: u32,
    },
}

/// The name of a phase, with its number in yachtdirect.h.
#[derive(Clone, Copy, Debug, PartialEq, Eq)]
pub enum PhaseName {
    /// The name of [`Phase::Opening`].
    Opening = 1,
    /// The name of [`Phase::Live`].
    Live,
    /// The name of [`Phase::Ending`].
    Ending,
    /// The name of [`Phase::Closing`].
    Closing,
    /// The name of [`Phase::Chained`].
    Chained,
}

/// A member of a chain.
#[derive(Clone, Copy, Debug, PartialEq, Eq)]
pub enum Member {
    /// The open.
    Open,
    /// A request on the file.
    Request,
    /// The close.
    Close,
}

/// What the completion of an open, or of a chain's member, leaves.
#[must_use = "a slot that isn't closed is never free again"]
#[derive(Clone, Copy, Debug, PartialEq, Eq)]
pub enum After<T> {
    /// Members of the chain are in flight, or the life goes on.
    Nothing,
    /// Submit the close of this slot: the file is there, and the life was ended.
    Close(u32),
    /// The life is over and the slot is free. Its value is returned.
    Over(T),
}

/// A life that began by an adoption.
#[must_use = "a slot that isn't closed is never free again"]
#[derive(Clone, Copy, Debug, PartialEq, Eq)]
pub struct Adopted<T> {
    /// The key of the life.
    pub key: Key,
    /// The close of the slot, if the slots were stopped.
    pub next: Next,
    /// The value of the slot's earlier life, if the completion of its close wasn't taken.
    pub earlier: Option<T>,
}

/// The slots of one ring's table of direct descriptors, with a value for each life.
///
/// Every call but [`Slots::new`], [`Slots::key_in`] and [`Slots::keys`] takes constant time, and
/// none but the first allocates. A refused call has changed nothing. One thread at a time uses the
/// slots; they may go to another one.
///
/// ```
/// use yachtbanyan::direct::{After, Next, Phase, Slots};
///
/// let mut slots = Slots::new(64)?;
/// let key = slots.reserve_with(|key| format!("connection {key}"))?;
/// // submit an accept at key.slot()
/// assert_eq!(slots.opened(key, 0)?, After::Nothing); // it succeeded
/// slots.start(key)?; // submit a receive
/// assert_eq!(slots.phase(key), Some(Phase::Live { requests: 1, users: 0 }));
/// assert_eq!(slots.end(key)?, Next::Nothing); // the receive is in flight
/// assert!(slots.start(key).is_err());
/// assert_eq!(slots.finish(key)?, Next::Close(key.slot())); // submit a close
/// assert_eq!(slots.closed(key)?, format!("connection {key}")); // it succeeded
/// assert_eq!(slots.phase(key), None);
/// # Ok::<(), Box<dyn std::error::Error>>(())
/// ```
pub struct Slots<T = ()> {
    machine: Machine,
    // no other slots have this number
    number: u64,
    // by slot
    values: Box<[Option<T>]>,
}

impl<T> Slots<T> {
    /// Opens 1 to [`MOST_SLOTS`](super::MOST_SLOTS) free slots, which are those from 0 of the
    /// table that the caller registers with the ring. (A sparse table has at most `RLIMIT_NOFILE`
    /// slots.)
    ///
    /// # Errors
    ///
    /// The number is out of range, or an allocation failed.
    pub fn new(slots: u32) -> Result<Slots<T>, OpenError> {
        Slots::with_range(slots, 0..0)
    }

    /// Opens slots as [`Slots::new`]. `range` is the ring's allocation range
    /// (`io_uring_register_file_alloc_range`), in which the kernel chooses slots: there no life is
    /// reserved, and [`Slots::adopt`] takes the files. Slots of the range beyond the last one of
    /// these are ignored. A range that ends before it begins is empty.
    ///
    /// # Errors
    ///
    /// The number is out of range, or an allocation failed.
    pub fn with_range(slots: u32, range: Range<u32>) -> Result<Slots<T>, OpenError> {
        let machine = Machine::open(slots, range)?;
        let mut values = Vec::new();
        let room = values.try_reserve_exact(slots as usize);
        room.map_err(|_| OpenError::NoMemory)?;
        values.resize_with(slots as usize, || None);
        let values = values.into_boxed_slice();
        let number = NUMBERS.fetch_add(1, Relaxed);
        Ok(Slots { machine, number, values })
    }

    /// Begins a life at a free slot, with a value that is made from its key. The caller submits an
    /// open at [`Key::slot`]. A slot that has had 2^40 - 1 lives isn't free again.
    ///
    /// # Errors
    ///
    /// No slot is free, or the slots were stopped: then `make` isn't called.
    pub fn reserve_with(&mut self, make: impl FnOnce(Key) -> T) -> Result<Key, ReserveError> {
        let key = self.machine.reserve(self.values.len() as u32)?;
        let kept = Unless(self, key);
        let value = make(key);
        kept.0.values[key.slot() as usize] = Some(value);
        std::mem::forget(kept);
        Ok(key)
    }

    /// Begins a life with the default value, as [`Slots::reserve_with`].
    ///
    /// # Errors
    ///
    /// No slot is free, or the slots were stopped.
    pub fn reserve(&mut self) -> Result<Key, ReserveError>
    where
        T: Default,
    {
        self.reserve_with(|_| T::default())
    }

    /// Takes the result of the open. If it is negative, the life is over and the slot is free, and
    /// its value is returned. After [`Slots::stop`] the life of an open file is ended at once.
    ///
    /// # Errors
    ///
    /// The life isn't opening.
    pub fn opened(&mut self, key: Key, result: i32) -> Result<After<T>, Refusal> {
        let next = self.machine.opened(key, result)?;
        self.after(key, next)
    }

    /// Adopts a file that the kernel has put at a slot of the allocation range: takes the
    /// completion of an open with `IORING_FILE_INDEX_ALLOC`, as each one of a multishot accept,
    /// whose result is the slot. A live life begins there, with a value that is made from its key.
    /// After [`Slots::stop`] it is ended at once: then [`Next::Close`] is returned with the key.
    ///
    /// The kernel may choose a slot whose close it has made before the completion of that close is
    /// taken: then the earlier life is over, its value is returned, and [`Slots::closed`] is
    /// refused as [`Refusal::Stale`].
    ///
    /// ```
    /// use yachtbanyan::direct::{Adopted, Next, Refusal, Slots};
    ///
    /// let mut slots = Slots::with_range(4, 2..4)?;
    /// // an accept at any slot was completed with the result 3
    /// let it = slots.adopt_with(3, |key| format!("connection {key}"))?;
    /// let Adopted { key, next, earlier } = it;
    /// assert_eq!((key.slot(), next, earlier), (3, Next::Nothing, None));
    /// assert_eq!(slots.end(key)?, Next::Close(3)); // submit a close
    /// // another accept has the slot, before the completion of the close
    /// let next = slots.adopt_with(3, |key| format!("connection {key}"))?;
    /// assert_eq!(next.earlier, Some(format!("connection {key}")));
    /// assert_eq!(slots.closed(key), Err(Refusal::Stale { key }));
    /// # Ok::<(), Box<dyn std::error::Error>>(())
    /// ```
    ///
    /// # Errors
    ///
    /// The slot isn't in the range, has a life with a file, or has had its last life. Then `make`
    /// isn't called. If `make` panics, the life goes on without a value: [`Slots::key_at`] returns
    /// its key. After [`Slots::stop`] the caller then closes the slot. [`Slots::closed`] ends the
    /// life and, since there is no value, returns [`Refusal::Stale`].
    pub fn adopt_with(
        &mut self,
        slot: u32,
        make: impl FnOnce(Key) -> T,
    ) -> Result<Adopted<T>, AdoptError> {
        let (key, next) = self.machine.adopt(slot)?;
        let earlier = self.take(key);
        self.values[slot as usize] = Some(make(key));
        Ok(Adopted { key, next, earlier })
    }

    /// Adopts a file with the default value, as [`Slots::adopt_with`].
    ///
    /// # Errors
    ///
    /// The slot isn't in the range, has a life with a file, or has had its last life.
    pub fn adopt(&mut self, slot: u32) -> Result<Adopted<T>, AdoptError>
    where
        T: Default,
    {
        self.adopt_with(slot, |_| T::default())
    }

    /// Begins a chain: an open, requests on its file and perhaps its close, which the caller
    /// submits together, by links, in place of an open alone. `open` is called once, with the slot,
    /// and submits the open; [`Chain`] takes the other members. Until the last of their completions
    /// the slot isn't free, whatever they are.
    ///
    /// ```
    /// use yachtbanyan::direct::{After, Member, Slots};
    ///
    /// let mut slots = Slots::new(1)?;
    /// let key = slots.reserve_with(|key| format!("file {key}"))?;
    /// let mut queue = Vec::new(); // where a ring would be
    /// slots
    ///     .chain(key, |slot| queue.push(("openat", slot)))?
    ///     .request(|slot| queue.push(("read", slot)))
    ///     .close(|slot| queue.push(("close", slot)));
    /// assert_eq!(slots.in_flight(), 3);
    /// assert_eq!(slots.chained(key, Member::Open, -2)?, After::Nothing); // no such file
    /// assert!(slots.reserve_with(|_| String::new()).is_err());
    /// assert_eq!(slots.chained(key, Member::Request, -125)?, After::Nothing);
    /// let over = slots.chained(key, Member::Close, -125)?;
    /// assert_eq!(over, After::Over(format!("file {key}")));
    /// # Ok::<(), Box<dyn std::error::Error>>(())
    /// ```
    ///
    /// # Errors
    ///
    /// The life isn't opening. Then `open` isn't called.
    pub fn chain(&mut self, key: Key, open: impl FnOnce(u32)) -> Result<Chain<'_>, Refusal> {
        if self.machine.phase(key) != Some(Phase::Opening) {
            // it is refused with the reason
            self.machine.chain(key, 0, false)?;
        }
        open(key.slot());
        Ok(Chain { machine: &mut self.machine, key, requests: 0, closes: false })
    }

    // Counts a chain, whose members the caller submits.
    pub(super) fn count_chain(
        &mut self,
        key: Key,
        requests: u32,
        closes: bool,
    ) -> Result<u32, Refusal> {
        self.machine.chain(key, requests, closes)
    }

    /// Takes the completion of a chain's member with its result, in any order. A chain without a
    /// close is a live life once its open has succeeded; this takes its other requests too. After
    /// [`Slots::stop`] that life is ended at once.
    ///
    /// # Errors
    ///
    /// No such member is in flight, or the open failed and the close took a file.
    pub fn chained(&mut self, key: Key, member: Member, result: i32) -> Result<After<T>, Refusal> {
        let next = self.machine.chained(key, member, result)?;
        self.after(key, next)
    }

    /// Counts a request, and returns the slot. The caller submits the request there.
    ///
    /// # Errors
    ///
    /// The life isn't live, or has 2^32 - 1 requests in flight.
    pub fn start(&mut self, key: Key) -> Result<u32, Refusal> {
        self.machine.start(key)
    }

    /// Takes the last completion of a request that was started.
    ///
    /// # Errors
    ///
    /// No request of the life is in flight.
    pub fn finish(&mut self, key: Key) -> Result<Next, Refusal> {
        self.machine.finish(key)
    }

    /// Counts a user that is no request, until [`Slots::release`].
    ///
    /// # Errors
    ///
    /// The life isn't live, or has 2^32 - 1 users.
    pub fn hold(&mut self, key: Key) -> Result<(), Refusal> {
        self.machine.hold(key)
    }

    /// Makes a queue of releases for these slots. `wake` is called in any thread, within the drop
    /// of a [`User`], if the queue was empty: it wakes the ring's thread, as by a write to an
    /// eventfd that the ring reads. It must not panic, and takes no lock that a thread may hold
    /// around a drop.
    pub fn releases(&self, wake: impl Fn() + Send + Sync + 'static) -> Releases {
        Releases::new(self.number, wake)
    }

    /// Returns the keys of the users that were dropped since the last call, for
    /// [`Slots::release`].
    ///
    /// # Errors
    ///
    /// The queue is that of other slots.
    pub fn collect(&self, releases: &Releases) -> Result<Vec<Key>, OtherSlots> {
        if !releases.is_of(self.number) {
            return Err(OtherSlots);
        }
        Ok(releases.collect())
    }

    /// Counts a user, as [`Slots::hold`], whose drop posts the key to a queue: then the ring's
    /// thread collects it, and calls [`Slots::release`]. The user may go to another thread.
    ///
    /// # Errors
    ///
    /// The queue is that of other slots, or the life isn't live, or has 2^32 - 1 users.
    pub fn hold_by(&mut self, key: Key, releases: &Releases) -> Result<User, Refusal> {
        if !releases.is_of(self.number) {
            return Err(Refusal::OtherSlots { key });
        }
        self.machine.hold(key)?;
        Ok(releases.user(key))
    }

    /// Takes a user back.
    ///
    /// # Errors
    ///
    /// The life has no user.
    pub fn release(&mut self, key: Key) -> Result<Next, Refusal> {
        self.machine.release(key)
    }

    /// Ends a life: from now on no request is started, and no user counted. What is in flight
    /// isn't canceled: a shutdown of the socket, started before, makes its requests complete.
    ///
    /// # Errors
    ///
    /// The life isn't live.
    pub fn end(&mut self, key: Key) -> Result<Next, Refusal> {
        self.machine.end(key)
    }

    /// Stops the slots, for a shutdown: none is reserved any more, and each life that becomes live,
    /// also by [`Slots::adopt`], is ended at once. A life that is reserved goes on: its open is
    /// submitted, or [`Slots::opened`] takes a failure. The caller ends each live life: a walk by
    /// [`Slots::key_in`]. Once each call was completed and each user was released, [`Slots::len`]
    /// is 0.
    ///
    /// ```
    /// use yachtbanyan::direct::{After, Next, PhaseName, Slots};
    ///
    /// let mut slots = Slots::<()>::new(4)?;
    /// let (live, late) = (slots.reserve()?, slots.reserve()?);
    /// assert_eq!(slots.opened(live, 0)?, After::Nothing);
    /// slots.stop();
    /// let mut from = 0;
    /// while let Some(key) = slots.key_in(PhaseName::Live, from) {
    ///     from = key.slot() + 1;
    ///     assert_eq!(slots.end(key)?, Next::Close(key.slot())); // submit a close
    /// }
    /// assert_eq!(slots.opened(late, 0)?, After::Close(late.slot())); // here too
    /// for key in [live, late] {
    ///     slots.closed(key)?;
    /// }
    /// assert!(slots.is_empty());
    /// # Ok::<(), Box<dyn std::error::Error>>(())
    /// ```
    pub fn stop(&mut self) {
        self.machine.stop();
    }

    /// Takes the completion of a close after which the slot is empty: it succeeded, or its result
    /// is `-EBADF` (the slot was empty) or `-ENXIO` (the ring has no table), since another emptied
    /// the slot in spite of the premises. The life is over and the slot is free, and its value is
    /// returned.
    ///
    /// # Errors
    ///
    /// The life isn't closing.
    pub fn closed(&mut self, key: Key) -> Result<T, Refusal> {
        self.machine.closed(key)?;
        self.take(key).ok_or(Refusal::Stale { key })
    }

    /// Takes the completion of a close that left the file at the slot, as a linked one that was
    /// canceled. Returns the slot, whose close the caller submits again. After `-EBADF` or `-ENXIO`
    /// call [`Slots::closed`]: a close of an empty slot would be asked for without end.
    ///
    /// # Errors
    ///
    /// The life isn't closing.
    pub fn close_failed(&mut self, key: Key) -> Result<u32, Refusal> {
        self.machine.close_failed(key)
    }

    /// Returns the phase of a life, or `None` if it is over, or never was.
    pub fn phase(&self, key: Key) -> Option<Phase> {
        self.machine.phase(key)
    }

    /// Returns the value of a life, in any phase, or `None` if it is over.
    pub fn get(&self, key: Key) -> Option<&T> {
        self.machine.phase(key)?;
        self.values[key.slot() as usize].as_ref()
    }

    /// Returns the value of a life, in any phase, or `None` if it is over.
    pub fn get_mut(&mut self, key: Key) -> Option<&mut T> {
        self.machine.phase(key)?;
        self.values[key.slot() as usize].as_mut()
    }

    /// Returns the number of slots.
    pub fn slots(&self) -> u32 {
        self.values.len() as u32
    }

    /// Returns the number of lives that have begun and are not over.
    pub fn len(&self) -> u32 {
        self.machine.len()
    }

    /// Checks whether no life has begun that is not over.
    pub fn is_empty(&self) -> bool {
        self.len() == 0
    }

    /// Returns the number of completions that are waited for: of opens, requests and closes.
    pub fn in_flight(&self) -> u64 {
        self.machine.in_flight()
    }

    /// Returns the key of the life at a slot, or `None` if there is none, or no such slot.
    pub fn key_at(&self, slot: u32) -> Option<Key> {
        self.machine.key_at(slot)
    }

    /// Returns the key of the first life in a phase, at slot `from` or a later one. So a walk over
    /// these lives, which may end each of them, goes on after the slot of each key. The time
    /// depends on the slots that are passed.
    pub fn key_in(&self, phase: PhaseName, from: u32) -> Option<Key> {
        self.machine.key_in(phase, from)
    }

    /// Returns the keys of the lives in a phase, in the order of their slots.
    pub fn keys(&self, phase: PhaseName) -> impl Iterator<Item = Key> + '_ {
        let next = move |key: &Key| self.key_in(phase, key.slot() + 1);
        std::iter::successors(self.key_in(phase, 0), next)
    }

    // Returns what a completion leaves.
    fn after(&mut self, key: Key, next: Next) -> Result<After<T>, Refusal> {
        Ok(match next {
            Next::Close(slot) => After::Close(slot),
            Next::Nothing if self.machine.phase(key).is_some() => After::Nothing,
            Next::Nothing => After::Over(self.take(key).ok_or(Refusal::Stale { key })?),
        })
    }

    fn take(&mut self, key: Key) -> Option<T> {
        self.values[key.slot() as usize].take()
    }
}

/// A chain that is being submitted. Each member that it submits is counted, and no other one: it
/// ends by [`Chain::close`], or without a close when it is dropped. A member whose closure panics
/// is taken as not submitted. Don't forget a chain (`std::mem::forget`): then no member is counted.
#[must_use = "a chain without a close ends here"]
pub struct Chain<'a> {
    machine: &'a mut Machine,
    key: Key,
    requests: u32,
    closes: bool,
}

impl Chain<'_> {
    /// Submits a request on the file, by calling `submit` with the slot.
    ///
    /// # Panics
    ///
    /// If the chain has 2^32 - 1 requests.
    pub fn request(mut self, submit: impl FnOnce(u32)) -> Self {
        let requests = self.requests.checked_add(1).expect("a chain has at most 2^32 - 1 requests");
        submit(self.key.slot());
        self.requests = requests;
        self
    }

    /// Submits the close of the slot, which is the last member, by calling `submit` with the slot.
    pub fn close(mut self, submit: impl FnOnce(u32)) {
        submit(self.key.slot());
        self.closes = true;
    }
}

impl Drop for Chain<'_> {
    fn drop(&mut self) {
        // nobody else has used the life, which was opening when the chain began
        let _counted = self.machine.chain(self.key, self.requests, self.closes);
    }
}

impl fmt::Debug for Chain<'_> {
    fn fmt(&self, f: &mut fmt::Formatter<'_>) -> fmt::Result {
        let (key, requests) = (self.key, self.requests);
        f.debug_struct("Chain")
            .field("key", &key)
            .field("requests", &requests)
            .finish_non_exhaustive()
    }
}

/// A life whose value isn't made yet. If that panics, the life is over.
struct Unless<'a, T>(&'a mut Slots<T>, Key);

impl<T> Drop for Unless<'_, T> {
    fn drop(&mut self) {
        let _over = self.0.machine.opened(self.1, -1);
    }
}

impl<T> fmt::Debug for Slots<T> {
    fn fmt(&self, f: &mut fmt::Formatter<'_>) -> fmt::Result {
        f.debug_struct("Slots")
            .field("slots", &self.slots())
            .field("len", &self.len())
            .field("in_flight", &self.in_flight())
            .finish_non_exhaustive()
    }
}
