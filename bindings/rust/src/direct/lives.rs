//! A ring and its slots in one.
use super::errors::{OpenError, Refusal, ReserveError};
use super::key::Key;
use super::releases::{Releases, User};
use super::ring::{copy_of, Completion, Entry, Request, Ring};
use super::slots::{After, Member, Next, Phase, PhaseName, Slots};
use std::{fmt, io};

/// The largest kind of the caller's requests on a life.
pub const MOST_OWN_KIND: u8 = 11;
const SHUTDOWN: u8 = 12;
const CLOSE: u8 = 13;
const OPEN: u8 = 14;
const ACCEPT: u8 = 15;
/// Below it are numbers that belong to no key; the largest of them is that of the layer's cancels.
const LEAST_KEY: u64 = 1 << 24;
const CANCEL: u64 = LEAST_KEY - 1;

// the kernel's numbers: IOSQE_FIXED_FILE, _IO_LINK and _IO_HARDLINK; IORING_CQE_F_MORE and _NOTIF
const FIXED_FILE: u8 = 1;
const SOFT_LINK: u8 = 4;
const HARD_LINK: u8 = 8;
const MORE: u32 = 2;
const NOTIF: u32 = 8;
const EBADF: i32 = -9;
const ENXIO: i32 = -6;
const ECANCELED: i32 = -125;
// after these errors of an accept another one may succeed: ECONNABORTED, EINTR, ECANCELED, EPROTO,
// ENETDOWN, ENETUNREACH, EHOSTDOWN, EHOSTUNREACH
const PASSING: [i32; 8] = [-103, -4, ECANCELED, -71, -100, -101, -112, -113];

/// What has happened to a life.
#[derive(Clone, Copy, Debug, PartialEq, Eq)]
pub enum Event<T> {
    /// An accept succeeded, and its life has the default value; or the open of a chain was
    /// completed, with this result.
    Opened(Key, i32),
    /// A request of the caller's was completed.
    Completed {
        /// The life.
        key: Key,
        /// The kind of the request.
        kind: u8,
        /// The result.
        result: i32,
        /// The flags of the completion.
        flags: u32,
        /// No completion of the request follows: its memory may go.
        is_last: bool,
    },
    /// The life is over, and nothing of it is in flight. Its value is returned.
    Over(Key, T),
    /// An accept failed with this error, which isn't that of one connection. No other is submitted
    /// until [`Lives::accept`] is called again.
    Stopped(i32),
    /// A request without a key was completed.
    Other(Completion),
}

/// A ring and its [`Slots`] in one: what each server would write around both. It sets the slot, the
/// flags and the `user_data` of each entry, counts each request until its last completion, submits
/// a close again that was canceled, keeps a number of accepts in flight, links chains, and shuts a
/// connection down before its close.
///
/// Three things are left to the caller. The memory of a request stays until its last
/// [`Event::Completed`], and that of a life until [`Event::Over`]. A key goes to the `Lives` that
/// returned it. Nobody else writes the slots of the ring's table, or takes its completions.
///
/// A drop drops all values, also buffers that requests in flight use: so end it by [`Lives::stop`].
pub struct Lives<T, R: Ring> {
    ring: R,
    slots: Slots<T>,
    // bit k: the requests of kind k are zero-copy sends
    zero_copy: u16,
    listener: i32,
    accepts: u32,
    kept: u32,
    accepting: u32,
    error: Option<io::Error>,
    is_ending: bool,
    over: Option<(Key, T)>,
}

impl<T: Default, R: Ring> Lives<T, R> {
    /// Opens the slots of a ring whose table has `slots` slots, all of them empty.
    ///
    /// # Errors
    ///
    /// As of [`Slots::new`].
    pub fn new(ring: R, slots: u32) -> Result<Lives<T, R>, OpenError> {
        Ok(Lives {
            ring,
            slots: Slots::new(slots)?,
            zero_copy: 0,
            listener: -1,
            accepts: 0,
            kept: 0,
            accepting: 0,
            error: None,
            is_ending: false,
            over: None,
        })
    }

    /// Sets the kinds whose requests are zero-copy sends, which have two completions.
    ///
    /// # Panics
    ///
    /// If a kind is above [`MOST_OWN_KIND`].
    pub fn set_zero_copy(&mut self, kinds: &[u8]) {
        assert!(kinds.iter().all(|it| *it <= MOST_OWN_KIND), "a kind is at most 11");
        self.zero_copy = kinds.iter().fold(0, |all, it| all | 1 << it);
    }

    /// Keeps `accepts` accepts of a listening socket in flight, but leaves `kept` slots to chains.
    /// While no other slot is free, clients wait in the socket's backlog.
    pub fn accept(&mut self, listener: i32, accepts: u32, kept: u32) {
        (self.listener, self.accepts, self.kept) = (listener, accepts, kept);
    }

    /// Returns the slots, for questions and for a queue of [`Releases`].
    pub fn slots(&self) -> &Slots<T> {
        &self.slots
    }

    /// Returns the ring.
    pub fn ring(&mut self) -> &mut R {
        &mut self.ring
    }

    /// Returns the value of a life, until [`Event::Over`] returns it.
    pub fn get_mut(&mut self, key: Key) -> Option<&mut T> {
        match &mut self.over {
            Some((over, value)) if *over == key => Some(value),
            _ => self.slots.get_mut(key),
        }
    }

    /// Returns the value of a life to which a request may be added: that is live.
    pub fn live(&mut self, key: Key) -> Option<&mut T> {
        let is_live = matches!(self.slots.phase(key), Some(Phase::Live { .. }));
        self.slots.get_mut(key).filter(|_| is_live)
    }

    /// Counts a user in any thread, as [`Slots::hold_by`].
    ///
    /// # Errors
    ///
    /// As of [`Slots::hold_by`].
    pub fn hold_by(&mut self, key: Key, releases: &Releases) -> Result<User, Refusal> {
        self.slots.hold_by(key, releases)
    }

    /// Takes a user back.
    ///
    /// # Errors
    ///
    /// As of [`Slots::release`].
    pub fn release(&mut self, key: Key) -> Result<(), Refusal> {
        let next = self.slots.release(key)?;
        self.settle(key, next);
        Ok(())
    }

    fn push(&mut self, request: Request<R::Request>, place: (i32, u32), flags: u8, data: u64) {
        let (fd, file_index) = place;
        let entry = Entry { request, fd, file_index, flags, user_data: data };
        if let Err(error) = self.ring.push(entry) {
            self.error.get_or_insert(error);
        }
    }

    fn push_fixed(&mut self, request: Request<R::Request>, key: Key, kind: u8, link: u8) {
        self.push(request, (key.slot() as i32, 0), FIXED_FILE | link, key.to_bits(kind));
    }

    // Queues a request that installs or closes the file of a slot.
    fn push_at(&mut self, request: Request<R::Request>, key: Key, kind: u8, link: u8) {
        self.push(request, (-1, key.slot() + 1), link, key.to_bits(kind));
    }

    /// Queues a request without a key, on no slot. `data` is its `user_data`.
    ///
    /// # Panics
    ///
    /// If `data` isn't below 2^24 - 1.
    pub fn push_other(&mut self, request: R::Request, data: u64) {
        assert!(data < CANCEL, "the numbers below 2^24 - 1 belong to no key");
        self.push(Request::Own(request), (-1, 0), 0, data);
    }

    fn settle(&mut self, key: Key, next: Next) {
        if let Next::Close(_) = next {
            self.push_at(Request::Close, key, CLOSE, 0);
        }
    }

    /// Counts a request on the file of a key, and queues it.
    ///
    /// # Errors
    ///
    /// As of [`Slots::start`]: then nothing is queued.
    ///
    /// # Panics
    ///
    /// If `kind` is above [`MOST_OWN_KIND`].
    pub fn start(&mut self, key: Key, kind: u8, request: R::Request) -> Result<(), Refusal> {
        assert!(kind <= MOST_OWN_KIND, "a kind is at most 11");
        self.slots.start(key)?;
        self.push_fixed(Request::Own(request), key, kind, 0);
        Ok(())
    }

    /// Ends a life: a shutdown makes its requests complete, and then the slot is closed. The life
    /// of a chain ends with it.
    pub fn end(&mut self, key: Key) {
        if self.slots.start(key).is_ok() {
            self.push_fixed(Request::Shutdown, key, SHUTDOWN, 0);
        }
        if let Ok(next) = self.slots.end(key) {
            self.settle(key, next);
        }
    }

    /// Submits a chain as a life with this value: an open, requests on its file, each with its
    /// kind, and if `closes` a close. The open has a soft link, so that its failure cancels the
    /// rest. The requests have hard ones, so that the next one runs whatever their results are.
    /// Without `closes` the life goes on.
    ///
    /// # Errors
    ///
    /// No slot is free, or [`Lives::stop`] was called, or the ring is of no use any more. The value
    /// is returned.
    ///
    /// # Panics
    ///
    /// If a kind is above [`MOST_OWN_KIND`], or the ring's queue is shorter than the chain.
    pub fn chain(
        &mut self,
        value: T,
        open: R::Request,
        requests: Vec<(u8, R::Request)>,
        closes: bool,
    ) -> Result<Key, (ReserveError, T)> {
        assert!(requests.iter().all(|it| it.0 <= MOST_OWN_KIND), "a kind is at most 11");
        let mut left = requests.len() + usize::from(closes);
        match self.ring.make_room(left + 1) {
            Ok(is_long_enough) => assert!(is_long_enough, "the queue is too short"),
            Err(error) => {
                self.error.get_or_insert(error);
            }
        }
        if self.error.is_some() {
            return Err((ReserveError::Stopped, value));
        }
        let mut value = Some(value);
        let reserved = self.slots.reserve_with(|_| value.take().unwrap_or_default());
        let key = reserved.map_err(|error| (error, value.unwrap_or_default()))?;
        let counted = self.slots.count_chain(key, requests.len() as u32, closes);
        debug_assert!(counted.is_ok(), "the life is opening");
        self.push_at(Request::Own(open), key, OPEN, if left > 0 { SOFT_LINK } else { 0 });
        for (kind, request) in requests {
            left -= 1;
            let link = if left > 0 { HARD_LINK } else { 0 };
            self.push_fixed(Request::Own(request), key, kind, link);
        }
        if closes {
            self.push_at(Request::Close, key, CLOSE, 0);
        }
        Ok(key)
    }

    fn accept_more(&mut self) {
        while self.error.is_none() && self.accepting < self.accepts {
            if self.slots.len().saturating_add(self.kept) >= self.slots.slots() {
                return;
            }
            let Ok(key) = self.slots.reserve() else {
                return;
            };
            self.push_at(Request::Accept(self.listener), key, ACCEPT, 0);
            self.accepting += 1;
        }
    }

    /// Begins the end of all lives: no life begins any more, the accepts are canceled, and each
    /// life is ended. Then the caller takes the events until [`Lives::next`] returns `None`.
    pub fn stop(&mut self) {
        (self.accepts, self.is_ending) = (0, true);
        self.slots.stop();
        for phase in [PhaseName::Opening, PhaseName::Chained, PhaseName::Live] {
            let mut from = 0;
            while let Some(key) = self.slots.key_in(phase, from) {
                from = key.slot() + 1;
                self.end(key); // of an accept, this is refused
                if phase == PhaseName::Opening {
                    self.push(Request::Cancel(key.to_bits(ACCEPT)), (-1, 0), 0, CANCEL);
                }
            }
        }
    }

    // Checks whether no completion of the request follows.
    fn is_last(&self, kind: u8, it: Completion) -> bool {
        if it.flags & MORE != 0 {
            return false;
        }
        // a refused zero-copy send has no notification
        let is_alone = self.zero_copy >> kind & 1 == 0 || it.flags & NOTIF != 0;
        is_alone || (it.result < 0 && it.result != ECANCELED)
    }

    fn accepted(&mut self, key: Key, result: i32) -> Option<Event<T>> {
        self.accepting -= 1;
        // after `stop` its close is due
        if let Ok(After::Close(slot)) = self.slots.opened(key, result) {
            self.settle(key, Next::Close(slot));
        }
        if result >= 0 {
            return Some(Event::Opened(key, result));
        }
        if self.accepts == 0 || PASSING.contains(&result) {
            return None;
        }
        self.accepts = 0;
        Some(Event::Stopped(result))
    }

    // Takes the last completion of a request that has a key.
    fn finished(&mut self, key: Key, kind: u8, result: i32) {
        let member = match kind {
            OPEN => Member::Open,
            CLOSE => Member::Close,
            _ => Member::Request,
        };
        // the slot is empty; of a chain, whose open may have failed, this is refused
        if kind == CLOSE && matches!(result, EBADF | ENXIO) {
            if let Ok(value) = self.slots.closed(key) {
                self.over = Some((key, value));
                return;
            }
        }
        // without a chain this is `finish`, or `closed` or `close_failed`
        match self.slots.chained(key, member, result) {
            Ok(After::Close(slot)) => self.settle(key, Next::Close(slot)),
            Ok(After::Over(value)) => self.over = Some((key, value)),
            Ok(After::Nothing) | Err(_) => {}
        }
    }

    fn completed(&mut self, it: Completion) -> Option<Event<T>> {
        let Completion { user_data, result, flags } = it;
        if user_data < LEAST_KEY {
            return Some(Event::Other(it)).filter(|_| user_data != CANCEL);
        }
        let (key, kind) = Key::from_bits(user_data);
        if kind == ACCEPT {
            return self.accepted(key, result);
        }
        let is_last = self.is_last(kind, it);
        if is_last {
            self.finished(key, kind, result);
        }
        match kind {
            OPEN => Some(Event::Opened(key, result)),
            0..=MOST_OWN_KIND => Some(Event::Completed { key, kind, result, flags, is_last }),
            _ => None,
        }
    }

    /// Submits what is queued, and returns the next event, for which it waits. Returns `None` after
    /// [`Lives::stop`] once each life is over, though requests of [`Lives::push_other`] may be in
    /// flight.
    ///
    /// # Errors
    ///
    /// The ring is of no use any more: each later call without an event returns the error, too.
    #[allow(clippy::should_implement_trait)]
    pub fn next(&mut self) -> io::Result<Option<Event<T>>> {
        loop {
            if let Some((key, value)) = self.over.take() {
                return Ok(Some(Event::Over(key, value)));
            }
            if let Some(completion) = self.ring.completion() {
                match self.completed(completion) {
                    None => continue,
                    event => return Ok(event),
                }
            }
            if self.is_ending && self.slots.is_empty() {
                return Ok(None);
            }
            self.accept_more();
            if self.error.is_none() {
                self.error = self.ring.wait().err();
            }
            if let Some(error) = &self.error {
                return Err(copy_of(error));
            }
        }
    }
}

impl<T, R: Ring> fmt::Debug for Lives<T, R> {
    fn fmt(&self, f: &mut fmt::Formatter<'_>) -> fmt::Result {
        f.debug_struct("Lives").field("slots", &self.slots).finish_non_exhaustive()
    }
}
