//! The errors. None of them changes anything.
use super::core::{
    BAD_ARGUMENT, FULL, IS_CHAINED, IS_CLOSING, IS_ENDING, IS_LIVE, IS_OPENING, MOST_SLOTS,
    NOT_FREE, OTHER_MACHINE, STALE, STOPPED, TOO_MANY_REQUESTS, TOO_MANY_USERS,
};
use super::key::Key;
use std::error::Error;
use std::fmt;

/// The reason why [`Slots::new`](crate::direct::Slots::new) opens nothing.
///
/// ```
/// let error = yachtbanyan::direct::Slots::<()>::new(0).unwrap_err();
/// assert_eq!(error.to_string(), "0 slots: there are 1 to 1048576");
/// ```
#[derive(Clone, Copy, Debug, PartialEq, Eq)]
#[non_exhaustive]
pub enum OpenError {
    /// The number of slots is out of range.
    Slots(u32),
    /// An allocation failed.
    NoMemory,
}

/// The reason why no life begins.
///
/// ```
/// let mut slots = yachtbanyan::direct::Slots::<()>::new(1)?;
/// slots.reserve()?;
/// let full = slots.reserve().unwrap_err();
/// assert_eq!(full.to_string(), "the only slot has a life");
/// slots.stop();
/// assert_eq!(slots.reserve().unwrap_err().to_string(), "the slots were stopped");
/// # Ok::<(), Box<dyn std::error::Error>>(())
/// ```
#[derive(Clone, Copy, Debug, PartialEq, Eq)]
#[non_exhaustive]
pub enum ReserveError {
    /// No slot is free. The caller waits until a life is over: an `accept` that isn't submitted
    /// leaves clients in the backlog of the listening socket.
    Full {
        /// The number of slots.
        slots: u32,
    },
    /// The slots were [stopped](crate::direct::Slots::stop).
    Stopped,
}

/// The reason why [`Slots::adopt`](crate::direct::Slots::adopt) adopts no file.
///
/// ```
/// let mut slots = yachtbanyan::direct::Slots::<()>::with_range(4, 2..4)?;
/// let error = slots.adopt(1).unwrap_err();
/// assert_eq!(error.to_string(), "slot 1 is not in the allocation range");
/// # Ok::<(), Box<dyn std::error::Error>>(())
/// ```
#[derive(Clone, Copy, Debug, PartialEq, Eq)]
#[non_exhaustive]
pub enum AdoptError {
    /// The slot isn't one of these slots that are in the allocation range.
    OutOfRange {
        /// The slot.
        slot: u32,
    },
    /// A life has a file at the slot, so that the kernel can't have chosen it: a premise is broken.
    NotFree {
        /// The slot.
        slot: u32,
    },
    /// The slot has had 2^40 - 1 lives. The caller submits a close of it.
    Full {
        /// The slot.
        slot: u32,
    },
}

/// A queue of releases is that of other slots: nothing was collected.
///
/// ```
/// let slots = [1, 1].map(|it| yachtbanyan::direct::Slots::<()>::new(it).unwrap());
/// let releases = slots[0].releases(|| {});
/// let error = slots[1].collect(&releases).unwrap_err();
/// assert_eq!(error.to_string(), "the queue is that of another machine");
/// assert_eq!(error.number(), -20);
/// ```
#[derive(Clone, Copy, Debug, PartialEq, Eq)]
pub struct OtherSlots;

/// Defines the refusals of calls by a key, each with its number in yachtdirect.h and its words.
macro_rules! refusals {
    ($($(#[$meaning:meta])* $name:ident $number:ident $words:literal)*) => {
        /// The reason why a call by a key is refused. It has changed nothing.
        ///
        /// ```
        /// use yachtbanyan::direct::{Refusal, Slots};
        ///
        /// let mut slots = Slots::<()>::new(4)?;
        /// let key = slots.reserve()?;
        /// let error = slots.start(key).unwrap_err();
        /// assert_eq!(error, Refusal::IsOpening { key });
        /// assert_eq!(error.number(), -11);
        /// assert_eq!(error.to_string(), format!("{key}: the open is not completed"));
        /// # Ok::<(), Box<dyn std::error::Error>>(())
        /// ```
        #[derive(Clone, Copy, Debug, PartialEq, Eq)]
        #[non_exhaustive]
        pub enum Refusal { $(
            $(#[$meaning])*
            $name {
                /// The key.
                key: Key,
            },
        )* }

        impl Refusal {
            /// Returns the refusal of a number of yachtdirect.h.
            pub(super) fn of(number: i32, key: Key) -> Refusal {
                match number { $($number => Refusal::$name { key },)* _ => Refusal::Stale { key } }
            }

            fn parts(self) -> (Key, i32, &'static str) {
                match self { $(Refusal::$name { key } => (key, $number, $words)),* }
            }
        }
    };
}

refusals! {
    /// The life of the key is over, or never was.
    Stale STALE "the life of the key is over"
    /// The open isn't completed.
    IsOpening IS_OPENING "the open is not completed"
    /// The file is open: it wasn't ended; of `finish` and `release`, no request or no user is left.
    IsLive IS_LIVE "the file is open"
    /// The life was ended; of `finish` and `release`, no request or no user is left.
    IsEnding IS_ENDING "the life was ended"
    /// The close isn't completed.
    IsClosing IS_CLOSING "the close is not completed"
    /// 2^32 - 1 requests are in flight under the key.
    TooManyRequests TOO_MANY_REQUESTS "too many requests are in flight"
    /// The key has 2^32 - 1 users.
    TooManyUsers TOO_MANY_USERS "there are too many users"
    /// The chain isn't over.
    IsChained IS_CHAINED "the chain is not over"
    /// The queue of releases is that of other slots.
    OtherSlots OTHER_MACHINE "the queue is that of another machine"
}

impl Refusal {
    /// Returns the key of the call.
    pub fn key(self) -> Key {
        self.parts().0
    }

    /// Returns the number that the header yachtdirect.h has for it: from -17 to -10, or -20.
    pub fn number(self) -> i32 {
        self.parts().1
    }
}

impl OtherSlots {
    /// Returns the number that the header yachtdirect.h has for it, -20.
    pub fn number(self) -> i32 {
        OTHER_MACHINE
    }
}

impl AdoptError {
    /// Returns the number that the header yachtdirect.h has for it: -8, -19 or -6.
    pub fn number(self) -> i32 {
        match self {
            AdoptError::OutOfRange { .. } => BAD_ARGUMENT,
            AdoptError::NotFree { .. } => NOT_FREE,
            AdoptError::Full { .. } => FULL,
        }
    }
}

impl ReserveError {
    /// Returns the number that the header yachtdirect.h has for it, -6 or -18.
    pub fn number(self) -> i32 {
        match self {
            ReserveError::Full { .. } => FULL,
            ReserveError::Stopped => STOPPED,
        }
    }
}

impl fmt::Display for OpenError {
    fn fmt(&self, f: &mut fmt::Formatter<'_>) -> fmt::Result {
        match self {
            OpenError::Slots(slots) => write!(f, "{slots} slots: there are 1 to {MOST_SLOTS}"),
            OpenError::NoMemory => f.write_str("an allocation failed"),
        }
    }
}

impl fmt::Display for OtherSlots {
    fn fmt(&self, f: &mut fmt::Formatter<'_>) -> fmt::Result {
        f.write_str("the queue is that of another machine")
    }
}

impl fmt::Display for AdoptError {
    fn fmt(&self, f: &mut fmt::Formatter<'_>) -> fmt::Result {
        match self {
            AdoptError::OutOfRange { slot } => {
                write!(f, "slot {slot} is not in the allocation range")
            }
            AdoptError::NotFree { slot } => write!(f, "slot {slot} has a life with a file"),
            AdoptError::Full { slot } => write!(f, "slot {slot} has had its last life"),
        }
    }
}

impl fmt::Display for ReserveError {
    fn fmt(&self, f: &mut fmt::Formatter<'_>) -> fmt::Result {
        match self {
            ReserveError::Full { slots: 1 } => f.write_str("the only slot has a life"),
            ReserveError::Full { slots } => write!(f, "all {slots} slots have lives"),
            ReserveError::Stopped => f.write_str("the slots were stopped"),
        }
    }
}

impl fmt::Display for Refusal {
    fn fmt(&self, f: &mut fmt::Formatter<'_>) -> fmt::Result {
        let (key, _, words) = self.parts();
        write!(f, "{key}: {words}")
    }
}

impl Error for OpenError {}
impl Error for ReserveError {}
impl Error for AdoptError {}
impl Error for OtherSlots {}
impl Error for Refusal {}
