//! The errors. Those of a value that isn't installed give it back.
use crate::access::{MOST_INSTALLING, MOST_SLOTS, MOST_WORKERS};
use std::error::Error;
use std::fmt;

/// The reason why a table is not opened.
///
/// ```
/// let error = yachtbanyan::Table::<u64>::with_slots(2_000_000).unwrap_err();
/// let most = yachtbanyan::MOST_SLOTS;
/// assert_eq!(error.to_string(), format!("2000000 slots: a table has 1 to {most}"));
/// ```
#[derive(Clone, Copy, Debug, PartialEq, Eq)]
#[non_exhaustive]
pub enum OpenError {
    /// The number of slots is out of range.
    Slots(u32),
    /// The number of handles is out of range.
    Handles(u32),
    /// The number of seats, two for each handle and one for each reader and each guard, is out of
    /// range.
    Seats(u64),
    /// An allocation of the core failed.
    NoMemory,
}

/// Each seat of a kind was in use when it was looked at. Nothing is lost: the call may be made
/// again.
#[derive(Clone, Copy, Debug, PartialEq, Eq)]
#[non_exhaustive]
pub enum NoSeat {
    /// All seats that install have handles.
    Handle {
        /// The number of handles that are in use.
        in_use: u32,
    },
    /// All readers are in use.
    Reader {
        /// The number of readers that are in use.
        in_use: u32,
    },
    /// All seats of guards are in use.
    Guard {
        /// The number of guards that use them.
        in_use: u32,
    },
}

/// The table has no such slot.
#[derive(Clone, Copy, Debug, PartialEq, Eq)]
pub struct NoSlot {
    /// The slot.
    pub slot: u32,
    /// The number of slots of the table, which are numbered from 0.
    pub slots: u32,
}

/// Defines an error that has the reasons of a look-up, with their words, and further reasons with
/// theirs. `of` is what a slot belongs to that is empty, and `by` what finds no seat.
macro_rules! with_reasons_of_a_look_up {
    (
        $(#[$about:meta])* $error:ident of $slot:literal, by $user:literal
        $($(#[$more:meta])* $name:ident $({ $(#[$of:meta])* $field:ident })? => $words:expr;)*
    ) => {
        $(#[$about])*
        #[derive(Clone, Copy, Debug, PartialEq, Eq)]
        #[non_exhaustive]
        pub enum $error {
            $($(#[$more])* $name $({ $(#[$of])* $field: u32 })?,)*
            #[doc = concat!("The slot", $slot, " is empty.")]
            Empty {
                /// The slot.
                slot: u32,
            },
            /// The slot has another value than that of the key.
            Stale {
                /// The slot.
                slot: u32,
            },
            /// The table has no such slot.
            NoSlot(NoSlot),
            #[doc = concat!("There is no seat for ", $user, ".")]
            NoSeat(NoSeat),
        }

        impl fmt::Display for $error {
            fn fmt(&self, f: &mut fmt::Formatter<'_>) -> fmt::Result {
                match *self {
                    $($error::$name $({ $field })? => $words.fmt(f),)*
                    $error::Empty { slot } => write!(f, "slot {slot} is empty"),
                    $error::Stale { slot } => write!(f, "slot {slot} has another value"),
                    $error::NoSlot(error) => error.fmt(f),
                    $error::NoSeat(error) => error.fmt(f),
                }
            }
        }

        impl Error for $error {}
    };
}

with_reasons_of_a_look_up! {
    /// The reason why a look-up returns no guard.
    ///
    /// ```
    /// use yachtbanyan::{GetError, Table};
    ///
    /// let table = Table::<u64>::with_slots(4)?;
    /// match table.get_owned_at(3) {
    ///     Ok(guard) => println!("{guard}"),
    ///     Err(GetError::Empty { slot }) => println!("nothing at {slot}"),
    ///     Err(error) => return Err(error.into()),
    /// }
    /// # Ok::<(), Box<dyn std::error::Error>>(())
    /// ```
    GetError of "", by "a guard"
}

with_reasons_of_a_look_up! {
    /// The reason why a call that removes a value by its key, by its guard, or by a seat of the
    /// table removes nothing.
    ///
    /// ```
    /// let table = yachtbanyan::Table::<u64>::with_slots(4)?;
    /// let error = table.remove_at(4).unwrap_err();
    /// assert_eq!(error.to_string(), "slot 4 is out of range: the table has slots 0 to 3");
    /// # Ok::<(), yachtbanyan::OpenError>(())
    /// ```
    RemoveError of " of the key", by "the call"
}

with_reasons_of_a_look_up! {
    /// The reason why a value is not installed.
    ///
    /// ```
    /// use yachtbanyan::{Reason, Table};
    ///
    /// let table = Table::<u64>::with_slots(1)?;
    /// let handle = table.handle()?;
    /// handle.insert_with(|key| u64::from(key.slot()))?;
    /// let reason = handle.insert_with(|_| 7).unwrap_err();
    /// assert_eq!(reason, Reason::Full { slots: 1 });
    /// assert_eq!(reason.to_string(), "the only slot has a value");
    /// # Ok::<(), Box<dyn std::error::Error>>(())
    /// ```
    Reason of " of the key", by "the call"
    /// At one moment during the call every slot had a value.
    Full {
        /// The number of slots.
        slots
    } => match slots {
        1 => "the only slot has a value".to_string(),
        _ => format!("all {slots} slots have values"),
    };
    /// No slot was free when it was looked at, and others were filling or emptying slots: another
    /// thread emptied a slot during the call, changed a free one, or was in the middle of a call.
    Again => "other threads are filling or emptying slots";
    /// The handle is calling the function that makes a value for
    /// [`insert_with`](crate::Handle::insert_with).
    Making => "the handle is making a value for insert_with";
}

/// A value that is not installed, and the reason.
///
/// ```
/// use yachtbanyan::Table;
///
/// let table = Table::<String>::with_slots(2)?;
/// let refused = table.replace_at(2, "value".to_string()).unwrap_err();
/// assert_eq!(refused.to_string(), "slot 2 is out of range: the table has slots 0 to 1");
/// assert_eq!(refused.value, "value");
/// # Ok::<(), Box<dyn std::error::Error>>(())
/// ```
#[derive(Clone, Copy, PartialEq, Eq)]
pub struct Refused<T> {
    /// The value.
    pub value: T,
    /// The reason.
    pub reason: Reason,
}

impl<T> Refused<T> {
    pub(crate) fn new(value: T, reason: Reason) -> Refused<T> {
        Refused { value, reason }
    }
}

impl<T> fmt::Debug for Refused<T> {
    fn fmt(&self, f: &mut fmt::Formatter<'_>) -> fmt::Result {
        f.debug_struct("Refused").field("reason", &self.reason).finish_non_exhaustive()
    }
}

impl<T> fmt::Display for Refused<T> {
    fn fmt(&self, f: &mut fmt::Formatter<'_>) -> fmt::Result {
        self.reason.fmt(f)
    }
}

/// Gives an error the reasons of a look-up.
macro_rules! from_a_look_up {
    ($($error:ident)*) => { $(
        impl From<GetError> for $error {
            fn from(error: GetError) -> $error {
                match error {
                    GetError::Empty { slot } => $error::Empty { slot },
                    GetError::Stale { slot } => $error::Stale { slot },
                    GetError::NoSlot(error) => $error::NoSlot(error),
                    GetError::NoSeat(error) => $error::NoSeat(error),
                }
            }
        }
    )* };
}

from_a_look_up! { RemoveError Reason }

impl fmt::Display for OpenError {
    fn fmt(&self, f: &mut fmt::Formatter<'_>) -> fmt::Result {
        match self {
            OpenError::Slots(slots) => {
                write!(f, "{slots} slots: a table has 1 to {MOST_SLOTS}")
            }
            OpenError::Handles(handles) => {
                write!(f, "{handles} handles: a table has 1 to {MOST_INSTALLING}")
            }
            OpenError::Seats(seats) => write!(
                f,
                "{seats} seats, two for each handle and one for each reader and each guard: \
                 a table has at most {MOST_WORKERS}"
            ),
            OpenError::NoMemory => f.write_str("an allocation failed"),
        }
    }
}

impl fmt::Display for NoSeat {
    fn fmt(&self, f: &mut fmt::Formatter<'_>) -> fmt::Result {
        let (in_use, kind, most) = match *self {
            NoSeat::Handle { in_use } => (in_use, "handle", MOST_INSTALLING),
            NoSeat::Reader { in_use } => (in_use, "reader", MOST_WORKERS - 2),
            NoSeat::Guard { in_use } => (in_use, "guard", MOST_WORKERS - 2),
        };
        let are = if in_use == 1 { " is" } else { "s are" };
        write!(f, "{in_use} {kind}{are} in use; ")?;
        if in_use >= most {
            return write!(f, "Options::{kind}s sets at most {most}");
        }
        write!(f, "to have more, set Options::{kind}s (at most {most})")
    }
}

impl fmt::Display for NoSlot {
    fn fmt(&self, f: &mut fmt::Formatter<'_>) -> fmt::Result {
        let NoSlot { slot, slots } = self;
        let last = slots - 1;
        write!(f, "slot {slot} is out of range: the table has slots 0 to {last}")
    }
}

impl From<NoSlot> for RemoveError {
    fn from(error: NoSlot) -> RemoveError {
        RemoveError::NoSlot(error)
    }
}

impl From<NoSeat> for RemoveError {
    fn from(error: NoSeat) -> RemoveError {
        RemoveError::NoSeat(error)
    }
}

impl<T> Error for Refused<T> {}
impl Error for OpenError {}
impl Error for NoSeat {}
impl Error for NoSlot {}
