//! The size of a table.
use crate::access::{Table, MOST_INSTALLING, MOST_SLOTS, MOST_WORKERS};
use crate::errors::OpenError;

/// The size of a table: its slots, and its seats.
///
/// A handle takes two seats: one that installs, and one for its first living guard. A reader takes
/// one, for its first living guard. Each other living guard takes one. A table has at most
/// [`MOST_SEATS`](crate::MOST_SEATS) seats.
///
/// ```
/// use yachtbanyan::Options;
///
/// // a server of 4 threads, whose tasks hold up to 1,000 owned guards
/// let table = Options::new(256).handles(8).readers(0).guards(1_000).open::<u64>()?;
/// assert_eq!(table.slots(), 256);
/// # Ok::<(), yachtbanyan::OpenError>(())
/// ```
#[derive(Clone, Copy, Debug)]
#[must_use = "it opens a table by `open`"]
pub struct Options {
    pub(crate) slots: u32,
    pub(crate) handles: u32,
    pub(crate) readers: u32,
    pub(crate) guards: u32,
}

impl Options {
    /// Returns the size of a table of `slots` slots, 1 to [`MOST_SLOTS`](crate::MOST_SLOTS), for 16
    /// handles, 16 readers and 128 further guards.
    pub fn new(slots: u32) -> Options {
        Options { slots, handles: 16, readers: 16, guards: 128 }
    }

    /// Sets the number of handles, 1 to [`MOST_HANDLES`](crate::MOST_HANDLES). Calls of the table
    /// that install or remove use the seats that no handle has.
    pub fn handles(self, handles: u32) -> Options {
        Options { handles, ..self }
    }

    /// Sets the number of readers.
    pub fn readers(self, readers: u32) -> Options {
        Options { readers, ..self }
    }

    /// Sets the number of living guards besides the first of each handle and each reader. Each
    /// owned guard counts.
    ///
    /// ```
    /// let table = yachtbanyan::Options::new(4).guards(1).open::<u64>()?;
    /// let handle = table.handle()?;
    /// let key = handle.insert(7)?;
    /// let (_first, _second) = (handle.get(key)?, handle.get(key)?);
    /// let error = table.get_owned(key).unwrap_err();
    /// let words = "1 guard is in use; to have more, set Options::guards (at most 1022)";
    /// assert_eq!(error.to_string(), words);
    /// # Ok::<(), Box<dyn std::error::Error>>(())
    /// ```
    pub fn guards(self, guards: u32) -> Options {
        Options { guards, ..self }
    }

    /// Opens a table of this size, with empty slots.
    ///
    /// # Errors
    /// `Slots`, `Handles` or `Seats` if that number is out of its range, `NoMemory` if an
    /// allocation of the core fails.
    ///
    /// ```
    /// use yachtbanyan::{OpenError, Options};
    ///
    /// let options = Options::new(1).handles(64).readers(0); // 128 seats
    /// assert!(options.guards(1_024 - 128).open::<u64>().is_ok());
    /// let error = options.guards(1_025 - 128).open::<u64>().unwrap_err();
    /// assert_eq!(error, OpenError::Seats(1_025));
    /// assert!(error.to_string().starts_with("1025 seats, two for each handle and one for each"));
    /// ```
    pub fn open<T>(self) -> Result<Table<T>, OpenError> {
        if !(1..=MOST_SLOTS).contains(&self.slots) {
            return Err(OpenError::Slots(self.slots));
        }
        if !(1..=MOST_INSTALLING).contains(&self.handles) {
            return Err(OpenError::Handles(self.handles));
        }
        Table::open(&self)
    }

    /// Returns the number of workers of the core: one for each seat.
    pub(crate) fn workers(&self) -> Result<usize, OpenError> {
        let seats = 2 * u64::from(self.handles) + u64::from(self.readers) + u64::from(self.guards);
        if seats > u64::from(MOST_WORKERS) {
            return Err(OpenError::Seats(seats));
        }
        Ok(seats as usize)
    }
}
