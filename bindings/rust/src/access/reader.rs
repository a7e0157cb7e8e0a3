//! Readers.
use super::core::{self, Outcome};
use super::guard::Guard;
use super::seats::{Installer, Place};
use super::table::Table;
use super::values::{add_unused, drop_unused, frees, At, Held, Values, Wanted};
use crate::errors::{GetError, NoSeat};
use crate::iter::Iter;
use crate::key::Key;
use std::cell::Cell;
use std::mem::MaybeUninit;

/// A seat that looks slots up, for one thread at a time. It is `Send`, but not `Sync`.
///
/// Its first living guard uses the reader's own seat. Each further one takes a guard's seat of the
/// table, and returns it. So a guard takes the same time whatever the number of guards.
///
/// ```
/// use yachtbanyan::Table;
///
/// let table = Table::<String>::with_slots(8)?;
/// let handle = table.handle()?;
/// handle.replace_at(3, "three".to_string())?;
///
/// let reader = table.reader()?;
/// let thread = std::thread::spawn(move || reader.get_at(3).map(|it| it.len()));
/// assert_eq!(thread.join().unwrap(), Ok(5));
/// # Ok::<(), Box<dyn std::error::Error>>(())
/// ```
#[must_use = "a reader is in use until it is dropped"]
pub struct Reader<T> {
    table: Table<T>,
    /// This reader's own seat, and whether that holds a value.
    own: Place,
    is_busy: Cell<bool>,
    /// The first seat in the list of its other guards' seats.
    others: Cell<Option<u32>>,
    /// The handle's seat that installs, if this reader is that of a handle.
    pub(super) installer: Option<Installer>,
}

// SAFETY: the thread that gets the reader may read values (`T: Sync`) and drop them (`T: Send`). It
// has the reader's seats alone (one user): a guard that is alive borrows the reader, which stays
// where it is until then.
unsafe impl<T: Send + Sync> Send for Reader<T> {}

impl<T> Reader<T> {
    /// Makes a reader of a seat that the caller claimed, and of the seat that installs if it is the
    /// reader of a handle.
    pub(super) fn new(table: Table<T>, own: Place, installer: Option<Installer>) -> Reader<T> {
        Reader { table, own, is_busy: Cell::new(false), others: Cell::new(None), installer }
    }

    /// Returns a guard of the value at a slot. The look-up may drop another value: one that it saw
    /// first, and that others replaced or removed while it ran. So a lock that the drop of a value
    /// takes must not be held here.
    ///
    /// # Errors
    /// `Empty` if the slot has no value, `NoSlot` if the table has no such slot, `NoSeat` if a
    /// guard or a cached slot of this reader is alive already and the table has no seat for
    /// another.
    #[inline]
    pub fn get_at(&self, slot: u32) -> Result<Guard<'_, T>, GetError> {
        self.find(At(slot))
    }

    /// Returns a guard of the value with this key. It is a look-up, as [`Reader::get_at`].
    ///
    /// # Errors
    /// `Stale` if the slot has another value, and as of [`Reader::get_at`].
    #[inline]
    pub fn get(&self, key: Key) -> Result<Guard<'_, T>, GetError> {
        self.find(key)
    }

    // Makes the guard of a look-up that finds a value and frees none. All else is done by
    // `find_by_another` and `finish`. They aren't inlined, and a guard of theirs is moved, so that
    // this one stays in registers.
    #[inline(always)]
    fn find(&self, wanted: impl Wanted) -> Result<Guard<'_, T>, GetError> {
        if self.is_busy.get() {
            return Ok(self.find_by_another(wanted)?.moved());
        }
        let mut out = MaybeUninit::uninit();
        // SAFETY: the seat is this reader's (one user), and no guard uses it.
        let (answer, out) = unsafe { self.values().look(self.own.core, wanted, &mut out) };
        if answer != core::DONE || frees(out) {
            return Ok(self.finish(self.own, wanted.slot(), answer, out)?.moved());
        }
        self.is_busy.set(true);
        Ok(Guard::new(self, Held::of(out), self.own, wanted.slot()))
    }

    // Looks up by a seat of the table.
    #[inline(never)]
    fn find_by_another(&self, wanted: impl Wanted) -> Result<Guard<'_, T>, GetError> {
        let (values, mut out) = (self.values(), MaybeUninit::uninit());
        let place = values.seats.claim_guard().map_err(GetError::NoSeat)?;
        // SAFETY: the seat is this call's (one user).
        let (answer, out) = unsafe { values.look(place.core, wanted, &mut out) };
        self.finish(place, wanted.slot(), answer, out)
    }

    // Turns the answer and the outcome of a look-up into a guard, which has the look-up's seat, or
    // into an error. Drops what the look-up was the last to use.
    #[inline(never)]
    fn finish(
        &self,
        place: Place,
        slot: u32,
        answer: i64,
        out: &Outcome,
    ) -> Result<Guard<'_, T>, GetError> {
        let mut unused = Vec::new();
        // SAFETY: the core closed these files in the look-up (`found`).
        unsafe { add_unused::<T>(&mut unused, out) };
        let guard = if answer == core::DONE {
            self.note(place.number);
            Ok(Guard::new(self, Held::of(out), place, slot))
        } else {
            self.end(place.number);
            Err(self.values().get_error(answer, slot))
        };
        drop_unused(unused);
        guard
    }

    /// Returns an iterator over guards of the values: what each slot had when it was looked at.
    /// Slots that are empty then are left out. Each step is a look-up, as [`Reader::get_at`].
    ///
    /// ```
    /// use yachtbanyan::Table;
    ///
    /// let table = Table::<&str>::with_slots(4)?;
    /// let handle = table.handle()?;
    /// handle.replace_at(1, "one")?;
    /// handle.replace_at(3, "three")?;
    /// let mut seen = Vec::new();
    /// for guard in handle.iter() {
    ///     let guard = guard?;
    ///     seen.push((guard.slot(), *guard));
    /// }
    /// assert_eq!(seen, [(1, "one"), (3, "three")]);
    /// # Ok::<(), Box<dyn std::error::Error>>(())
    /// ```
    pub fn iter(&self) -> Iter<'_, T> {
        Iter::new(self)
    }

    /// Returns the table.
    #[inline]
    pub fn table(&self) -> &Table<T> {
        &self.table
    }

    #[inline]
    pub(super) fn values(&self) -> &Values<T> {
        self.table.values()
    }

    /// Takes the reader's own seat if it is free, or else a guard's seat of the table.
    pub(super) fn take_seat(&self) -> Result<Place, NoSeat> {
        let place = match self.is_busy.get() {
            true => self.values().seats.claim_guard()?,
            false => self.own,
        };
        self.note(place.number);
        Ok(place)
    }

    /// Notes that a guard or a cached slot has a seat.
    fn note(&self, number: u32) {
        if number == self.own.number {
            self.is_busy.set(true);
            return;
        }
        let seats = &self.values().seats.looking;
        let first = self.others.replace(Some(number));
        seats[number as usize].next.set(first);
        if let Some(first) = first {
            seats[first as usize].previous.set(Some(number));
        }
    }

    /// Gives a seat back that no guard has got.
    fn end(&self, number: u32) {
        if number != self.own.number {
            self.values().seats.give_back(number);
        }
    }

    /// Gives the seat of a guard or a cached slot back, which holds no value any more.
    #[inline]
    pub(super) fn give_back(&self, number: u32) {
        if number == self.own.number {
            self.is_busy.set(false);
        } else {
            self.give_other_back(number);
        }
    }

    // Gives the seat of a guard back, which isn't the reader's own.
    #[inline(never)]
    fn give_other_back(&self, number: u32) {
        let seats = &self.values().seats;
        let looking = &seats.looking;
        let seat = &looking[number as usize];
        let (next, previous) = (seat.next.take(), seat.previous.take());
        match previous {
            Some(it) => looking[it as usize].next.set(next),
            None => self.others.set(next),
        }
        if let Some(it) = next {
            looking[it as usize].previous.set(previous);
        }
        seats.give_back(number);
    }

    /// Ends the hold of a seat whose guard was forgotten. Returns the value if this closed it.
    fn end_forgotten(&self, number: u32) -> Option<Box<T>> {
        let values = self.values();
        let core = values.seats.looking[number as usize].core();
        // SAFETY: guards and cached slots borrow the reader, so none is alive: that of this seat
        // was forgotten, and nobody has a reference to its value, if it holds one.
        let freed = unsafe { values.release(core, std::ptr::null()) };
        self.give_back(number);
        freed
    }
}

impl<T> Drop for Reader<T> {
    fn drop(&mut self) {
        let mut freed: Vec<Box<T>> = Vec::new();
        while let Some(number) = self.others.get() {
            freed.extend(self.end_forgotten(number));
        }
        if self.is_busy.get() {
            freed.extend(self.end_forgotten(self.own.number));
        }
        self.values().seats.give_back(self.own.number);
        // The seats are back. The values are dropped with the list, one after another, even if the
        // drop of one panics.
    }
}
