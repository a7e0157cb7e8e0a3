//! Iterating over the values of a table.
use crate::access::{Guard, Handle, Reader};
use crate::errors::{GetError, NoSeat};
use std::fmt;

/// An iterator over guards of the values of a table, in the order of the slots: what each slot had
/// when it was looked at.
///
/// A slot that can't be looked up for want of a seat is an error. That can be only if a guard or a
/// cached slot of the same handle or reader is alive.
#[must_use = "an iterator looks slots up as it is advanced"]
pub struct Iter<'r, T> {
    reader: &'r Reader<T>,
    slot: u32,
}

impl<'r, T> Iter<'r, T> {
    pub(crate) fn new(reader: &'r Reader<T>) -> Iter<'r, T> {
        Iter { reader, slot: 0 }
    }
}

impl<'r, T> Iterator for Iter<'r, T> {
    type Item = Result<Guard<'r, T>, NoSeat>;

    fn next(&mut self) -> Option<Self::Item> {
        while self.slot < self.reader.table().slots() {
            let found = self.reader.get_at(self.slot);
            self.slot += 1;
            match found {
                Ok(guard) => return Some(Ok(guard)),
                Err(GetError::NoSeat(error)) => return Some(Err(error)),
                Err(_) => {}
            }
        }
        None
    }
}

impl<T> fmt::Debug for Iter<'_, T> {
    fn fmt(&self, f: &mut fmt::Formatter<'_>) -> fmt::Result {
        f.debug_struct("Iter").field("slot", &self.slot).finish_non_exhaustive()
    }
}

/// Has handles and readers iterate over guards, and print their number of slots.
macro_rules! iterates {
    ($($by:ident)*) => { $(
        impl<'r, T> IntoIterator for &'r $by<T> {
            type Item = Result<Guard<'r, T>, NoSeat>;
            type IntoIter = Iter<'r, T>;

            fn into_iter(self) -> Iter<'r, T> {
                self.iter()
            }
        }

        impl<T> fmt::Debug for $by<T> {
            fn fmt(&self, f: &mut fmt::Formatter<'_>) -> fmt::Result {
                let mut it = f.debug_struct(stringify!($by));
                it.field("slots", &self.table().slots()).finish_non_exhaustive()
            }
        }
    )* };
}

iterates! { Handle Reader }
