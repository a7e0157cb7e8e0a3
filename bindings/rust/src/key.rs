//! Keys of values.
use crate::access::MOST_SLOTS;
use std::fmt;
use std::num::NonZeroU64;

/// The number of bits that a slot has in those of a key: one below 4,096, and another one. The
/// lowest bit of the key says which it is.
const NARROW_SLOT: u32 = 12;
const WIDE_SLOT: u32 = MOST_SLOTS.ilog2();

/// The name of one value in a table: its slot, and a number that no other value of the table has or
/// will have. [`Handle::insert`](crate::Handle::insert) returns it, and so does
/// [`Guard::key`](crate::Guard::key).
///
/// The key of a value that was replaced or removed is *stale*: a call with it returns an error,
/// whatever the slot has now. So nobody finds, replaces or removes another value than the one that
/// was meant.
///
/// ```
/// use yachtbanyan::{GetError, Table};
///
/// let table = Table::<&str>::with_slots(1)?;
/// let handle = table.handle()?;
/// let first = handle.insert("first")?;
/// handle.remove(first)?;
/// let second = handle.insert("second")?;
/// assert_eq!((first.slot(), second.slot()), (0, 0));
/// assert_eq!(handle.get(first).unwrap_err(), GetError::Stale { slot: 0 });
/// assert!(handle.remove(first).is_err() && *handle.get(second)? == "second");
/// # Ok::<(), Box<dyn std::error::Error>>(())
/// ```
///
/// A key doesn't name its table. In another one it is stale, or happens to be the key of some
/// value: a call finds that value, safely. The first keys of two tables are equal, so a key in the
/// wrong table often finds a value.
///
/// Keys are ordered by slot. The order of numbers means nothing. Each handle has 2^64 numbers
/// divided by the number of handles. If a handle uses them up, its further values have no number,
/// and the keys of those are stale from the beginning. No number is used again.
#[derive(Clone, Copy, Debug, PartialEq, Eq, PartialOrd, Ord, Hash)]
pub struct Key {
    slot: u32,
    number: Option<NonZeroU64>,
}

impl Key {
    pub(crate) fn new(slot: u32, number: Option<NonZeroU64>) -> Key {
        Key { slot, number }
    }

    // Returns the number, or 0 if there is none.
    #[inline]
    pub(crate) fn bits_of_number(self) -> u64 {
        self.number.map_or(0, NonZeroU64::get)
    }

    /// Returns the slot of the value.
    #[inline]
    pub fn slot(self) -> u32 {
        self.slot
    }

    /// Returns the key in 64 bits, as for the data of `epoll` or `io_uring`: a slot below 4,096 in
    /// 12 of them and the number in 51, or a slot in 20 and the number in 43. Returns `None` if the
    /// number has more bits. A handle installs 2^51 values, or 2^43, divided by the number of
    /// handles before that.
    ///
    /// ```
    /// use yachtbanyan::{Key, Table};
    ///
    /// let table = Table::<u64>::with_slots(4)?;
    /// let key = table.insert(7)?;
    /// let data: u64 = key.to_bits().ok_or("the key has more bits")?;
    /// assert_eq!(Key::from_bits(data), key);
    /// # Ok::<(), Box<dyn std::error::Error>>(())
    /// ```
    pub fn to_bits(self) -> Option<u64> {
        let (number, slot) = (self.bits_of_number(), u64::from(self.slot));
        let is_wide = slot >> NARROW_SLOT > 0;
        let width = 1 + if is_wide { WIDE_SLOT } else { NARROW_SLOT };
        let bits = number << width | slot << 1 | u64::from(is_wide);
        (number >> (64 - width) == 0).then_some(bits)
    }

    /// Returns the key of these bits. Bits that [`Key::to_bits`] didn't return are those of some
    /// key, which is stale, or finds a value, or has a slot that the table hasn't. Those of the
    /// number 0, as 0 itself, are a key of no value.
    ///
    /// ```
    /// use yachtbanyan::{GetError, Key, Table};
    ///
    /// let table = Table::<u64>::with_slots(1)?;
    /// let handle = table.handle()?;
    /// handle.insert(7)?;
    /// let none = Key::from_bits(0);
    /// assert_eq!(handle.get(none).unwrap_err(), GetError::Stale { slot: 0 });
    /// # Ok::<(), Box<dyn std::error::Error>>(())
    /// ```
    pub fn from_bits(bits: u64) -> Key {
        let width = if bits % 2 == 1 { WIDE_SLOT } else { NARROW_SLOT };
        let slot = (bits >> 1) as u32 & ((1 << width) - 1);
        Key::new(slot, NonZeroU64::new(bits >> (width + 1)))
    }

    /// Returns the key in the lowest `width` bits of 64, which leaves the others to the caller, as
    /// for the kind of a request: [`Key::from_bits_below`] ignores them. Returns `None` if the key
    /// has more bits. With a width of 60 a handle installs 2^47 values at slots below 4,096, or
    /// 2^39 at others, divided by the number of handles before that.
    ///
    /// ```
    /// use yachtbanyan::{Key, Table};
    ///
    /// const WRITE: u64 = 2;
    ///
    /// let table = Table::<u64>::with_slots(4)?;
    /// let key = table.insert(7)?;
    /// let data = key.to_bits_below(60).ok_or("the key has more bits")? | WRITE << 60;
    /// assert_eq!((Key::from_bits_below(data, 60), data >> 60), (key, WRITE));
    /// # Ok::<(), Box<dyn std::error::Error>>(())
    /// ```
    pub fn to_bits_below(self, width: u32) -> Option<u64> {
        self.to_bits().filter(|&bits| bits & !low(width) == 0)
    }

    /// Returns the key of the lowest `width` of these bits, as [`Key::from_bits`].
    pub fn from_bits_below(bits: u64, width: u32) -> Key {
        Key::from_bits(bits & low(width))
    }
}

/// Returns the lowest `width` bits of 64.
fn low(width: u32) -> u64 {
    1u64.checked_shl(width).map_or(u64::MAX, |bit| bit - 1)
}

/// Prints the slot and the number, as `3#17`.
impl fmt::Display for Key {
    fn fmt(&self, f: &mut fmt::Formatter<'_>) -> fmt::Result {
        write!(f, "{}#{}", self.slot, self.bits_of_number())
    }
}

#[cfg(test)]
mod tests {
    use super::*;

    /// The bits of the largest number that a slot leaves room for are all set, but for the lowest
    /// one, which is 0 for a slot below 4,096. The next number has no bits.
    #[test]
    fn the_bits_of_a_key_at_the_limits() {
        let rows = [(4_095, 1 << 51, u64::MAX - 1), (MOST_SLOTS - 1, 1 << 43, u64::MAX)];
        for (slot, past, bits) in rows {
            let last = Key::new(slot, NonZeroU64::new(past - 1));
            assert_eq!((last.to_bits(), Key::from_bits(bits)), (Some(bits), last));
            assert_eq!(Key::new(slot, NonZeroU64::new(past)).to_bits(), None);
        }
        assert_eq!(Key::new(4_096, NonZeroU64::new(1)).to_bits(), Some(1 << 21 | 4_096 << 1 | 1));
        assert_eq!(Key::new(1, NonZeroU64::new(1)).to_bits(), Some(1 << 13 | 1 << 1));
    }
}
