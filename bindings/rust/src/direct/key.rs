//! Keys of lives.
use std::fmt;

/// The numbers of bits of a key: of the caller's kind, and of the slot.
const KIND_BITS: u32 = 4;
const SLOT_BITS: u32 = 20;

/// The largest kind of [`Key::to_bits`].
pub const MOST_KIND: u8 = (1 << KIND_BITS) - 1;

/// The name of one life of a slot: the slot, and a number that no other life of the slot has.
/// [`Slots::reserve`](crate::direct::Slots::reserve) returns it. Once the life is over, each call
/// by the key is refused.
///
/// ```
/// use yachtbanyan::direct::{Key, Slots};
///
/// let mut slots = Slots::<()>::new(64)?;
/// let key = slots.reserve()?;
/// let user_data: u64 = key.to_bits(3);
/// assert_eq!(Key::from_bits(user_data), (key, 3));
/// # Ok::<(), Box<dyn std::error::Error>>(())
/// ```
#[derive(Clone, Copy, Debug, PartialEq, Eq, PartialOrd, Ord, Hash)]
pub struct Key(u64);

impl Key {
    /// Returns the slot, from 0.
    #[inline]
    pub const fn slot(self) -> u32 {
        (self.0 >> KIND_BITS) as u32 & ((1 << SLOT_BITS) - 1)
    }

    /// Returns the number of the life, from 1 to 2^40 - 1.
    #[inline]
    pub const fn number(self) -> u64 {
        self.0 >> (KIND_BITS + SLOT_BITS)
    }

    /// Returns the key in 64 bits, for the `user_data` of a request, with a kind of the caller's
    /// own: the number in 40 bits, the slot in 20 and the kind in the lowest 4.
    ///
    /// # Panics
    ///
    /// If `kind` is above [`MOST_KIND`].
    #[inline]
    pub const fn to_bits(self, kind: u8) -> u64 {
        assert!(kind <= MOST_KIND, "a kind is at most 15");
        self.0 | kind as u64
    }

    /// Returns the key and the kind of these bits. Bits that [`Key::to_bits`] didn't return are
    /// those of some key, which may be the key of no life.
    #[inline]
    pub const fn from_bits(bits: u64) -> (Key, u8) {
        let kind = bits as u8 & MOST_KIND;
        (Key(bits ^ kind as u64), kind)
    }

    pub(super) const fn bits(self) -> u64 {
        self.0
    }
}

/// Prints the slot and the number, as `3#17`.
impl fmt::Display for Key {
    fn fmt(&self, f: &mut fmt::Formatter<'_>) -> fmt::Result {
        write!(f, "{}#{}", self.slot(), self.number())
    }
}
