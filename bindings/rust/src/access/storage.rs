//! The boxes of values.
use std::cell::Cell;
use std::mem::MaybeUninit;

/// The box of the value that a handle returned last, without that value. The handle's next
/// installation uses it, so one that follows a removal allocates nothing.
pub(super) type Spare<T> = Cell<Option<Box<MaybeUninit<T>>>>;

/// Puts a value into the spare box, if there is one, and else into a new one.
#[inline]
pub(super) fn put<T>(spare: &Spare<T>, value: T) -> Box<T> {
    let Some(mut room) = spare.take() else {
        return Box::new(value);
    };
    room.write(value);
    // SAFETY: the value was just written.
    unsafe { room.assume_init() }
}

/// Takes a value out of its box, which becomes the spare one.
#[inline]
pub(super) fn take<T>(spare: &Spare<T>, value: Box<T>) -> T {
    let address = Box::into_raw(value);
    // SAFETY: the address is that of a box with a value, which is read once: the spare box doesn't
    // drop it.
    let (value, room) = unsafe { (address.read(), Box::from_raw(address.cast())) };
    spare.set(Some(room));
    value
}
