//! The fate of an old value.

/// The fate of the value that a slot had before a call replaced or removed it.
///
/// ```
/// use yachtbanyan::Old;
///
/// assert_eq!(Old::Unused(7).unused(), Some(7));
/// assert_eq!(Old::<u64>::InUse.unused(), None);
/// ```
#[derive(Clone, Copy, Debug, PartialEq, Eq)]
pub enum Old<T> {
    /// The slot was empty.
    None,
    /// Nobody uses the value any more. Here it is.
    Unused(T),
    /// The value is still in use, by a guard or by a look-up under way. Its last user drops it.
    InUse,
}

impl<T> Old<T> {
    /// Returns the value, if nobody uses it any more.
    pub fn unused(self) -> Option<T> {
        match self {
            Old::Unused(value) => Some(value),
            Old::None | Old::InUse => None,
        }
    }

    /// Checks whether the slot was empty.
    pub fn is_none(&self) -> bool {
        matches!(self, Old::None)
    }

    pub(crate) fn map<U>(self, f: impl FnOnce(T) -> U) -> Old<U> {
        match self {
            Old::None => Old::None,
            Old::Unused(value) => Old::Unused(f(value)),
            Old::InUse => Old::InUse,
        }
    }
}
