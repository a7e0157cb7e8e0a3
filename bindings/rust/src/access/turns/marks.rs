//! Moments of a run at which a condition holds, for threads that ask whether there was one.
use super::{go_on, switch, with, MOST};
use std::cell::{Cell, RefCell};

/// A condition of the atomics' values.
type Watch = Box<dyn Fn() -> bool>;

thread_local! {
    static WATCH: RefCell<Option<Watch>> = const { RefCell::new(None) };
    static MARKS: Cell<[bool; MOST]> = const { Cell::new([false; MOST]) };
}

fn holds() -> bool {
    WATCH.with_borrow(|it| it.as_ref().is_some_and(|it| it()))
}

/// Looks at a condition after each change of an atomic, in this run.
pub(crate) fn watch(condition: impl Fn() -> bool + 'static) {
    WATCH.set(Some(Box::new(condition)));
}

/// Returns whether the condition held at a moment since the thread began anew, and now begins anew
/// if `again`: other threads may go first.
pub(crate) fn marked(again: bool) -> bool {
    if again {
        switch();
        go_on();
    }
    let now = with(|it| it.now).unwrap_or(0);
    let mut marks = MARKS.get();
    let was = marks[now];
    marks[now] = again && holds();
    MARKS.set(marks);
    was
}

pub(super) fn forget() {
    WATCH.take();
    MARKS.set([false; MOST]);
}

pub(super) fn look() {
    if holds() {
        MARKS.set([true; MOST]);
    }
}

/// Returns the marks in one number.
pub(super) fn in_one() -> u64 {
    MARKS.get().iter().fold(0, |all, it| 2 * all + u64::from(*it))
}
