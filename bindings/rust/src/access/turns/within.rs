//! Calls within calls, for tests: a function is called before a step of a call.
use std::cell::RefCell;

thread_local! {
    static WITHIN: RefCell<Option<Within>> = const { RefCell::new(None) };
}

/// What a test does within a call: after this number of steps, and after each one that follows,
/// this number of times.
struct Within {
    after: usize,
    times: usize,
    run: Box<dyn FnMut()>,
}

/// Does what a test asked for before the next step.
pub(super) fn within() {
    let Some(mut it) = WITHIN.take() else {
        return;
    };
    if it.after > 0 {
        it.after -= 1;
    } else if it.times > 0 {
        it.times -= 1;
        (it.run)();
    }
    WITHIN.set(Some(it));
}

/// Calls a function, and within it another one, as `Within` says. Returns the first one's result,
/// and whether it made enough steps.
pub(crate) fn meet<R>(
    after: usize,
    times: usize,
    run: impl FnMut() + 'static,
    call: impl FnOnce() -> R,
) -> (R, bool) {
    let run = Box::new(run);
    WITHIN.set(Some(Within { after, times, run }));
    let result = call();
    let left = WITHIN.take().map_or(0, |it| it.times);
    (result, left == 0)
}
