//! Atomics at which threads take turns.
use super::{step, with, Kind, NEXT};
use std::sync::atomic::Ordering::{self, SeqCst};

macro_rules! atomic {
    ($name:ident, $of:ident, $kind:ty) => {
        /// An atomic at which threads take turns.
        pub(crate) struct $name(std::sync::atomic::$of, u32);

        #[allow(dead_code)]
        impl $name {
            pub(crate) fn new(value: $kind) -> $name {
                NEXT.set(NEXT.get() + 1);
                $name(std::sync::atomic::$of::new(value), NEXT.get())
            }

            fn make(&self, kind: Kind, order: Ordering, new: impl FnOnce($kind) -> $kind) -> $kind {
                step();
                let old = self.0.load(SeqCst);
                let new = new(old);
                self.0.store(new, SeqCst);
                with(|it| it.note(self.1, (u64::from(old), u64::from(new)), kind, order));
                old
            }

            /// Returns the value. It is no step.
            pub(crate) fn peek(&self) -> $kind {
                self.0.load(SeqCst)
            }

            pub(crate) fn load(&self, order: Ordering) -> $kind {
                self.make(Kind::Load, order, |it| it)
            }

            pub(crate) fn store(&self, value: $kind, order: Ordering) {
                self.make(Kind::Store, order, |_| value);
            }

            pub(crate) fn swap(&self, value: $kind, order: Ordering) -> $kind {
                self.make(Kind::Exchange, order, |_| value)
            }

            pub(crate) fn fetch_add(&self, value: $kind, order: Ordering) -> $kind {
                self.make(Kind::Exchange, order, |it| it.wrapping_add(value))
            }

            pub(crate) fn fetch_sub(&self, value: $kind, order: Ordering) -> $kind {
                self.make(Kind::Exchange, order, |it| it.wrapping_sub(value))
            }

            pub(crate) fn fetch_or(&self, value: $kind, order: Ordering) -> $kind {
                self.make(Kind::Exchange, order, |it| it | value)
            }

            pub(crate) fn compare_exchange(
                &self,
                old: $kind,
                new: $kind,
                order: Ordering,
                failed: Ordering,
            ) -> Result<$kind, $kind> {
                step();
                let result = self.0.compare_exchange(old, new, SeqCst, SeqCst);
                let (kind, found, left, order) = match result {
                    Ok(found) => (Kind::Exchange, found, new, order),
                    Err(found) => (Kind::Load, found, found, failed),
                };
                with(|it| it.note(self.1, (u64::from(found), u64::from(left)), kind, order));
                result
            }

            pub(crate) fn compare_exchange_weak(
                &self,
                old: $kind,
                new: $kind,
                order: Ordering,
                failed: Ordering,
            ) -> Result<$kind, $kind> {
                self.compare_exchange(old, new, order, failed)
            }

            pub(crate) fn fetch_update(
                &self,
                order: Ordering,
                failed: Ordering,
                change: impl Fn($kind) -> Option<$kind>,
            ) -> Result<$kind, $kind> {
                let mut found = self.load(failed);
                loop {
                    let Some(new) = change(found) else {
                        return Err(found);
                    };
                    match self.compare_exchange(found, new, order, failed) {
                        Ok(old) => return Ok(old),
                        Err(now) => found = now,
                    }
                }
            }
        }
    };
}

atomic!(AtomicU32, AtomicU32, u32);
atomic!(AtomicU64, AtomicU64, u64);
