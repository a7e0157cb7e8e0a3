//! The same table on arc-swap, with two kinds of look-up, and on crossbeam-epoch.
use crate::table::{read_entry, File, Line, Shape, Table, FILE};
use arc_swap::{ArcSwapOption, Cache};
use crossbeam_epoch::{self as epoch, Atomic, Owned};
use std::sync::atomic::Ordering::SeqCst;
use std::sync::Arc;

/// A table on arc-swap. With `FULL` its look-up is `load_full`: an `Arc` of its own, which lives as
/// long as its user needs it, as a hold does. Otherwise it is `load`: a guard. A thread has eight
/// of them at once; a further one costs as much as `load_full`.
pub struct Swaps<const FULL: bool>(Vec<Line<ArcSwapOption<File>>>);

impl<const FULL: bool> Swaps<FULL> {
    #[inline(always)]
    fn with_entry(&self, slot: usize, read: impl FnOnce(u8)) {
        let slot = &self.0[slot].0;
        if FULL {
            if let Some(file) = slot.load_full() {
                read(file.entry);
            }
        } else if let Some(file) = &*slot.load() {
            read(file.entry);
        }
    }
}

impl<const FULL: bool> Table for Swaps<FULL> {
    type Pass = ();

    fn open(shape: Shape) -> Self {
        let file = |n| (n < shape.full).then(|| Arc::new(FILE));
        let line = |n| Line(ArcSwapOption::new(file(n)));
        Swaps((0..shape.slots).map(line).collect())
    }

    fn pass(&self, _: usize) {}

    fn look(&self, _: &mut (), slot: usize) -> u64 {
        let mut found = 0;
        self.with_entry(slot, |entry| found = u64::from(entry));
        found
    }

    fn read(&self, _: &mut (), slot: usize, catalogue: &[Vec<u8>], into: &mut Vec<u8>) {
        self.with_entry(slot, |entry| read_entry(catalogue, entry, into));
    }

    fn put(&self, _: &mut (), slot: usize, file: File) {
        drop(self.0[slot].0.swap(Some(Arc::new(file))));
    }

    fn put_any(&self, _: &mut (), file: File) -> Option<usize> {
        let file = Some(Arc::new(file));
        let try_slot = |slot: &ArcSwapOption<File>| {
            slot.load().is_none()
                && slot
                    .compare_and_swap(&None::<Arc<File>>, file.clone())
                    .is_none()
        };
        self.0.iter().position(|it| try_slot(&it.0))
    }

    fn take(&self, _: &mut (), slot: usize) {
        drop(self.0[slot].0.swap(None));
    }
}

/// A place on arc-swap that each thread reads again and again.
pub struct CachedSwap(Arc<ArcSwapOption<File>>);

impl Table for CachedSwap {
    type Pass = Cache<Arc<ArcSwapOption<File>>, Option<Arc<File>>>;

    fn open(_: Shape) -> CachedSwap {
        CachedSwap(Arc::new(ArcSwapOption::from_pointee(FILE)))
    }

    fn pass(&self, _: usize) -> Self::Pass {
        Cache::new(self.0.clone())
    }

    fn look(&self, cache: &mut Self::Pass, _: usize) -> u64 {
        let file = cache.load().as_ref();
        file.map_or(0, |file| u64::from(file.entry))
    }
}

/// A table whose look-up is a load under a pinned epoch.
pub struct Epochs(Vec<Line<Atomic<File>>>);

impl Table for Epochs {
    type Pass = ();

    fn open(shape: Shape) -> Epochs {
        let file = |n| {
            if n < shape.full {
                Atomic::new(FILE)
            } else {
                Atomic::null()
            }
        };
        Epochs((0..shape.slots).map(|n| Line(file(n))).collect())
    }

    fn pass(&self, _: usize) {}

    fn look(&self, _: &mut (), slot: usize) -> u64 {
        let guard = epoch::pin();
        let file = self.0[slot].0.load(SeqCst, &guard);
        unsafe { file.as_ref() }.map_or(0, |file| u64::from(file.entry))
    }

    fn read(&self, _: &mut (), slot: usize, catalogue: &[Vec<u8>], into: &mut Vec<u8>) {
        let guard = epoch::pin();
        if let Some(file) = unsafe { self.0[slot].0.load(SeqCst, &guard).as_ref() } {
            read_entry(catalogue, file.entry, into);
        }
    }

    fn put(&self, _: &mut (), slot: usize, file: File) {
        let guard = epoch::pin();
        let old = self.0[slot].0.swap(Owned::new(file), SeqCst, &guard);
        if !old.is_null() {
            unsafe { guard.defer_destroy(old) };
        }
    }

    fn put_any(&self, _: &mut (), file: File) -> Option<usize> {
        let guard = epoch::pin();
        let mut file = Owned::new(file);
        for (n, Line(slot)) in self.0.iter().enumerate() {
            if !slot.load(SeqCst, &guard).is_null() {
                continue;
            }
            match slot.compare_exchange(epoch::Shared::null(), file, SeqCst, SeqCst, &guard) {
                Ok(_) => return Some(n),
                Err(refused) => file = refused.new,
            }
        }
        None
    }

    fn take(&self, _: &mut (), slot: usize) {
        let guard = epoch::pin();
        let old = self.0[slot].0.swap(epoch::Shared::null(), SeqCst, &guard);
        if !old.is_null() {
            unsafe { guard.defer_destroy(old) };
        }
    }
}

impl Drop for Epochs {
    fn drop(&mut self) {
        for line in &self.0 {
            let file = line.0.swap(epoch::Shared::null(), SeqCst, unsafe {
                epoch::unprotected()
            });
            if !file.is_null() {
                drop(unsafe { file.into_owned() });
            }
        }
    }
}
