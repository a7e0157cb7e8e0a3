//! Cached slots: what they find, when they drop a value, and which seats they take. Expected
//! numbers are worked out by hand. One thread publishes versions, and others never find an older
//! one than they have seen published (`YACHTBANYAN_ROUNDS` sets the rounds).
use std::sync::atomic::Ordering::{Acquire, Relaxed, Release, SeqCst};
use std::sync::atomic::{AtomicBool, AtomicU64, AtomicUsize, Ordering};
use std::sync::Arc;
use yachtbanyan::{GetError, NoSeat, NoSlot, Old, Options, Table};

/// A value that counts its drops.
struct Counted(u32, Arc<AtomicUsize>);

impl Drop for Counted {
    fn drop(&mut self) {
        self.1.fetch_add(1, SeqCst);
    }
}

/// Opens a table of one slot, with these numbers of readers and guards.
fn opened<T>(readers: u32, guards: u32) -> Table<T> {
    Options::new(1).handles(1).readers(readers).guards(guards).open().unwrap()
}

#[test]
fn a_cached_slot_has_what_the_table_has() {
    let (table, drops) = (opened::<Counted>(1, 1), Arc::new(AtomicUsize::new(0)));
    let value = |number| Counted(number, drops.clone());
    let (handle, reader) = (table.handle().unwrap(), table.reader().unwrap());
    let (mut cached, mut owned) = (reader.cached(0).unwrap(), table.cached(0).unwrap());
    let mut both = || (cached.get().map(|it| it.0), owned.get().map(|it| it.0));
    assert_eq!(both(), (None, None));
    handle.insert(value(1)).ok().unwrap();
    assert_eq!((both(), both()), ((Some(1), Some(1)), (Some(1), Some(1))));
    assert!(matches!(handle.replace_at(0, value(2)).ok().unwrap().1, Old::InUse));
    assert_eq!(drops.load(SeqCst), 0);
    // the second one is the last user of the first value
    assert_eq!((both(), drops.load(SeqCst)), ((Some(2), Some(2)), 1));
    assert!(matches!(handle.remove_at(0), Ok(Old::InUse)));
    assert_eq!((both(), drops.load(SeqCst)), ((None, None), 2));
    handle.insert(value(3)).ok().unwrap();
    assert_eq!(both(), (Some(3), Some(3)));
    // a value that is kept goes with the last of them
    assert!(matches!(handle.remove_at(0), Ok(Old::InUse)));
    drop(cached);
    assert_eq!(drops.load(SeqCst), 2);
    drop(owned);
    assert_eq!(drops.load(SeqCst), 3);
}

#[test]
fn a_cached_slot_keeps_one_seat() {
    let table = opened(1, 1);
    let (handle, reader) = (table.handle().unwrap(), table.reader().unwrap());
    handle.insert(7).unwrap();
    let far = GetError::NoSlot(NoSlot { slot: 1, slots: 1 });
    assert_eq!(reader.cached(1).unwrap_err(), far);
    assert_eq!(table.cached(1).unwrap_err(), far);
    assert_eq!(handle.cached(1).unwrap_err(), far);
    // the reader's own seat, and the only one for guards
    let (mut one, mut other) = (reader.cached(0).unwrap(), reader.cached(0).unwrap());
    let none = GetError::NoSeat(NoSeat::Guard { in_use: 1 });
    assert_eq!(reader.cached(0).unwrap_err(), none);
    assert_eq!(table.cached(0).unwrap_err(), none);
    assert_eq!(reader.get_at(0).unwrap_err(), none);
    // `get` has its seat, also where the slot was empty
    for value in [8, 9] {
        handle.remove_at(0).unwrap();
        assert_eq!((one.get(), other.get()), (None, None));
        handle.insert(value).unwrap();
        assert_eq!((one.get(), other.get()), (Some(&value), Some(&value)));
        assert_eq!(reader.get_at(0).unwrap_err(), none);
    }
    drop(one);
    assert_eq!(*reader.get_at(0).unwrap(), 9);
    assert_eq!(table.get_owned_at(0).unwrap_err(), none);
    drop(other);
    assert_eq!(*table.get_owned_at(0).unwrap(), 9);
}

#[test]
fn a_forgotten_cached_slot_ends_with_its_reader() {
    let (table, drops) = (opened(1, 1), Arc::new(AtomicUsize::new(0)));
    let handle = table.handle().unwrap();
    handle.insert(Counted(1, drops.clone())).ok().unwrap();
    let reader = table.reader().unwrap();
    let (mut holds, empty) = (reader.cached(0).unwrap(), reader.cached(0).unwrap());
    assert!(holds.get().is_some());
    std::mem::forget((holds, empty));
    assert!(matches!(handle.remove_at(0), Ok(Old::InUse)));
    assert_eq!(drops.load(SeqCst), 0);
    drop(reader);
    assert_eq!(drops.load(SeqCst), 1);
    assert!(table.reader().is_ok() && table.cached(0).is_ok());
}

#[test]
fn a_guard_says_whether_it_is_current() {
    let table = Options::new(2).handles(1).guards(1).open().unwrap();
    let handle = table.handle().unwrap();
    assert!((0..2).all(|slot| handle.replace_at(slot, slot).is_ok()));
    let (mut guard, mut owned) = (handle.get_at(0).unwrap(), table.get_owned_at(1).unwrap());
    assert!(guard.is_current() && owned.is_current());
    handle.replace_at(0, 2).unwrap();
    assert!(!guard.is_current() && owned.is_current());
    handle.remove_at(1).unwrap();
    assert!(!guard.is_current() && !owned.is_current());
    handle.replace_at(1, 3).unwrap();
    assert!(!guard.is_current() && !owned.is_current());
    assert_eq!((*guard, *owned), (0, 1));
}

/// A value that panics as it is dropped.
struct Panics(u32);

impl Drop for Panics {
    fn drop(&mut self) {
        assert!(self.0 != 1, "the first one is dropped");
    }
}

#[test]
fn a_panic_leaves_a_cached_slot_usable() {
    let table = opened::<Panics>(0, 1);
    table.insert(Panics(1)).ok().unwrap();
    let mut cached = table.cached(0).unwrap();
    assert_eq!(cached.get().unwrap().0, 1);
    assert!(matches!(table.replace_at(0, Panics(2)).ok().unwrap().1, Old::InUse));
    let look = std::panic::AssertUnwindSafe(|| cached.get().map(|it| it.0));
    assert!(std::panic::catch_unwind(look).is_err());
    assert_eq!(cached.get().unwrap().0, 2);
    drop(cached);
    assert!(table.cached(0).is_ok());
}

#[test]
fn no_older_version_is_found_than_is_published() {
    let rounds = std::env::var("YACHTBANYAN_ROUNDS").map_or(20_000, |it| it.parse().unwrap());
    let (table, published) = (opened(1, 2), AtomicU64::new(0));
    let (ends, changes) = (AtomicBool::new(false), AtomicU64::new(0));
    table.insert(0_u64).unwrap();
    let follow = |get: &mut dyn FnMut() -> u64, order: Ordering| {
        let (mut last, mut seen) = (0, 0);
        while !ends.load(Relaxed) || last < rounds {
            let least = published.load(order).max(last);
            last = get();
            assert!(last >= least, "version {last} is found after {least}");
            seen += u64::from(last > least);
        }
        changes.fetch_add(seen, SeqCst);
    };
    std::thread::scope(|scope| {
        let (reader, mut owned) = (table.reader().unwrap(), table.cached(0).unwrap());
        let follow = &follow;
        scope.spawn(move || {
            let mut cached = reader.cached(0).unwrap();
            follow(&mut || *cached.get().unwrap(), Acquire);
        });
        scope.spawn(move || follow(&mut || *owned.get().unwrap(), SeqCst));
        let handle = table.handle().unwrap();
        for version in 1..=rounds {
            handle.replace_at(0, version).unwrap();
            published.store(version, Release);
        }
        ends.store(true, Relaxed);
    });
    assert_eq!(*table.get_owned_at(0).unwrap(), rounds);
    println!("{} versions were found before they were published", changes.into_inner());
}
