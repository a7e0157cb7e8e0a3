//! Each value is dropped once, by its last user. Expected numbers are worked out by hand.
use std::sync::atomic::{AtomicUsize, Ordering::SeqCst};
use std::sync::Arc;
use std::thread::ThreadId;
use yachtbanyan::{GetError, Guard, Handle, Key, NoSeat, NoSlot, Old, OpenError, Options};
use yachtbanyan::{OwnedGuard, Reason, Refused, RemoveError, Table, MOST_SLOTS};

/// Counts how often it was dropped, and notes where.
#[derive(Debug)]
struct Noted {
    number: u32,
    drops: Arc<AtomicUsize>,
    by: Arc<std::sync::Mutex<Option<ThreadId>>>,
}

impl Drop for Noted {
    fn drop(&mut self) {
        self.drops.fetch_add(1, SeqCst);
        *self.by.lock().unwrap() = Some(std::thread::current().id());
    }
}

#[derive(Default, Clone)]
struct Notes {
    drops: Arc<AtomicUsize>,
    by: Arc<std::sync::Mutex<Option<ThreadId>>>,
}

impl Notes {
    fn value(&self, number: u32) -> Noted {
        Noted { number, drops: self.drops.clone(), by: self.by.clone() }
    }
    fn drops(&self) -> usize {
        self.drops.load(SeqCst)
    }
}

/// Opens a table of these numbers of slots, handles, readers and guards.
fn opened<T>([slots, handles, readers, guards]: [u32; 4]) -> Table<T> {
    let options = Options::new(slots).handles(handles).readers(readers);
    options.guards(guards).open().unwrap()
}

/// Returns what became of a value that was replaced.
fn old<T>(replaced: Result<(Key, Old<T>), Refused<T>>) -> Old<T> {
    replaced.unwrap().1
}

#[test]
fn a_handle_uses_the_storage_of_a_removed_value_again() {
    let notes = Notes::default();
    let table = Options::new(4).handles(1).open().unwrap();
    let handle = table.handle().unwrap();
    let insert = |number| {
        let slot = handle.insert(notes.value(number)).unwrap().slot();
        let guard = handle.get_at(slot).unwrap();
        assert_eq!(guard.number, number);
        (slot, &raw const *guard)
    };
    let (slot, storage) = insert(1);
    let removed = handle.remove_at(slot).unwrap().unused().unwrap();
    let (slot, again) = insert(2);
    assert!(storage == again && removed.number == 1 && notes.drops() == 0);
    // so does one that replaces a value, or whose value comes back
    let replaced = handle.replace_at(slot, notes.value(3)).unwrap().1.unused();
    assert!(handle.replace_at(4, notes.value(4)).is_err() && notes.drops() == 1);
    assert_eq!(replaced.map(|it| it.number), Some(2));
    assert_eq!(insert(5).1, storage);
    drop((removed, handle, table));
    assert_eq!(notes.drops(), 5);
}

#[test]
fn a_replaced_value_is_dropped_by_its_last_guard() {
    let notes = Notes::default();
    let table = Options::new(4).handles(2).guards(2).open().unwrap();
    let (a, b) = (table.handle().unwrap(), table.handle().unwrap());
    assert!(a.replace_at(3, notes.value(7)).unwrap().1.is_none());
    let (first, second) = (a.get_at(3).unwrap(), b.get_at(3).unwrap());
    assert!(matches!(old(b.replace_at(3, notes.value(8))), Old::InUse));
    assert_eq!((first.number, second.number, notes.drops()), (7, 7, 0));
    drop(first);
    assert_eq!((second.number, notes.drops()), (7, 0));
    drop(second);
    assert_eq!(notes.drops(), 1);
    assert_eq!(a.get_at(3).unwrap().number, 8);
    let old = a.remove_at(3).unwrap().unused();
    assert_eq!(old.map(|it| it.number), Some(8));
    assert_eq!(notes.drops(), 2);
}

#[test]
fn the_last_guard_drops_it_on_its_own_thread() {
    let notes = Notes::default();
    let table = Table::with_slots(1).unwrap();
    let handle = table.handle().unwrap();
    handle.replace_at(0, notes.value(1)).unwrap();
    let guard = table.get_owned_at(0).unwrap();
    assert!(matches!(handle.remove_at(0), Ok(Old::InUse)));
    let there = std::thread::scope(|scope| {
        let thread = scope.spawn(move || drop(guard));
        let id = thread.thread().id();
        thread.join().unwrap();
        id
    });
    assert_eq!((notes.drops(), *notes.by.lock().unwrap()), (1, Some(there)));
}

#[test]
fn each_empty_slot_is_found() {
    let table = Options::new(8).handles(2).open().unwrap();
    let (one, other) = (table.handle().unwrap(), table.handle().unwrap());
    let mut filled: Vec<u32> = (0..8).map(|it| one.insert(it).unwrap().slot()).collect();
    filled.sort_unstable();
    assert!(filled.into_iter().eq(0..8));
    assert!((0..8).all(|slot| one.replace_at(slot, slot).is_ok()));
    // whichever slot a handle filled last, before or after the only empty one
    for slot in [7, 3, 1, 6, 0, 4] {
        assert_eq!(one.remove_at(slot), Ok(Old::Unused(slot)));
        assert_eq!(other.try_insert(slot).unwrap().slot(), slot);
    }
    // a handle first fills the slot that it emptied last
    for slot in [2, 5] {
        assert_eq!(one.remove_at(slot), Ok(Old::Unused(slot)));
    }
    assert_eq!(one.insert(5).unwrap().slot(), 5);
    assert_eq!(one.insert(2).unwrap().slot(), 2);
}

#[test]
fn one_handle_has_several_guards() {
    let table = Options::new(8).handles(1).guards(2).open().unwrap();
    let handle = table.handle().unwrap();
    for slot in 0..8 {
        assert!(old(handle.replace_at(slot, slot * 10)).is_none());
    }
    let guards: Vec<Guard<'_, u32>> = (2..5).map(|slot| handle.get_at(slot).unwrap()).collect();
    assert!(guards.iter().map(|it| **it).eq([20, 30, 40]));
    let none = GetError::NoSeat(NoSeat::Guard { in_use: 2 });
    assert_eq!(handle.get_at(5).unwrap_err(), none);
    assert_eq!(table.get_owned_at(5).unwrap_err(), none);
    // a handle installs and removes while it has guards
    assert_eq!(old(handle.replace_at(2, 21)), Old::InUse);
    assert_eq!(handle.remove_at(7), Ok(Old::Unused(70)));
    drop(guards);
    assert_eq!(*handle.get_at(2).unwrap(), 21);
}

#[test]
fn each_slot_of_a_large_table_is_filled_and_emptied() {
    // the slots of more than 4,096 have no cache lines of their own
    for slots in [4_096, 5_000] {
        fills_and_empties(slots);
    }
}

fn fills_and_empties(slots: u32) {
    let table = Options::new(slots).handles(2).open().unwrap();
    let handle = table.handle().unwrap();
    let insert = |number| handle.insert(number).unwrap().slot();
    let mut filled: Vec<u32> = (0..slots).map(insert).collect();
    let refused = handle.insert(slots).unwrap_err();
    assert_eq!(refused.reason, Reason::Full { slots });
    let words = format!("all {slots} slots have values");
    assert_eq!(refused.to_string(), words);
    for (number, &slot) in filled.iter().enumerate() {
        assert_eq!(handle.remove_at(slot), Ok(Old::Unused(number as u32)));
    }
    assert!(handle.is_empty());
    filled.sort_unstable();
    assert!(filled.into_iter().eq(0..slots));
}

#[test]
fn a_table_that_is_too_large_or_too_small_is_refused() {
    let refused = |options: Options| options.open::<u8>().unwrap_err();
    for slots in [0, MOST_SLOTS + 1, u32::MAX] {
        assert_eq!(refused(Options::new(slots)), OpenError::Slots(slots));
    }
    for handles in [0, 65, u32::MAX] {
        let options = Options::new(1).handles(handles);
        assert_eq!(refused(options), OpenError::Handles(handles));
    }
    let most = Options::new(MOST_SLOTS).handles(64).readers(400);
    assert_eq!(refused(most.guards(497)), OpenError::Seats(1_025));
    let seats = OpenError::Seats((1 << 32) + 527);
    assert_eq!(refused(most.guards(u32::MAX)), seats);
    let largest = most.guards(496).open::<u8>().unwrap();
    let (handle, reader) = (largest.handle().unwrap(), largest.reader().unwrap());
    assert!(old(handle.replace_at(0, 1)).is_none());
    let handles: Vec<Handle<u8>> = (1..64).map(|_| largest.handle().unwrap()).collect();
    let words = "64 handles are in use; Options::handles sets at most 64";
    assert_eq!(largest.handle().unwrap_err().to_string(), words);
    drop(handles);
    let guards: Vec<OwnedGuard<u8>> = (0..496).map(|_| largest.get_owned_at(0).unwrap()).collect();
    assert!(*handle.get_at(0).unwrap() + *reader.get_at(0).unwrap() == 2);
    let none = GetError::NoSeat(NoSeat::Guard { in_use: 496 });
    assert_eq!(largest.get_owned_at(0).unwrap_err(), none);
    drop(guards);
}

#[test]
fn each_error_has_words_of_its_own() {
    let (slot, slots) = (3, 2);
    let (none, seat) = (NoSlot { slot, slots }, NoSeat::Reader { in_use: 1 });
    let of_slot = "slot 3 is out of range: the table has slots 0 to 1";
    let of_seat = "1 reader is in use; to have more, set Options::readers (at most 1022)";
    let words = ["slot 3 is empty", "slot 3 has another value", of_slot, of_seat];
    let errors = [
        GetError::Empty { slot },
        GetError::Stale { slot },
        GetError::NoSlot(none),
        GetError::NoSeat(seat),
    ];
    for (error, words) in errors.into_iter().zip(words) {
        let (removal, reason) = (RemoveError::from(error), Reason::from(error));
        assert_eq!([error.to_string(), removal.to_string(), reason.to_string()], [words; 3]);
    }
    let refused = [
        (Reason::Full { slots: 1 }, "the only slot has a value"),
        (Reason::Full { slots }, "all 2 slots have values"),
        (Reason::Again, "other threads are filling or emptying slots"),
        (Reason::Making, "the handle is making a value for insert_with"),
    ];
    assert!(refused.iter().all(|(reason, words)| reason.to_string() == *words));
    assert_eq!(OpenError::NoMemory.to_string(), "an allocation failed");
    assert_eq!(OpenError::Handles(65).to_string(), "65 handles: a table has 1 to 64");
}

#[test]
fn a_forgotten_guard_keeps_its_value_until_its_handle_is_dropped() {
    let notes = Notes::default();
    let table = Options::new(2).handles(1).guards(2).open().unwrap();
    let handle = table.handle().unwrap();
    handle.replace_at(0, notes.value(1)).unwrap();
    // by the handle's own seat, and by one of the table
    std::mem::forget((handle.get_at(0).unwrap(), handle.get_at(0).unwrap()));
    assert!(matches!(old(handle.replace_at(0, notes.value(2))), Old::InUse));
    let guard = handle.get_at(0).unwrap();
    assert_eq!((guard.number, notes.drops()), (2, 0));
    let none = GetError::NoSeat(NoSeat::Guard { in_use: 2 });
    assert_eq!(handle.get_at(1).unwrap_err(), none);
    drop(guard);
    assert_eq!(notes.drops(), 0);
    drop(handle);
    assert_eq!(notes.drops(), 1);
    // the next handle has all guards
    let handle = table.handle().unwrap();
    drop([0; 3].map(|slot| handle.get_at(slot).unwrap()));
    drop(handle);
    drop(table);
    assert_eq!(notes.drops(), 2);
}

#[test]
fn guards_are_dropped_in_any_order() {
    let notes = Notes::default();
    let table = opened([1, 1, 0, 3]);
    assert_eq!(table.reader().unwrap_err(), NoSeat::Reader { in_use: 0 });
    let places = || 0..4usize;
    let all = places().flat_map(|a| places().flat_map(move |b| places().map(move |c| [a, b, c])));
    let orders = all.filter(|[a, b, c]| a != b && b != c && c != a);
    let mut count = 0;
    for order in orders {
        let handle = table.handle().unwrap();
        handle.replace_at(0, notes.value(count)).unwrap();
        let mut guards = [0; 4].map(|slot| Some(handle.get_at(slot).unwrap()));
        order.into_iter().for_each(|at| drop(guards[at].take()));
        guards.into_iter().for_each(std::mem::forget);
        // others get the seats that are free, and keep them when the handle's are returned
        let own: Vec<_> = std::iter::from_fn(|| table.get_owned_at(0).ok()).collect();
        assert_eq!(own.len(), if order.contains(&0) { 2 } else { 3 });
        drop(handle);
        assert!(matches!(table.remove_at(0), Ok(Old::InUse)));
        assert_eq!(notes.drops(), count as usize);
        drop(own);
        count += 1;
        assert_eq!(notes.drops(), count as usize);
    }
    assert_eq!(count, 24);
}

/// Panics when it is dropped, if it is asked to.
struct Fragile(bool);

impl Drop for Fragile {
    fn drop(&mut self) {
        assert!(!self.0, "fragile");
    }
}

#[test]
fn a_drop_that_panics_leaves_each_seat_usable() {
    let table = opened([1, 1, 1, 1]);
    let (handle, reader) = (table.handle().unwrap(), table.reader().unwrap());
    let panics = |drop: &mut dyn FnMut()| {
        let caught = std::panic::catch_unwind(std::panic::AssertUnwindSafe(drop));
        assert!(caught.is_err());
    };
    for round in 0..3 {
        handle.replace_at(0, Fragile(true)).unwrap();
        // each kind of guard, as the last user
        let mut guard = (round == 0).then(|| handle.get_at(0).unwrap());
        let mut own = (round == 1).then(|| table.get_owned_at(0).unwrap());
        let mut other = (round == 2).then(|| reader.get_at(0).unwrap());
        assert!(matches!(old(handle.replace_at(0, Fragile(false))), Old::InUse));
        panics(&mut || drop((guard.take(), own.take(), other.take())));
        // all seats at once
        let (guard, own) = (handle.get_at(0).unwrap(), table.get_owned_at(0).unwrap());
        assert!(!guard.0 && !own.0 && !reader.get_at(0).unwrap().0);
    }
}

/// Looks, inserts and removes in its own table when it is dropped.
struct Nested(Option<Table<Nested>>);

impl Drop for Nested {
    fn drop(&mut self) {
        let Some(table) = self.0.take() else {
            return;
        };
        let slot = table.insert(Nested(None)).unwrap().slot();
        assert!(table.get_owned_at(slot).unwrap().0.is_none());
        assert!(matches!(table.remove_at(slot), Ok(Old::Unused(_))));
        table.handle().unwrap().insert(Nested(None)).unwrap();
    }
}

#[test]
fn a_drop_may_use_the_same_table() {
    let table = Options::new(4).handles(2).guards(2).open().unwrap();
    let handle = table.handle().unwrap();
    for round in 0..3 {
        let slot = handle.insert(Nested(Some(table.clone()))).unwrap().slot();
        let guards = (round > 0).then(|| (handle.get_at(slot).unwrap(), table.get_owned_at(slot)));
        drop(handle.remove_at(slot).unwrap());
        drop(guards);
        assert_eq!((handle.len(), round), (1, round));
        (0..4).for_each(|slot| assert!(handle.remove_at(slot).is_ok()));
    }
}

/// Counts its drops, and panics in the first.
struct Counted(Arc<AtomicUsize>);

impl Drop for Counted {
    fn drop(&mut self) {
        assert_ne!(self.0.fetch_add(1, SeqCst), 0, "the first drop panics");
    }
}

#[test]
fn a_drop_that_panics_loses_no_seat_and_no_other_value() {
    let drops = Arc::new(AtomicUsize::new(0));
    let table = Options::new(3).handles(1).guards(1).open().unwrap();
    let handle = table.handle().unwrap();
    for slot in 0..2 {
        handle.replace_at(slot, Counted(drops.clone())).unwrap();
        std::mem::forget(handle.get_at(slot).unwrap());
        assert!(matches!(handle.remove_at(slot), Ok(Old::InUse)));
    }
    let caught = std::panic::catch_unwind(|| drop(handle));
    assert!(caught.is_err());
    assert_eq!(drops.load(SeqCst), 2);
    // the next handle has all guards
    let handle = table.handle().unwrap();
    handle.replace_at(0, Counted(drops.clone())).unwrap();
    drop((handle.get_at(0).unwrap(), handle.get_at(0).unwrap()));
}

#[test]
fn a_drop_that_panics_leaves_the_other_values_of_a_table_to_be_dropped() {
    let drops = Arc::new(AtomicUsize::new(0));
    let table = Table::with_slots(4).unwrap();
    let handle = table.handle().unwrap();
    for _ in 0..4 {
        handle.insert(Counted(drops.clone())).unwrap();
    }
    drop(handle);
    let caught = std::panic::catch_unwind(|| drop(table));
    assert!(caught.is_err());
    assert_eq!(drops.load(SeqCst), 4);
}

#[test]
fn what_is_left_is_dropped_with_the_last_handle_or_guard() {
    let notes = Notes::default();
    let table = Table::with_slots(16).unwrap();
    let clone = table.clone();
    let handle = table.handle().unwrap();
    for number in 0..16 {
        handle.replace_at(number, notes.value(number)).unwrap();
    }
    let own = table.get_owned_at(7).unwrap();
    drop((table, clone));
    assert_eq!((notes.drops(), handle.get_at(1).unwrap().number), (0, 1));
    drop(handle);
    assert_eq!((notes.drops(), own.number), (0, 7));
    drop(own);
    assert_eq!(notes.drops(), 16);
}

#[test]
fn values_without_bytes_are_counted() {
    static DROPS: AtomicUsize = AtomicUsize::new(0);
    struct Empty;
    impl Drop for Empty {
        fn drop(&mut self) {
            DROPS.fetch_add(1, SeqCst);
        }
    }
    let table = Table::with_slots(2).unwrap();
    let handle = table.handle().unwrap();
    handle.replace_at(0, Empty).unwrap();
    let guard = handle.get_at(0).unwrap();
    assert!(matches!(old(handle.replace_at(0, Empty)), Old::InUse));
    drop(guard);
    assert_eq!(DROPS.load(SeqCst), 1);
    drop((handle, table));
    assert_eq!(DROPS.load(SeqCst), 2);
}

#[test]
fn debug_and_display_show_the_value_of_a_guard() {
    let table = Table::with_slots(2).unwrap();
    let (handle, reader) = (table.handle().unwrap(), table.reader().unwrap());
    handle.replace_at(1, "five").unwrap();
    let (guard, own) = (handle.get_at(1).unwrap(), table.get_owned_at(1).unwrap());
    let shown = format!("{guard:?} {own:?} {guard} {own}");
    assert_eq!(shown, "\"five\" \"five\" five five");
    assert_eq!((guard.slot(), own.slot()), (1, 1));
    let shown = format!("{table:?} {handle:?} {reader:?} {:?}", handle.iter());
    let [a, b, c] = ["Table", "Handle", "Reader"].map(|it| format!("{it} {{ slots: 2, .. }}"));
    assert_eq!(shown, format!("{a} {b} {c} Iter {{ slot: 0, .. }}"));
}

#[test]
fn an_iterator_has_what_each_slot_had_when_it_was_looked_at() {
    let table = Options::new(5).handles(1).guards(1).open().unwrap();
    let handle = table.handle().unwrap();
    for slot in [0, 2, 3] {
        handle.replace_at(slot, slot * 10).unwrap();
    }
    assert_eq!((handle.len(), handle.is_empty()), (3, false));
    let mut seen = Vec::new();
    for guard in &handle {
        let guard = guard.unwrap();
        seen.push((guard.slot(), *guard));
        // a slot that was passed is not looked at again, and one that is still ahead is
        handle.replace_at(1, 11).unwrap();
        handle.remove_at(3).unwrap();
    }
    assert_eq!(seen, [(0, 0), (1, 11), (2, 20)]);
    // two guards have seats, the handle's own and one of the table; three slots can't be looked at
    let kept: Vec<_> = handle.iter().collect();
    let counts = (kept.iter().filter(|it| it.is_ok()).count(), kept.len());
    assert_eq!(counts, (2, 5));
    drop(kept);
    (0..5).for_each(|slot| assert!(handle.remove_at(slot).is_ok()));
    assert!(handle.is_empty() && handle.iter().next().is_none());
}

#[test]
fn each_slot_has_its_turn_where_all_are_emptied() {
    let table = opened([8, 1, 0, 1]);
    let handle = table.handle().unwrap();
    (0..4).for_each(|it| assert!(handle.replace_at(2 * it, 7).is_ok()));
    // what comes in place of a refused value stays, as what comes to a slot after its turn
    let replace = |it: &Guard<'_, u32>| {
        let slots = [it.slot(), it.slot().saturating_sub(1)];
        slots.map(|it| handle.replace_at(it, it).unwrap().1.is_none())[1]
    };
    assert_eq!(handle.retain(replace), Ok(0));
    let guards = (handle.get_at(0).unwrap(), handle.get_at(2).unwrap());
    assert_eq!(handle.retain(|_| false), Err(NoSeat::Guard { in_use: 1 }));
    assert_eq!(handle.drain().next(), Some((0, Old::InUse)));
    drop(guards);
    assert!(handle.drain().eq([1, 2, 3, 4, 5, 6].map(|it| (it, Old::Unused(it)))));
}
