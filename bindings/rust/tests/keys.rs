//! Keys in bits, and the function that makes a value from its key: it may panic, use the handle, or
//! lose its slot. What each call by key answers is checked by `src/access/tests/answers.rs`.
use std::collections::{BTreeSet, HashSet};
use std::panic::{catch_unwind, AssertUnwindSafe};
use std::sync::Arc;
use yachtbanyan::{GetError, Handle, Key, Old, Options, Reason, Table};

fn one_slot() -> (Table<u32>, Handle<u32>) {
    let table = Options::new(1).handles(3).open().unwrap();
    let handle = table.handle().unwrap();
    (table, handle)
}

#[test]
fn no_key_is_used_twice() {
    let (table, first) = one_slot();
    let handles = [first, table.handle().unwrap()];
    let mut keys = HashSet::new();
    for _ in 0..100 {
        for handle in &handles {
            assert!(keys.insert(handle.insert(0).unwrap()));
            assert!(handle.replace_at(0, 1).is_ok());
            let replaced = handle.get_at(0).unwrap().key();
            assert!(keys.insert(replaced));
            let (third, _) = handle.replace(replaced, 2).unwrap();
            assert!(keys.insert(third));
            assert!(handle.remove_at(0).is_ok());
        }
        assert!(keys.insert(table.insert(3).unwrap()));
        assert!(table.remove_at(0).is_ok());
    }
    // a handle goes on where the last one with its seats ended
    drop(handles);
    for _ in 0..3 {
        assert!(keys.insert(table.handle().unwrap().insert(4).unwrap()));
        assert!(table.remove_at(0).is_ok());
    }
    assert_eq!(keys.len(), 100 * 7 + 3);
    // as many in 64 bits, and in order
    let bits: BTreeSet<u64> = keys.iter().map(|it| it.to_bits().unwrap()).collect();
    assert_eq!(bits.len(), keys.len());
    let sorted: BTreeSet<Key> = keys.into_iter().collect();
    assert!(sorted.into_iter().eq(bits.into_iter().map(Key::from_bits)));
}

#[test]
fn a_key_has_its_slot_and_number_in_its_bits() {
    let table = Options::new(4).handles(1).open().unwrap();
    let key = table.insert(7).unwrap();
    // number 1, the first one
    assert_eq!(key.to_bits(), Some(1 << 13 | u64::from(key.slot()) << 1));
    assert_eq!(key.to_string(), format!("{}#1", key.slot()));
    for bits in [0, 8_190, 5 << 13 | 3 << 1, u64::MAX - 1, u64::MAX] {
        assert_eq!(Key::from_bits(bits).to_bits(), Some(bits));
    }
    assert_eq!(Key::from_bits(5 << 13 | 3 << 1).to_string(), "3#5");
    assert_eq!(Key::from_bits(5 << 13 | 3 << 1).slot(), 3);
    // a slot of 4,096 and above has 20 bits, and the lowest bit says so
    let wide = Key::from_bits(7 << 21 | 4_096 << 1 | 1);
    assert_eq!(wide.to_string(), "4096#7");
    assert_eq!(wide.to_bits(), Some(7 << 21 | 4_096 << 1 | 1));
    assert_eq!(Key::from_bits(u64::MAX).slot(), 1_048_575);
    assert_eq!(std::mem::size_of::<Key>(), 16);
}

#[test]
fn a_key_of_another_table_finds_its_value_or_none() {
    let ((a, one), (_b, other)) = (one_slot(), one_slot());
    let key = one.insert(7).unwrap();
    let empty = GetError::Empty { slot: 0 };
    assert_eq!(other.get(key).unwrap_err(), empty);
    assert_eq!(other.insert(8).unwrap(), key);
    assert_eq!((*one.get(key).unwrap(), *other.get(key).unwrap()), (7, 8));
    other.replace_at(0, 9).unwrap();
    let stale = GetError::Stale { slot: 0 };
    assert_eq!(other.get(key).unwrap_err(), stale);
    assert_eq!(a.remove(key), Ok(Old::Unused(7)));
}

#[test]
fn a_value_whose_slot_is_lost_is_dropped_and_made_again() {
    let table = Table::<Arc<u32>>::with_slots(2).unwrap();
    let (handle, other) = (table.handle().unwrap(), table.handle().unwrap());
    let (mut keys, mut made) = (Vec::new(), Vec::new());
    let key = handle.insert_with(|key| {
        if keys.is_empty() {
            other.replace_at(key.slot(), Arc::new(7)).unwrap();
        }
        keys.push(key);
        made.push(Arc::new(8));
        made[keys.len() - 1].clone()
    });
    assert_eq!((keys.len(), key), (2, Ok(keys[1])));
    assert_eq!((Arc::strong_count(&made[0]), Arc::strong_count(&made[1])), (1, 2));
    assert_ne!(keys[0].slot(), keys[1].slot());
    // the key that was lost is no value's
    assert!(matches!(handle.get(keys[0]), Err(GetError::Stale { .. })));
    assert_eq!(**handle.get_at(keys[0].slot()).unwrap(), 7);
    assert_eq!(**handle.get(keys[1]).unwrap(), 8);
}

#[test]
fn a_function_that_makes_a_value_may_use_the_handle_or_panic() {
    let table = Table::<u32>::with_slots(2).unwrap();
    let handle = table.handle().unwrap();
    let mut first = handle.insert(7).unwrap();
    let panics = catch_unwind(AssertUnwindSafe(|| {
        handle.insert_with(|_| {
            first = handle.replace(first, 8).unwrap().0;
            panic!("after a replacement")
        })
    }));
    assert!(panics.is_err());
    assert_eq!((handle.len(), *handle.get(first).unwrap()), (1, 8));
    let key = handle.insert_with(|_| match handle.remove(first) {
        Ok(Old::Unused(value)) => value + 1,
        other => panic!("{other:?}"),
    });
    assert_eq!((handle.len(), *handle.get(key.unwrap()).unwrap()), (1, 9));
}

#[test]
fn a_function_that_makes_a_value_inserts_none_by_the_handle() {
    let table = Table::<u32>::with_slots(4).unwrap();
    let handle = table.handle().unwrap();
    let mut calls = 0;
    let key = handle.insert_with(|_| {
        calls += 1;
        let refused = handle.insert(7).unwrap_err();
        assert_eq!((refused.value, refused.reason), (7, Reason::Making));
        let refused = handle.try_insert(8).unwrap_err();
        assert_eq!((refused.value, refused.reason), (8, Reason::Making));
        let inner = handle.insert_with(|_| unreachable!("within another one"));
        assert_eq!(inner, Err(Reason::Making));
        9
    });
    assert_eq!((handle.len(), calls, *handle.get(key.unwrap()).unwrap()), (1, 1, 9));
    assert!(handle.insert(7).is_ok());
}

#[test]
fn no_update_is_lost() {
    let table = Options::new(1).handles(4).open::<usize>().unwrap();
    table.insert(0).unwrap();
    let update = || {
        let handle = table.handle().unwrap();
        let each = |_| handle.update_at(0, |it| it + 1).unwrap();
        (0..2_000).map(each).map(|(key, _, runs)| (key, runs)).collect::<Vec<_>>()
    };
    let updates: Vec<_> = std::thread::scope(|scope| {
        let threads: Vec<_> = (0..4).map(|_| scope.spawn(update)).collect();
        threads.into_iter().flat_map(|it| it.join().unwrap()).collect()
    });
    let keys: HashSet<_> = updates.iter().map(|it| it.0).collect();
    assert_eq!((keys.len(), *table.get_owned_at(0).unwrap()), (8_000, 8_000));
    assert!(updates.iter().all(|it| it.1 >= 1));
    // a value that others replace while it is read is read again
    let (handle, mut seen) = (table.handle().unwrap(), Vec::new());
    let (_, old, runs) = handle
        .update_at(0, |&it| {
            if seen.is_empty() {
                table.replace_at(0, 7).unwrap();
            }
            seen.push(it);
            it + 1
        })
        .unwrap();
    assert_eq!((seen, old, runs), (vec![8_000, 7], Old::Unused(7), 2));
    let empties = |_: &usize| table.remove_at(0).map_or(0, |_| 9);
    assert_eq!(handle.update_at(0, empties).unwrap_err(), GetError::Empty { slot: 0 });
    assert!(handle.is_empty() && handle.update_at(1, |&it| it).is_err());
}

#[test]
fn a_key_is_contained_while_its_value_is_there() {
    let table = Table::with_slots(2).unwrap();
    let handle = table.handle().unwrap();
    let first = handle.insert("first").unwrap();
    let both = |key| (handle.contains_key(key), table.contains_key(key).unwrap());
    assert_eq!(both(first), (true, true));
    let (second, _) = handle.replace(first, "second").unwrap();
    assert_eq!((both(first), both(second)), ((false, false), (true, true)));
    handle.remove(second).unwrap();
    handle.insert("third").unwrap();
    assert_eq!(both(second), (false, false));
}
