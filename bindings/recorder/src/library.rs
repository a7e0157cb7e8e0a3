//! The table of the Rust crate `yachtbanyan`, by its slots and by the keys of its values.
use crate::{Handle, Table, Value};
use yachtbanyan::Key;

impl Table for yachtbanyan::Table<Value> {
    type Handle<'a> = yachtbanyan::Handle<Value>;

    fn handle(&self) -> Self::Handle<'_> {
        self.handle().expect("a handle for each thread")
    }
}

impl Handle for yachtbanyan::Handle<Value> {
    type Guard<'a> = yachtbanyan::Guard<'a, Value>;

    fn get(&self, slot: usize) -> Option<Self::Guard<'_>> {
        self.get_at(slot as u32).ok()
    }

    fn put(&self, slot: usize, value: Value) {
        let replaced = self.replace_at(slot as u32, value);
        replaced.expect("a slot of the table");
    }

    fn put_any(&self, value: Value) -> Result<usize, Value> {
        match self.insert(value) {
            Ok(key) => Ok(key.slot() as usize),
            Err(refused) => Err(refused.value),
        }
    }

    fn take(&self, slot: usize) -> bool {
        self.remove_at(slot as u32).is_ok_and(|old| !old.is_none())
    }
}

/// This library's table by the keys of its values. In the log each key is a slot of its own, which
/// has one value and is empty from then on: a stale key that finds or removes another value breaks
/// the rules. The table must have a slot for each value that is recorded.
pub struct Keyed(pub yachtbanyan::Table<Value>);

/// A thread's access to [`Keyed`].
pub struct KeyedHandle(yachtbanyan::Handle<Value>);

impl Table for Keyed {
    type Handle<'a> = KeyedHandle;

    fn handle(&self) -> KeyedHandle {
        KeyedHandle(self.0.handle().expect("a handle for each thread"))
    }
}

impl Handle for KeyedHandle {
    type Guard<'a> = yachtbanyan::Guard<'a, Value>;
    const CHOOSES: bool = true;

    fn get(&self, key: usize) -> Option<Self::Guard<'_>> {
        self.0.get(Key::from_bits(key as u64)).ok()
    }

    fn put_any(&self, value: Value) -> Result<usize, Value> {
        let key = self.0.insert(value).expect("a slot for each value");
        Ok(key.to_bits().expect("a key of 64 bits") as usize)
    }

    fn take(&self, key: usize) -> bool {
        self.0.remove(Key::from_bits(key as u64)).is_ok()
    }
}
