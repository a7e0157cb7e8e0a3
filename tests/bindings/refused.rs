//! Each line of `all` is refused by the compiler, whose error names no private type of the crate.
use std::cell::Cell;
use yachtbanyan::{Guard, Handle, Iter, OwnedGuard, Reader, Table};
fn send<T: Send>() {}
fn sync<T: Sync>() {}
pub fn all() {
    send::<Table<Cell<u8>>>();
    sync::<Table<Cell<u8>>>();
    send::<Handle<Cell<u8>>>();
    sync::<Handle<u8>>();
    send::<Reader<Cell<u8>>>();
    sync::<Reader<u8>>();
    send::<Guard<'static, u8>>();
    sync::<Guard<'static, Cell<u8>>>();
    send::<OwnedGuard<Cell<u8>>>();
    sync::<OwnedGuard<Cell<u8>>>();
    send::<Iter<'static, u8>>();
    sync::<Iter<'static, u8>>();
}
