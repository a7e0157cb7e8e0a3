//! The table of the C library (include/yachtbanyan.h), by its C functions.
use crate::{Handle, Table, Value};
use std::ffi::{c_int, c_void};
use std::marker::PhantomData;
use std::ops::Deref;
use std::ptr::null_mut;
use std::sync::atomic::{AtomicU32, Ordering::SeqCst};

#[repr(C)]
struct RawTable([u8; 0]);
#[repr(C)]
struct RawHandle([u8; 0]);

/// The name of a value.
#[repr(C)]
#[derive(Clone, Copy)]
struct RawKey {
    number: u64,
    slot: u32,
}

const DONE: c_int = 0;
const EMPTY: c_int = -1;
const NO_SLOT: c_int = -2;
const FULL: c_int = -6;
const STALE: c_int = -10;

extern "C" {
    #[link_name = "yacht_open_6"]
    fn yacht_open(
        table: *mut *mut RawTable,
        slots: u32,
        handles: u32,
        readers: u32,
        drop: extern "C" fn(*mut c_void, *mut c_void),
        with: *mut c_void,
    ) -> c_int;
    fn yacht_free(table: *mut RawTable);
    fn yacht_handle_of(table: *mut RawTable, number: u32) -> *mut RawHandle;
    fn yacht_get_at(handle: *mut RawHandle, slot: u32, value: *mut *mut c_void) -> c_int;
    fn yacht_release(handle: *mut RawHandle) -> c_int;
    fn yacht_insert(handle: *mut RawHandle, value: *mut c_void) -> c_int;
    fn yacht_replace_at(handle: *mut RawHandle, slot: u32, value: *mut c_void) -> c_int;
    fn yacht_remove_at(handle: *mut RawHandle, slot: u32) -> c_int;
    fn yacht_get(handle: *mut RawHandle, key: RawKey, value: *mut *mut c_void) -> c_int;
    fn yacht_insert_key(handle: *mut RawHandle, value: *mut c_void, key: *mut RawKey) -> c_int;
    fn yacht_remove(handle: *mut RawHandle, key: RawKey) -> c_int;
    fn yacht_key_to_bits(key: RawKey) -> u64;
    fn yacht_key_from_bits(bits: u64) -> RawKey;
}

/// Drops a value that [`into_raw`] made.
extern "C" fn drop_value(value: *mut c_void, _: *mut c_void) {
    // SAFETY: the library drops each value once
    drop(unsafe { Box::from_raw(value.cast::<Value>()) });
}

fn into_raw(value: Value) -> *mut c_void {
    Box::into_raw(Box::new(value)).cast()
}

/// A table of the C library: by its slots, or, if it is `KEYED`, by the keys of its values
/// ([`Keyed`](crate::library::Keyed)).
pub struct CTable<const KEYED: bool> {
    raw: *mut RawTable,
    most_handles: u32,
    /// The number of handles that were given out.
    handles: AtomicU32,
}

// SAFETY: any thread frees a table that no handle is in use of, and its values go to any thread
unsafe impl<const KEYED: bool> Send for CTable<KEYED> {}
// SAFETY: threads may use a table at the same time, each by a handle of its own
unsafe impl<const KEYED: bool> Sync for CTable<KEYED> {}

impl<const KEYED: bool> CTable<KEYED> {
    /// Opens an empty table of `slots` slots, for `handles` threads.
    pub fn new(slots: usize, handles: usize) -> CTable<KEYED> {
        let (mut raw, most_handles) = (null_mut(), handles as u32);
        // SAFETY: `raw` is written, and nothing is kept of it
        let answer =
            unsafe { yacht_open(&mut raw, slots as u32, most_handles, 0, drop_value, null_mut()) };
        assert_eq!(answer, DONE, "a table");
        CTable { raw, most_handles, handles: AtomicU32::new(0) }
    }
}

impl<const KEYED: bool> Drop for CTable<KEYED> {
    fn drop(&mut self) {
        for number in 0..*self.handles.get_mut() {
            // SAFETY: no handle is used any more, since handles borrow the table. If a guard was
            // forgotten, its handle holds a value until now, and none does in `yacht_free`
            unsafe { yacht_release(yacht_handle_of(self.raw, number)) };
        }
        // SAFETY: as above
        unsafe { yacht_free(self.raw) }
    }
}

/// A handle of the C library. It holds one value at a time, and so has one guard.
pub struct CHandle<'a, const KEYED: bool> {
    raw: *mut RawHandle,
    _table: PhantomData<&'a CTable<KEYED>>,
}

/// The hold of a handle.
pub struct CGuard<'a> {
    value: *mut Value,
    handle: *mut RawHandle,
    _handle: PhantomData<&'a RawHandle>,
}

impl Deref for CGuard<'_> {
    type Target = Value;

    fn deref(&self) -> &Value {
        // SAFETY: the handle holds the value
        unsafe { &*self.value }
    }
}

impl Drop for CGuard<'_> {
    fn drop(&mut self) {
        // SAFETY: the handle is this thread's, and holds a value
        let answer = unsafe { yacht_release(self.handle) };
        assert!(answer >= DONE);
    }
}

impl<const KEYED: bool> Table for CTable<KEYED> {
    type Handle<'a> = CHandle<'a, KEYED>;

    fn handle(&self) -> CHandle<'_, KEYED> {
        let next = |number| (number < self.most_handles).then_some(number + 1);
        let number = self.handles.fetch_update(SeqCst, SeqCst, next);
        let number = number.expect("a handle for each thread");
        // SAFETY: each number is used once, so each handle has one thread
        let raw = unsafe { yacht_handle_of(self.raw, number) };
        CHandle { raw, _table: PhantomData }
    }
}

/// Checks whether a call found no value, where a key may be stale.
fn is_none(answer: c_int, keyed: bool) -> bool {
    answer == EMPTY || keyed && matches!(answer, NO_SLOT | STALE)
}

// SAFETY of each call: the handle is this thread's, what is passed to be written is written, and a
// value that is installed is the library's from then on; any key may be passed
impl<const KEYED: bool> Handle for CHandle<'_, KEYED> {
    type Guard<'a>
        = CGuard<'a>
    where
        Self: 'a;
    const CHOOSES: bool = KEYED;

    fn get(&self, at: usize) -> Option<CGuard<'_>> {
        let (mut value, handle, _handle) = (null_mut(), self.raw, PhantomData);
        let answer = match KEYED {
            true => unsafe { yacht_get(handle, yacht_key_from_bits(at as u64), &mut value) },
            false => unsafe { yacht_get_at(handle, at as u32, &mut value) },
        };
        assert!(answer == DONE || is_none(answer, KEYED));
        let value = value.cast();
        (answer == DONE).then(|| CGuard { value, handle, _handle })
    }

    fn put(&self, slot: usize, value: Value) {
        let answer = unsafe { yacht_replace_at(self.raw, slot as u32, into_raw(value)) };
        assert!(answer >= DONE);
    }

    fn put_any(&self, value: Value) -> Result<usize, Value> {
        let (raw, mut key) = (into_raw(value), RawKey { number: 0, slot: 0 });
        let slot = match KEYED {
            true => unsafe { yacht_insert_key(self.raw, raw, &mut key) },
            false => unsafe { yacht_insert(self.raw, raw) },
        };
        if !KEYED && slot == FULL {
            // the value is still ours
            return Err(*unsafe { Box::from_raw(raw.cast::<Value>()) });
        }
        let slot = usize::try_from(slot).expect("a slot for each value");
        assert!(!KEYED || slot == key.slot as usize, "the slot of another key");
        Ok(if KEYED { unsafe { yacht_key_to_bits(key) as usize } } else { slot })
    }

    fn take(&self, at: usize) -> bool {
        let answer = match KEYED {
            true => unsafe { yacht_remove(self.raw, yacht_key_from_bits(at as u64)) },
            false => unsafe { yacht_remove_at(self.raw, at as u32) },
        };
        assert!(answer > DONE || answer == DONE && !KEYED || is_none(answer, KEYED));
        !is_none(answer, KEYED)
    }
}
