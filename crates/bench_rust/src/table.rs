//! The interface of the tables that are measured next to the proved one.

/// The number of bytes of a read.
pub const READ_LEN: usize = 64;

/// An open file, as it is installed.
pub struct File {
    pub entry: u8,
    /// Unused here; an open file has it.
    #[allow(dead_code)]
    pub mark: u64,
}

/// A file that is there at first.
pub const FILE: File = File { entry: 0, mark: 0 };

/// A cache line of its own, as a slot's words have.
#[repr(align(64))]
pub struct Line<T>(pub T);

/// The shape that a table is opened with. Its slots are the allocation range.
#[derive(Clone, Copy)]
pub struct Shape {
    pub slots: usize,
    /// The number of slots, from the first one on, that have a file.
    pub full: usize,
    pub threads: usize,
}

/// A table as it is measured: a call that opens together with the one that ends it. One of which a
/// single slot is read again and again has no other calls.
pub trait Table: Sync + Sized {
    /// A thread's access to the table.
    type Pass;

    fn open(shape: Shape) -> Self;

    /// Returns the access of the thread with this number, from 0. Each thread has one.
    fn pass(&self, thread: usize) -> Self::Pass;

    /// Looks a slot up, reads the entry of its file and releases it.
    fn look(&self, pass: &mut Self::Pass, slot: usize) -> u64;

    /// Looks a slot up, reads from its file and releases it. Each entry of the catalogue is the
    /// bytes of a file.
    fn read(&self, _: &mut Self::Pass, _slot: usize, _catalogue: &[Vec<u8>], _into: &mut Vec<u8>) {
        unimplemented!()
    }

    /// Installs a file at a slot, and retires the file that was there.
    fn put(&self, _: &mut Self::Pass, _slot: usize, _file: File) {
        unimplemented!()
    }

    /// Installs a file at an empty slot, and returns the slot.
    fn put_any(&self, _: &mut Self::Pass, _file: File) -> Option<usize> {
        unimplemented!()
    }

    /// Empties a slot and retires the file that was there.
    fn take(&self, _: &mut Self::Pass, _slot: usize) {
        unimplemented!()
    }
}

/// Reads the first bytes of a file by its entry.
pub fn read_entry(catalogue: &[Vec<u8>], entry: u8, into: &mut Vec<u8>) {
    into.clear();
    if let Some(bytes) = catalogue.get(usize::from(entry)) {
        into.extend_from_slice(&bytes[..bytes.len().min(READ_LEN)]);
    }
}
