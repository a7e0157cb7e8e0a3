//! What a ring is for [`Lives`](super::Lives): a queue of entries, and completions.
use std::io;

/// What an entry does: a request of the caller's, or one of the layer's own.
#[derive(Clone, Copy, Debug, PartialEq, Eq)]
pub enum Request<R> {
    /// A request of the caller's.
    Own(R),
    /// An accept of a connection of this listening socket (`IORING_OP_ACCEPT`).
    Accept(i32),
    /// A shutdown of both directions (`IORING_OP_SHUTDOWN`, `SHUT_RDWR`).
    Shutdown,
    /// A close (`IORING_OP_CLOSE`).
    Close,
    /// A cancel of the request with this `user_data` (`IORING_OP_ASYNC_CANCEL`).
    Cancel(u64),
}

/// A submission queue entry, by the fields of `struct io_uring_sqe` that the layer sets.
#[derive(Clone, Copy, Debug, PartialEq, Eq)]
pub struct Entry<R> {
    /// The request.
    pub request: Request<R>,
    /// The slot of the file, if the flags have `IOSQE_FIXED_FILE`. Else it is unused.
    pub fd: i32,
    /// The slot of an open or a close, plus 1, or 0.
    pub file_index: u32,
    /// `IOSQE_FIXED_FILE`, and the link to the next entry: `IOSQE_IO_LINK` or `IOSQE_IO_HARDLINK`.
    pub flags: u8,
    /// The number that the completions have.
    pub user_data: u64,
}

/// A completion queue entry, laid out as `struct io_uring_cqe`.
#[repr(C)]
#[derive(Clone, Copy, Debug, PartialEq, Eq)]
pub struct Completion {
    /// The number of the request's entry.
    pub user_data: u64,
    /// The result.
    pub result: i32,
    /// The flags, as `IORING_CQE_F_MORE`.
    pub flags: u32,
}

/// A ring with a table of direct descriptors, as [`Lives`](super::Lives) uses it: over any crate
/// for rings, or over system calls.
pub trait Ring {
    /// A request of the caller's, without its file.
    type Request;

    /// Queues an entry. What is queued is submitted if the queue is full.
    ///
    /// # Errors
    ///
    /// The ring is of no use any more: [`Lives::next`](super::Lives::next) returns the error.
    fn push(&mut self, entry: Entry<Self::Request>) -> io::Result<()>;

    /// Makes room for this number of entries, so that they are submitted together. Returns whether
    /// the queue is long enough for them.
    ///
    /// # Errors
    ///
    /// As of [`Ring::push`].
    fn make_room(&mut self, entries: usize) -> io::Result<bool>;

    /// Returns the next completion, or `None` if no completion is there.
    fn completion(&mut self) -> Option<Completion>;

    /// Submits what is queued, and waits for a completion, or until a signal comes.
    ///
    /// # Errors
    ///
    /// As of [`Ring::push`].
    fn wait(&mut self) -> io::Result<()>;
}

// Returns an error of the same number, or of the same kind and words.
pub(super) fn copy_of(error: &io::Error) -> io::Error {
    let described = || io::Error::new(error.kind(), error.to_string());
    error.raw_os_error().map_or_else(described, io::Error::from_raw_os_error)
}
