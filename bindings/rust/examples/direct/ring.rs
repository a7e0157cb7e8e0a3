//! A ring of the kernel with a sparse table, by its system calls alone: io_uring_setup(2),
//! io_uring_register(2), io_uring_enter(2). A server would use a crate for this.
use crate::log::Log;
use std::cell::Cell;
use std::ffi::{c_char, c_int, c_long, CStr};
use std::io::{Error, ErrorKind, Result};
use std::net::TcpListener;
use std::os::fd::{AsRawFd, FromRawFd, OwnedFd};
use std::ptr::null_mut;
use std::slice;
use std::sync::atomic::{AtomicU32, Ordering};
use yachtbanyan::direct::{self, Completion, Entry, Request};

unsafe extern "C" {
    fn syscall(number: c_long, ...) -> c_long;
    fn mmap(at: *mut u8, len: usize, how: c_int, flags: c_int, fd: c_int, from: i64) -> *mut u8;
    fn listen(fd: c_int, backlog: c_int) -> c_int;
}
const SETUP: c_long = 425;
const ENTER: c_long = 426;
const REGISTER: c_long = 427;
const SINGLE_ISSUER_AND_DEFER_TASKRUN: u32 = 1 << 12 | 1 << 13;
const REGISTER_FILES2: c_int = 13;
const SPARSE: u32 = 1;
const GETEVENTS: c_int = 1;
const READ_AND_WRITE: c_int = 3;
const SHARED_AND_POPULATED: c_int = 0x8001;
const SQES: i64 = 0x1000_0000;
const FIXED_FILE: u8 = 1;
const NOSIGNAL: u32 = 0x4000;
const WAITALL: u32 = 0x100;
const AT_FDCWD: i32 = -100;

fn checked(answer: c_long) -> Result<c_long> {
    (answer >= 0).then_some(answer).ok_or_else(Error::last_os_error)
}

// Maps values that the kernel shares, until the program ends.
fn map<T>(fd: &OwnedFd, len: usize, from: i64) -> Result<&'static [T]> {
    let (bytes, how, flags) = (len * size_of::<T>(), READ_AND_WRITE, SHARED_AND_POPULATED);
    // SAFETY: it is new memory, whose values are numbers that may change.
    unsafe {
        let at = mmap(null_mut(), bytes, how, flags, fd.as_raw_fd(), from);
        checked(at as c_long)?;
        Ok(slice::from_raw_parts(at.cast(), len))
    }
}

/// Lets this number of clients wait for their accept. The standard library lets 128 wait.
pub fn set_backlog(listener: &TcpListener, backlog: c_int) -> Result<c_long> {
    // SAFETY: it changes the socket alone.
    checked(unsafe { listen(listener.as_raw_fd(), backlog) }.into())
}

/// A submission queue entry. Addresses are those of memory that stays until its last completion.
#[repr(C)]
#[derive(Clone, Copy, Default)]
pub struct Sqe {
    pub opcode: u8,
    pub flags: u8,
    priority: u16,
    pub fd: i32,
    offset: u64,
    pub address: u64,
    pub len: u32,
    own_flags: u32,
    pub data: u64,
    buffer: u32,
    pub file_index: u32,
    more: [u64; 2],
}

/// What requests of the server do. The layer sets the slot.
impl Sqe {
    pub const ACCEPT: u8 = 13;
    pub const OPEN: u8 = 18;
    pub const CLOSE: u8 = 19;
    pub const READ: u8 = 22;
    pub const RECEIVE: u8 = 27;

    fn new(opcode: u8, fd: c_int, address: u64, len: usize) -> Sqe {
        Sqe { opcode, fd, address, len: len as u32, ..Sqe::default() }
    }

    pub fn open(path: &CStr) -> Sqe {
        Sqe::new(Sqe::OPEN, AT_FDCWD, path.as_ptr() as u64, 0)
    }

    /// A read of a file of the process, or of a slot.
    pub fn read(fd: c_int, at: *mut u8, len: usize) -> Sqe {
        Sqe::new(Sqe::READ, fd, at as u64, len)
    }

    pub fn receive(at: *mut u8, len: usize) -> Sqe {
        Sqe::new(Sqe::RECEIVE, -1, at as u64, len)
    }

    pub fn send(bytes: &[u8]) -> Sqe {
        let own_flags = NOSIGNAL | WAITALL;
        Sqe { own_flags, ..Sqe::new(26, -1, bytes.as_ptr() as u64, bytes.len()) }
    }

    fn of(entry: Entry<Sqe>) -> Sqe {
        let Entry { flags, user_data: data, file_index, .. } = entry;
        let it = match entry.request {
            Request::Own(it) => it,
            Request::Accept(listener) => Sqe::new(Sqe::ACCEPT, listener, 0, 0),
            Request::Cancel(data) => Sqe::new(14, -1, data, 0),
            Request::Close => Sqe::new(Sqe::CLOSE, 0, 0, 0),
            Request::Shutdown => Sqe::new(34, -1, 0, 2),
        };
        let fd = if flags & FIXED_FILE == 0 { it.fd } else { entry.fd };
        Sqe { fd, flags, data, file_index, ..it }
    }

    /// Returns the name of the file that a queued open opens.
    pub fn name(&self) -> String {
        // SAFETY: its path.
        let path = unsafe { CStr::from_ptr(self.address as *const c_char) }.to_string_lossy();
        path.rsplit('/').next().unwrap_or_default().to_string()
    }

    /// Returns the bytes that a read or a receive has just written.
    pub fn written(&self, result: i32) -> &[u8] {
        // SAFETY: the kernel has written them, and the caller hasn't seen that as yet.
        unsafe { slice::from_raw_parts(self.address as *const u8, result.max(0) as usize) }
    }
}

pub struct Ring {
    fd: OwnedFd,
    sqes: &'static [Cell<Sqe>],
    tail: &'static AtomicU32,
    completions: &'static [Cell<Completion>],
    head: &'static AtomicU32,
    end: &'static AtomicU32, // the tail of this queue
    queued: u32,
    log: Option<Log>,
}

impl Ring {
    /// Opens a ring, with a table of empty slots, for the thread that calls this.
    pub fn new(entries: u32, slots: u32, log: Option<Log>) -> Result<Ring> {
        // the lengths of both queues, flags, and offsets, as io_uring_setup(2) has them
        let mut parameters = [0u32; 30];
        parameters[2] = SINGLE_ISSUER_AND_DEFER_TASKRUN;
        // SAFETY: the kernel writes the parameters, and makes a descriptor.
        let fd = checked(unsafe { syscall(SETUP, entries, parameters.as_mut_ptr()) })?;
        let fd = unsafe { OwnedFd::from_raw_fd(fd as c_int) };
        let table = [slots, SPARSE, 0, 0, 0, 0, 0, 0];
        // SAFETY: the kernel reads the 32 bytes of the table.
        checked(unsafe { syscall(REGISTER, fd.as_raw_fd(), REGISTER_FILES2, table.as_ptr(), 32) })?;
        let [entries, completed] = [0, 1].map(|it| parameters[it] as usize);
        let [tail, indexes, head, end] = [11, 16, 20, 21].map(|it| parameters[it] as usize / 4);
        let words: &[AtomicU32] = map(&fd, indexes + entries, 0)?;
        (0..).zip(&words[indexes..]).for_each(|(nth, it)| it.store(nth, Ordering::Relaxed));
        let first = parameters[25] as usize / size_of::<Completion>();
        let completions = &map(&fd, first + completed, 0)?[first..];
        let [tail, head, end] = [tail, head, end].map(|it| &words[it]);
        let sqes = map(&fd, entries, SQES)?;
        Ok(Ring { fd, sqes, tail, completions, head, end, queued: 0, log })
    }

    // Submits what is queued, and waits for this number of completions.
    fn enter(&mut self, wait: u32) -> Result<()> {
        let fd = self.fd.as_raw_fd();
        // SAFETY: requests have addresses of memory that stays until their completions.
        match checked(unsafe { syscall(ENTER, fd, self.queued, wait, GETEVENTS, 0usize, 0usize) }) {
            // a signal, as when the process is continued: nothing was submitted
            Err(error) if error.kind() == ErrorKind::Interrupted => {}
            sent => self.queued -= sent? as u32,
        }
        Ok(())
    }
}

impl direct::Ring for Ring {
    type Request = Sqe;

    fn push(&mut self, entry: Entry<Sqe>) -> Result<()> {
        self.make_room(1)?;
        let sqe = Sqe::of(entry);
        if let Some(log) = &mut self.log {
            log.queued(&sqe)?;
        }
        let at = self.tail.load(Ordering::Relaxed);
        self.sqes[at as usize % self.sqes.len()].set(sqe);
        self.tail.store(at.wrapping_add(1), Ordering::Release);
        self.queued += 1;
        Ok(())
    }

    fn make_room(&mut self, entries: usize) -> Result<bool> {
        if entries > self.sqes.len() {
            return Ok(false);
        }
        while self.queued as usize + entries > self.sqes.len() {
            self.enter(0)?;
        }
        Ok(true)
    }

    fn completion(&mut self) -> Option<Completion> {
        let at = self.head.load(Ordering::Relaxed);
        if at == self.end.load(Ordering::Acquire) {
            return None;
        }
        // the kernel has written this entry before the end
        let it = self.completions[at as usize % self.completions.len()].get();
        self.head.store(at.wrapping_add(1), Ordering::Release);
        if let Some(log) = &mut self.log {
            log.completed(it).expect("the log is written");
        }
        Some(it)
    }

    fn wait(&mut self) -> Result<()> {
        self.enter(1)
    }
}
