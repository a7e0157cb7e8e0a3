//! What has a slot: a connection, or a file that is read for one. Requests use its memory, which
//! is freed with the life of the slot, and so after the last completion.
use std::ffi::CString;
use yachtbanyan::direct::Key;

/// The bytes of a connection's buffer, and the longest line.
pub const BUFFER: usize = 256;
pub const LONGEST: usize = 64;

/// A connection, or with `file` that file.
#[derive(Default)]
pub struct Life {
    pub file: Option<Reading>,
    /// The connection's key in the table that workers know, from its accept until it is ended.
    pub name: Option<yachtbanyan::Key>,
    pub is_answering: bool,
    pub is_receiving: bool,
    /// The bytes that a receive writes.
    pub buffer: Vec<u8>,
    /// The bytes that were received and have no answer yet.
    pub input: Vec<u8>,
    /// What is left to send.
    pub output: Vec<u8>,
}

/// A file that is read for a connection.
pub struct Reading {
    pub reader: Key,
    pub path: CString,
    /// The result of its open.
    pub opened: i32,
    pub bytes: Vec<u8>,
}
