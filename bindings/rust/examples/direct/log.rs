//! Writes the calls on the ring's table, and what was seen of them, as a log of calls in flight
//! (docs/inside/FLIGHT.md), which a judge compares with the rules of the table.
//!
//! An accept is an open of the file `c`. A receive is a look, and the file that it found is that
//! of the connection whose number the line has: so a line that reached another connection shows. A
//! line without a number, and the end of a connection, don't show which file they found: there the
//! log has the one of the receive's own key. Sends and shutdowns are left out: they change
//! nothing.
use crate::ring::Sqe;
use std::collections::HashMap;
use std::fs::{self, File};
use std::io::{LineWriter, Result, Write};
use std::path::Path;
use yachtbanyan::direct::{Completion, Key};

const EMPTY_SLOT: i32 = -9;
const CANCELED: i32 = -125;

pub struct Log {
    out: LineWriter<File>,
    // the number of the call that is queued, and its words
    call: u32,
    words: Vec<String>,
    // of each request, by its user data: its call, its place there, and its entry
    in_flight: HashMap<u64, (u32, usize, Sqe)>,
    // the call that opened each life, and that of the life where a client's number was seen first
    opens: HashMap<Key, u32>,
    owners: HashMap<u32, u32>,
}

fn hex(bytes: &[u8]) -> String {
    bytes.iter().map(|it| format!("{it:02x}")).collect()
}

/// Returns the number of the client whose line is among these bytes.
fn number_in(bytes: &[u8]) -> Option<u32> {
    let mut lines = std::str::from_utf8(bytes).ok()?.lines();
    lines.find_map(|it| it.split_once(' ')?.0.parse().ok())
}

impl Log {
    pub fn new(path: &Path, folder: &Path, slots: u32) -> Result<Log> {
        let mut out = LineWriter::new(File::create(path)?);
        writeln!(out, "file c -")?;
        for it in fs::read_dir(folder)? {
            let path = it?.path();
            if path.is_file() {
                let name = path.file_name().unwrap_or_default().to_string_lossy();
                writeln!(out, "file f{name} {}", hex(&fs::read(&path)?))?;
            }
        }
        writeln!(out, "call 1 sparse {slots}\ndone 1.1 0")?;
        let (in_flight, opens, owners) = Default::default();
        Ok(Log { out, call: 2, words: Vec::new(), in_flight, opens, owners })
    }

    /// Appends a call, once the last entry of a chain is queued.
    pub fn queued(&mut self, it: &Sqe) -> Result<()> {
        const LINKS: [&str; 3] = ["", " link", " hardlink"];
        let (slot, to, link) = (it.fd, it.file_index.wrapping_sub(1), usize::from(it.flags / 4));
        let words = match it.opcode {
            Sqe::ACCEPT => format!("open c at {to}"),
            Sqe::OPEN => format!("open f{} at {to}", it.name()),
            Sqe::READ if it.flags > 0 => format!("read {slot} 0 {}", it.len), // on a slot
            Sqe::RECEIVE => format!("look {slot}"),
            Sqe::CLOSE => format!("close {to}"),
            _ => return Ok(()),
        };
        self.words.push(words + LINKS[link]);
        self.in_flight.insert(it.data, (self.call, self.words.len(), *it));
        // the first request with a life's key is its open
        self.opens.entry(Key::from_bits(it.data).0).or_insert(self.call);
        if link == 0 {
            writeln!(self.out, "call {} {}", self.call, self.words.join(" ; "))?;
            self.words.clear();
            self.call += 1;
        }
        Ok(())
    }

    /// Appends an answer.
    pub fn completed(&mut self, it: Completion) -> Result<()> {
        let Completion { user_data, result, .. } = it;
        let Some((call, member, sqe)) = self.in_flight.remove(&user_data) else { return Ok(()) };
        let seen = match sqe.opcode {
            // an accept that was canceled has no answer
            Sqe::ACCEPT if result == CANCELED => return Ok(()),
            Sqe::RECEIVE if result != EMPTY_SLOT => {
                let own = self.opens[&Key::from_bits(user_data).0];
                let number = number_in(sqe.written(result));
                let owner = number.map_or(own, |it| *self.owners.entry(it).or_insert(own));
                format!("0 {owner}.1.0\nfree {call}")
            }
            Sqe::READ if result > 0 => format!("{result} {}", hex(sqe.written(result))),
            _ => result.to_string(),
        };
        writeln!(self.out, "done {call}.{member} {seen}")
    }
}
