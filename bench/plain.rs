//! A plain program for the same scripts, which bench/bench times beside fixfiles: written as one
//! would write it without proofs, with maps, `Rc` and `String`. It knows the lines that the bench
//! uses, refuses a script with any other, and checks no limit but those of a table.
use std::collections::HashMap;
use std::fmt::Write as _;
use std::io::{self, Read, Write};
use std::rc::Rc;

struct File {
    mark: [u32; 4],
    entry: usize,
}

enum Op {
    Open(String, usize),
    Read(usize, usize, usize),
    Close(usize),
    Update(usize, Vec<i32>),
}

/// A request, with whether the next one is linked to it.
type Request = (Op, bool);

enum Command {
    Sparse(usize),
    Submit(Vec<Request>),
}

#[derive(Default)]
struct Script {
    names: Vec<String>,
    bytes: Vec<Vec<u8>>,
    entries: HashMap<String, usize>,
    commands: Vec<Command>,
}

fn hexadecimal(word: &str) -> Option<Vec<u8>> {
    if word == "-" {
        return Some(Vec::new());
    }
    let digits = word.as_bytes().chunks(2);
    digits.map(|it| u8::from_str_radix(std::str::from_utf8(it).ok()?, 16).ok()).collect()
}

fn read_script(text: &str) -> Option<Script> {
    let mut script = Script::default();
    let mut waiting = Vec::new();
    for line in text.lines() {
        if line.is_empty() || line.starts_with('#') {
            continue;
        }
        let words: Vec<&str> = line.split(' ').collect();
        let (words, link) = match words.as_slice() {
            [front @ .., "link"] => (front, true),
            all => (all, false),
        };
        match words {
            ["file", name, hex] => {
                script.entries.insert(name.to_string(), script.names.len());
                script.names.push(name.to_string());
                script.bytes.push(hexadecimal(hex)?);
            }
            ["sparse", n] => script.commands.push(Command::Sparse(n.parse().ok()?)),
            ["open", name, "at", slot] => waiting.push((Op::Open(name.to_string(), slot.parse().ok()?), link)),
            ["read", slot, off, len] => waiting.push((Op::Read(slot.parse().ok()?, off.parse().ok()?, len.parse().ok()?), link)),
            ["close", slot] => waiting.push((Op::Close(slot.parse().ok()?), link)),
            ["update", off, list] => {
                let list: Option<Vec<i32>> = list.split(',').map(|it| it.parse().ok()).collect();
                waiting.push((Op::Update(off.parse().ok()?, list?), link));
            }
            ["submit"] => script.commands.push(Command::Submit(std::mem::take(&mut waiting))),
            _ => return None,
        }
    }
    waiting.is_empty().then_some(script)
}

struct Table {
    slots: Vec<Option<Rc<File>>>,
    closed: Vec<Rc<File>>,
}

impl Table {
    fn put(&mut self, slot: usize, file: Option<Rc<File>>) {
        if let Some(old) = std::mem::replace(&mut self.slots[slot], file) {
            self.closed.push(old);
        }
    }

    fn perform(&mut self, script: &Script, place: [u32; 3], op: &Op, got: &mut Vec<u8>) -> i32 {
        let [submission, chain, member] = place;
        let opened = |entry, nth| Some(Rc::new(File { mark: [submission, chain, member, nth], entry }));
        match op {
            Op::Open(name, slot) => match script.entries.get(name) {
                None => -2,
                Some(_) if self.slots.is_empty() => -6,
                Some(_) if *slot >= self.slots.len() => -22,
                Some(entry) => {
                    self.put(*slot, opened(*entry, 0));
                    0
                }
            },
            Op::Read(slot, off, len) => match self.slots.get(*slot).cloned().flatten() {
                None => -9,
                Some(file) => {
                    let bytes = &script.bytes[file.entry];
                    let from = (*off).min(bytes.len());
                    got.extend_from_slice(&bytes[from..(from + len).min(bytes.len())]);
                    got.len() as i32
                }
            },
            Op::Close(_) if self.slots.is_empty() => -6,
            Op::Close(slot) if *slot >= self.slots.len() => -22,
            Op::Close(slot) if self.slots[*slot].is_none() => -9,
            Op::Close(slot) => {
                self.put(*slot, None);
                0
            }
            Op::Update(_, _) if self.slots.is_empty() => -6,
            Op::Update(off, list) if list.is_empty() || off + list.len() > self.slots.len() => -22,
            Op::Update(_, list) if list.iter().any(|it| *it < -2 || *it >= script.names.len() as i32) => -9,
            Op::Update(off, list) => {
                for (nth, entry) in list.iter().enumerate() {
                    match entry {
                        -2 => {}
                        -1 => self.put(off + nth, None),
                        _ => self.put(off + nth, opened(*entry as usize, nth as u32)),
                    }
                }
                list.len() as i32
            }
        }
    }

    fn submit(&mut self, script: &Script, submission: u32, requests: &[Request]) -> String {
        let (mut text, mut chain, mut member, mut is_severed) = (String::new(), 1, 1, false);
        for (op, link) in requests {
            let mut got = Vec::new();
            let res = if is_severed { -125 } else { self.perform(script, [submission, chain, member], op, &mut got) };
            let has_failed = res < 0 || matches!(op, Op::Read(_, _, len) if (res as usize) < *len);
            is_severed |= has_failed;
            let _ = write!(text, "{submission}.{chain}.{member} {res}");
            if !got.is_empty() {
                text.push(' ');
                for byte in got {
                    text.push(char::from_digit(u32::from(byte >> 4), 16).unwrap());
                    text.push(char::from_digit(u32::from(byte & 15), 16).unwrap());
                }
            }
            text.push('\n');
            (chain, member, is_severed) = if *link { (chain, member + 1, is_severed) } else { (chain + 1, 1, false) };
        }
        text
    }

    fn tell_closed(&mut self, script: &Script, text: &mut String) {
        self.closed.sort_by_key(|it| it.mark);
        for file in self.closed.drain(..) {
            let [submission, chain, member, nth] = file.mark;
            let _ = writeln!(text, "closed {submission}.{chain}.{member}.{nth} {}", script.names[file.entry]);
        }
    }
}

fn play(script: &Script, mut out: impl Write) -> io::Result<()> {
    let mut table = Table { slots: Vec::new(), closed: Vec::new() };
    let mut submissions = 0;
    for command in &script.commands {
        let mut text = match command {
            Command::Sparse(n) => {
                table.slots.resize_with(*n, || None);
                "sparse 0\n".to_string()
            }
            Command::Submit(requests) => {
                submissions += 1;
                table.submit(script, submissions, requests)
            }
        };
        table.tell_closed(script, &mut text);
        out.write_all(text.as_bytes())?;
    }
    table.closed = table.slots.drain(..).flatten().collect();
    if !table.closed.is_empty() {
        let mut text = "teardown\n".to_string();
        table.tell_closed(script, &mut text);
        out.write_all(text.as_bytes())?;
    }
    Ok(())
}

fn main() -> io::Result<()> {
    let mut text = String::new();
    io::stdin().read_to_string(&mut text)?;
    match read_script(&text) {
        Some(script) => play(&script, io::stdout().lock()),
        None => std::process::exit(3),
    }
}
