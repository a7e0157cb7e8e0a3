//! A TCP server on `io_uring` whose connections and files are direct descriptors, over
//! `direct::Lives` and system calls. A line is answered with the same line, by one of two worker
//! threads; `get N` with the first line of file N, which is opened, read and closed by one
//! submission.
//!
//! Each connection and each file has a slot of the ring's table. While no slot is free, no accept
//! is submitted, and clients wait in the listening socket's backlog. A connection is also a value
//! of a table that threads share: workers hold it by the table's key. For the machine the value is
//! one user. Its drop, in whichever thread held it last, posts the machine's key to a queue, and
//! the ring's thread releases it.
//!
//! cargo run --release --example direct FOLDER [SLOTS [LOG]] serves the files of a folder, on 64
//! slots. It prints its port, and serves until its standard input ends. Then it prints what was
//! counted. It ends with status 77 if there is no `io_uring`. LOG is a file to which it writes its
//! calls on the table; to be judged, they must be few at a time, as on 3 slots.
mod life;
mod log;
mod ring;
mod server;
mod work;

use log::Log;
use ring::Ring;
use server::{serve, Counts};
use std::env;
use std::error::Error;
use std::path::{Path, PathBuf};
use std::process::ExitCode;

fn main() -> Result<ExitCode, Box<dyn Error>> {
    let folder = PathBuf::from(env::args().nth(1).ok_or("direct FOLDER [SLOTS [LOG]]")?);
    let slots = env::args().nth(2).map_or(Ok(64), |it| it.parse())?;
    let log = env::args().nth(3).map(|it| Log::new(Path::new(&it), &folder, slots)).transpose()?;
    let Ok(ring) = Ring::new(256, slots, log) else {
        eprintln!("io_uring is refused");
        return Ok(ExitCode::from(77));
    };
    let Counts { opened, closed, waits, ended, late, stale, .. } = serve(ring, slots, folder)?;
    println!(
        "{opened} opened, {closed} closed; {waits} times the backlog waited; {ended} ended by the \
         server"
    );
    println!("{late} answers were late, {stale} keys stale; 0 wrong");
    Ok(ExitCode::from(u8::from(opened != closed)))
}
