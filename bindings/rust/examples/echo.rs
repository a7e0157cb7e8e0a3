//! An echo server on `io_uring` whose connections are direct descriptors, over `direct::Lives` and
//! the ring of the example `direct`. It prints its port, and serves until its standard input ends.
//! Then it ends each connection, and prints how many it opened and closed. It ends with status 77
//! if `io_uring` is refused.
#[allow(dead_code)]
#[path = "direct/log.rs"]
mod log;
#[allow(dead_code)]
#[path = "direct/ring.rs"]
mod ring;

use ring::{Ring, Sqe};
use std::error::Error;
use std::net::TcpListener;
use std::os::fd::AsRawFd;
use std::process::ExitCode;
use yachtbanyan::direct::{Event, Key, Lives};

const SLOTS: u32 = 64;
const BYTES: usize = 256;
const RECEIVE: u8 = 0; // the kinds of requests on a connection
const SEND: u8 = 1;
const INPUT: u64 = 1; // the user data of a request without a key
type Lines = Lives<Line, Ring>;
/// The bytes of a connection, and of what is sent the begin and the end.
#[derive(Default)]
struct Line(Box<[u8]>, usize, usize);
fn receive(lives: &mut Lines, key: Key) {
    let Some(Line(bytes, ..)) = lives.live(key) else { return };
    let receive = Sqe::receive(bytes.as_mut_ptr(), BYTES);
    lives.start(key, RECEIVE, receive).expect("it is live");
}
fn send_rest(lives: &mut Lines, key: Key, begin: usize, end: usize) {
    let Some(line) = lives.live(key) else { return };
    (line.1, line.2) = (begin, end);
    let send = Sqe::send(&line.0[begin..end]);
    lives.start(key, SEND, send).expect("it is live");
}
fn completed(lives: &mut Lines, key: Key, kind: u8, result: i32) {
    let Some(Line(_, begin, end)) = lives.get_mut(key) else { return };
    let (sent, end) = (*begin + result.max(0) as usize, *end);
    match kind {
        _ if result <= 0 => lives.end(key), // the peer's end, or an error
        RECEIVE => send_rest(lives, key, 0, result as usize),
        _ if sent < end => send_rest(lives, key, sent, end),
        _ => receive(lives, key),
    }
}
fn serve(mut lives: Lines, listener: &TcpListener) -> Result<(), Box<dyn Error>> {
    let (mut opened, mut closed, mut byte) = (0, 0, 0);
    lives.push_other(Sqe::read(0, &mut byte, 1), INPUT);
    lives.accept(listener.as_raw_fd(), 4, 0);
    while let Some(event) = lives.next()? {
        match event {
            Event::Opened(key, _) => {
                opened += 1;
                *lives.get_mut(key).expect("it is not over") = Line(vec![0; BYTES].into(), 0, 0);
                receive(&mut lives, key);
            }
            Event::Completed { key, kind, result, .. } => completed(&mut lives, key, kind, result),
            Event::Over(..) => closed += 1,
            Event::Other(_) => lives.stop(), // the input has ended
            Event::Stopped(error) => return Err(format!("accept: {error}").into()),
        }
    }
    println!("{opened} opened, {closed} closed");
    Ok(())
}
fn main() -> Result<ExitCode, Box<dyn Error>> {
    let listener = TcpListener::bind(("127.0.0.1", 0))?;
    ring::set_backlog(&listener, 512)?;
    let Ok(ring) = Ring::new(128, SLOTS, None) else {
        eprintln!("io_uring is refused");
        return Ok(ExitCode::from(77));
    };
    println!("{}", listener.local_addr()?.port());
    serve(Lives::new(ring, SLOTS)?, &listener)?;
    Ok(ExitCode::SUCCESS)
}
