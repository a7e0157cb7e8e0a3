//! A table of connections. Each new one gets a free slot as its number, and a key. Any thread sends
//! to a connection by its key, and any thread ends one: the last thread that uses it closes it. The
//! key of a connection that has ended finds none, even if another one has its number.
//!
//! It connects to itself, on a port of this machine: cargo run --example connections
use std::io::{BufRead, BufReader, Write};
use std::net::{TcpListener, TcpStream};
use std::sync::atomic::{AtomicU32, Ordering};
use yachtbanyan::{GetError, Key, Old, Options, Reason, Table};

const SLOTS: u32 = 3;

static CLOSED: AtomicU32 = AtomicU32::new(0);

struct Connection(TcpStream);

impl Drop for Connection {
    // The stream is closed after this.
    fn drop(&mut self) {
        CLOSED.fetch_add(1, Ordering::Relaxed);
    }
}

/// Gives a new connection its number, or tells it that all are in use.
fn welcome(table: &Table<Connection>, stream: TcpStream) -> std::io::Result<Option<Key>> {
    match table.insert(Connection(stream)) {
        Ok(key) => {
            let line = format!("you are {}", key.slot());
            send(table, key, &line).map_err(std::io::Error::other)?;
            Ok(Some(key))
        }
        // the connection comes back, and is closed here
        Err(refused) => {
            let full = matches!(refused.reason, Reason::Full { .. });
            writeln!(&refused.value.0, "come back later: {full}")?;
            Ok(None)
        }
    }
}

/// Sends a line to a connection. It stays open until it is sent, even if another thread ends it in
/// the meantime.
fn send(table: &Table<Connection>, key: Key, line: &str) -> Result<(), GetError> {
    let connection = table.get_owned(key)?;
    // One write for the whole line, since other threads send too. A client that has gone is none of
    // the sender's business.
    let _ = (&connection.0).write_all(format!("{line}\n").as_bytes());
    Ok(())
}

fn next_line(client: &mut BufReader<TcpStream>) -> String {
    let mut line = String::new();
    client.read_line(&mut line).expect("a line");
    line.trim_end().to_string()
}

fn main() -> Result<(), Box<dyn std::error::Error>> {
    let table = Options::new(SLOTS).handles(2).readers(0).guards(16).open::<Connection>()?;
    let listener = TcpListener::bind("127.0.0.1:0")?;
    let address = listener.local_addr()?;
    let (mut clients, mut keys) = (Vec::new(), Vec::new());
    for _ in 0..=SLOTS {
        let client = TcpStream::connect(address)?;
        keys.extend(welcome(&table, listener.accept()?.0)?);
        let mut client = BufReader::new(client);
        println!("a client reads: {}", next_line(&mut client));
        clients.push(client);
    }

    // each thread sends to each connection
    std::thread::scope(|scope| {
        for _ in 0..4 {
            scope.spawn(|| keys.iter().for_each(|key| send(&table, *key, "hello").unwrap()));
        }
    });
    let lines: Vec<String> = (0..4).map(|_| next_line(&mut clients[0])).collect();
    println!("client 0 reads: {}", lines.join(", "));

    // a connection that is in use is ended, and closed by its last user
    let ended = keys[1];
    let user = table.get_owned(ended)?;
    println!("in use: {}", matches!(table.remove(ended)?, Old::InUse));
    println!("send: {}", send(&table, ended, "hello").unwrap_err());
    println!("closed: {}", CLOSED.load(Ordering::Relaxed));
    drop(user);
    println!("closed: {}", CLOSED.load(Ordering::Relaxed));

    // its number is free again, and its key finds no other connection
    clients.push(BufReader::new(TcpStream::connect(address)?));
    let new = welcome(&table, listener.accept()?.0)?;
    println!("a new client has: {:?}", new.map(Key::slot));
    println!("send: {}", send(&table, ended, "hello").unwrap_err());
    drop(table);
    println!("closed: {}", CLOSED.load(Ordering::Relaxed));
    Ok(())
}
