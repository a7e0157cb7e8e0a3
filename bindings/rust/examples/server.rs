//! The connections of a server: four threads, and 100,000 connections in 4,096 slots, or 400,000 in
//! 131,072, of which 100,000 are open at a time. Any thread answers a request of any connection, or
//! ends one. A request has the key of its connection in 64 bits, as `epoll` returns them. It may be
//! late: its connection has ended, and another one has the slot. Then the key is stale, and the
//! other connection is left alone.
//!
//! The connections are numbers in place of sockets: cargo run --release --example server
use std::collections::VecDeque;
use std::sync::atomic::{AtomicU32, Ordering::Relaxed};
use std::sync::Mutex;
use yachtbanyan::{Handle, Key, Options, Table};

const THREADS: u32 = 4;

/// The numbers of a server: its slots, its connections in all, and those that are open at a time.
struct Load {
    slots: u32,
    connections: u32,
    open: u32,
}

const LOADS: [Load; 2] = [
    Load { slots: 4_096, connections: 100_000, open: 4_096 },
    Load { slots: 131_072, connections: 400_000, open: 100_000 },
];

static CLOSED: AtomicU32 = AtomicU32::new(0);

struct Connection {
    number: u32,
}

impl Drop for Connection {
    fn drop(&mut self) {
        CLOSED.fetch_add(1, Relaxed);
    }
}

/// A request: the key of a connection, and the connection's number, which a client knows.
type Request = Mutex<Option<(u64, u32)>>;

/// A thread's handle, and the number of requests of each kind that it had.
struct Server<'a> {
    handle: Handle<Connection>,
    requests: &'a [Request],
    /// The number of connections that this thread keeps open.
    open: usize,
    random: u32,
    ended: u32,
    late: u32,
    wrong: u32,
}

impl Server<'_> {
    fn a_request(&mut self) -> usize {
        self.random = self.random.wrapping_mul(1_664_525).wrapping_add(1_013_904_223);
        (self.random >> 16) as usize % self.requests.len()
    }

    /// Accepts a connection, whose requests may come to any thread.
    fn accept(&mut self, number: u32) -> Key {
        let key = self.handle.insert(Connection { number });
        let key = key.expect("a slot: the threads keep at most as many open");
        let bits = key.to_bits().expect("a key of fewer than 64 bits");
        let request = self.a_request();
        *self.requests[request].lock().unwrap() = Some((bits, number));
        key
    }

    /// Answers a request.
    fn answer(&mut self, key: Key, number: u32) {
        match self.handle.get(key) {
            Ok(connection) => self.wrong += u32::from(connection.number != number),
            Err(_) => self.late += 1,
        }
    }

    /// Ends a connection, unless another thread has. Its last user closes it. From then on its key
    /// finds nothing.
    fn end(&mut self, key: Key) {
        match self.handle.remove(key) {
            Ok(_) => self.ended += 1,
            Err(_) => self.late += 1,
        }
        self.wrong += u32::from(self.handle.get(key).is_ok());
    }

    /// Serves until this thread has accepted its share of the connections, and all have ended.
    fn serve(mut self, share: std::ops::Range<u32>) -> Self {
        let mut open = VecDeque::new();
        for number in share {
            if open.len() == self.open {
                open.pop_front().into_iter().for_each(|key| self.end(key));
            }
            open.push_back(self.accept(number));
            let request = self.a_request();
            let request = *self.requests[request].lock().unwrap();
            match request.map(|(bits, number)| (Key::from_bits(bits), number)) {
                Some((key, number)) if number % 8 != 0 => self.answer(key, number),
                Some((key, _)) => self.end(key),
                None => {}
            }
        }
        open.into_iter().for_each(|key| self.end(key));
        self
    }
}

fn main() -> Result<(), Box<dyn std::error::Error>> {
    for load in &LOADS {
        serve_all(load)?;
    }
    Ok(())
}

fn serve_all(load: &Load) -> Result<(), Box<dyn std::error::Error>> {
    let table: Table<Connection> = Options::new(load.slots).handles(THREADS).open()?;
    let requests: Vec<Request> = (0..64).map(|_| Mutex::default()).collect();
    let mut servers = Vec::new();
    let each = load.connections / THREADS;
    for number in 0..THREADS {
        let server = Server {
            handle: table.handle()?,
            requests: &requests,
            open: (load.open / THREADS) as usize,
            random: number,
            ended: 0,
            late: 0,
            wrong: 0,
        };
        servers.push((server, each * number..each * (number + 1)));
    }
    let servers: Vec<Server> = std::thread::scope(|scope| {
        let mut threads = Vec::new();
        for (server, share) in servers {
            threads.push(scope.spawn(move || server.serve(share)));
        }
        threads.into_iter().map(|it| it.join().unwrap()).collect()
    });
    let sum = |count: fn(&Server) -> u32| servers.iter().map(count).sum::<u32>();
    println!("{} connections at a time:", load.open);
    println!("{} were ended by their keys", sum(|it| it.ended));
    let late = if sum(|it| it.late) > 0 { "some" } else { "no" };
    println!("{late} requests came after the end of their connection");
    println!("{} requests found another connection", sum(|it| it.wrong));
    println!("{} connections were closed", CLOSED.swap(0, Relaxed));
    Ok(())
}
