//! The threads that work on connections, and what they share with the ring's thread.
use std::io::Write;
use std::os::unix::net::UnixStream;
use std::sync::atomic::{AtomicU32, Ordering};
use std::sync::mpsc::{Receiver, Sender};
use std::sync::Mutex;
use std::thread;
use std::time::Duration;
use yachtbanyan::direct::{Key, User};
use yachtbanyan::Reader;

/// A line of a connection, and then its answer: with the connection's key, and its name in the
/// table.
pub struct Job {
    pub key: Key,
    pub name: yachtbanyan::Key,
    pub line: Vec<u8>,
}

/// Wakes the ring's thread, which reads the other end of the bell by its ring.
pub fn ring(mut bell: &UnixStream) {
    let _is_heard = bell.write(&[1]); // a full one is loud enough
}

pub struct Workers {
    pub asked: Mutex<Receiver<Job>>,
    pub answers: Sender<Job>,
    pub bell: UnixStream,
    /// Keys by which a worker found no connection: it had ended.
    pub stale: AtomicU32,
}

impl Workers {
    /// Answers lines until no more come. The connection of each is held meanwhile.
    pub fn work(&self, reader: &Reader<User>) {
        let next = || self.asked.lock().unwrap().recv().ok();
        for (nth, job) in std::iter::from_fn(next).enumerate() {
            let Ok(user) = reader.get(job.name) else {
                self.stale.fetch_add(1, Ordering::Relaxed);
                continue;
            };
            if nth % 64 == 0 {
                thread::sleep(Duration::from_micros(300)); // an answer that takes longer
            }
            assert_eq!(User::key(&user), job.key, "a worker holds another connection");
            drop(user);
            let _is_taken = self.answers.send(job);
            ring(&self.bell);
        }
    }
}
