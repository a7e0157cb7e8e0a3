//! A thousand tasks of tokio, each of which has a session in a table of 256 slots for a while. No
//! task has a handle: the table lends it a seat for each call. A session is kept over `.await` by
//! an owned guard.
//!
//! With Debian's librust-tokio-dev no network is needed: cargo run --offline
use std::sync::atomic::{AtomicU32, Ordering};
use std::sync::Arc;
use std::time::Duration;
use tokio::sync::Barrier;
use yachtbanyan::{Options, OwnedGuard, Reason, Table};

const TASKS: u32 = 1_000;

static ENDED: AtomicU32 = AtomicU32::new(0);

struct Session {
    number: u32,
}

impl Drop for Session {
    fn drop(&mut self) {
        ENDED.fetch_add(1, Ordering::Relaxed);
    }
}

/// Works on a session, which may be removed in the meantime.
async fn work(session: OwnedGuard<Session>) -> u32 {
    tokio::time::sleep(Duration::from_millis(1)).await;
    session.number
}

/// Opens a session as soon as a slot is free, works on it, and removes it.
async fn task(table: Table<Session>, number: u32) -> u32 {
    let mut session = Session { number };
    let key = loop {
        match table.insert(session) {
            Ok(key) => break key,
            Err(refused) => {
                assert!(matches!(refused.reason, Reason::Full { .. }), "{refused}");
                session = refused.value;
                tokio::task::yield_now().await;
            }
        }
    };
    let worked = work(table.get_owned(key).expect("its own session")).await;
    table.remove(key).expect("its own session, and a seat");
    worked
}

/// Holds a session until every task does.
async fn hold(session: OwnedGuard<Session>, all: Arc<Barrier>) -> u32 {
    all.wait().await;
    session.number
}

#[tokio::main(worker_threads = 4)]
async fn main() -> Result<(), Box<dyn std::error::Error>> {
    let options = Options::new(256).handles(8).readers(0).guards(TASKS);
    let table = options.open::<Session>()?;

    let tasks: Vec<_> = (0..TASKS).map(|it| tokio::spawn(task(table.clone(), it))).collect();
    let mut sum = 0;
    for task in tasks {
        sum += task.await?;
    }
    println!("{sum}, {} ended", ENDED.load(Ordering::Relaxed));

    let key = table.insert(Session { number: 1 })?;
    let all = Arc::new(Barrier::new(TASKS as usize));
    let mut tasks = Vec::new();
    for _ in 0..TASKS {
        tasks.push(tokio::spawn(hold(table.get_owned(key)?, all.clone())));
    }
    table.remove(key)?;
    let mut sum = 0;
    for task in tasks {
        sum += task.await?;
    }
    println!("{sum}, {} ended", ENDED.load(Ordering::Relaxed));
    Ok(())
}
