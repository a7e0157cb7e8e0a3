//! Pages without code.

pub mod patterns {
    //! Four patterns of programs with a [`Table`](crate::Table).
    //!
    //! # Configuration and reload
    //!
    //! ```
    //! use std::{sync::mpsc, thread};
    //! use yachtbanyan::{Old, Table};
    //!
    //! let table = Table::<u32>::with_slots(1)?;
    //! table.replace_at(0, 10)?;
    //! let mut limit = table.cached(0)?; // one for each worker
    //! let ((requests, received), (answer, answers)) = (mpsc::channel(), mpsc::channel());
    //! thread::spawn(move || {
    //!     for size in received {
    //!         answer.send(size <= *limit.get().unwrap()).unwrap();
    //!     }
    //! });
    //! requests.send(15)?;
    //! assert!(!answers.recv()?);
    //! assert_eq!(table.replace_at(0, 20)?.1, Old::InUse); // a reload: the worker keeps 10
    //! requests.send(15)?;
    //! assert!(answers.recv()?); // the worker's `get` has dropped 10
    //! # Ok::<(), Box<dyn std::error::Error>>(())
    //! ```
    //!
    //! A `get` is one load while the slot has the value that the worker found last. The worker
    //! keeps that value until its next `get` finds another one, or until it drops the cached slot:
    //! a worker without requests keeps an old configuration. A thread with a reader calls
    //! [`Reader::cached`](crate::Reader::cached), which takes the reader's own seat if it is free.
    //!
    //! # Read, change, replace
    //!
    //! ```
    //! use yachtbanyan::{Handle, Reason, Refused, Table};
    //!
    //! /// Takes one of what is left. Returns whether any was.
    //! fn take(left: &Handle<u32>) -> Result<bool, Box<dyn std::error::Error>> {
    //!     loop {
    //!         let guard = left.get_at(0)?;
    //!         let (key, less) = (guard.key(), guard.checked_sub(1));
    //!         drop(guard);
    //!         let Some(less) = less else { return Ok(false) };
    //!         match left.replace(key, less) {
    //!             Err(Refused { reason: Reason::Stale { .. }, .. }) => {} // again
    //!             other => return Ok(other.map(|_| true)?),
    //!         }
    //!     }
    //! }
    //! let table = Table::<u32>::with_slots(1)?;
    //! table.replace_at(0, 90)?;
    //! table.handle()?.update_at(0, |it| it + 10)?;
    //! let start = |it: Handle<u32>| {
    //!     std::thread::spawn(move || (0..40).filter(|_| take(&it).unwrap()).count())
    //! };
    //! let threads = [(); 4].map(|()| start(table.handle().unwrap()));
    //! let taken: usize = threads.map(|it| it.join().unwrap()).iter().sum();
    //! assert_eq!((taken, *table.get_owned_at(0)?), (100, 0));
    //! # Ok::<(), Box<dyn std::error::Error>>(())
    //! ```
    //!
    //! The key names the value that was read. If another thread has replaced that value, `replace`
    //! returns `Stale`, and no change is lost. [`update_at`](crate::Handle::update_at) is this loop
    //! for a change that is always made. It also returns if a value has no number.
    //!
    //! # Shutdown
    //!
    //! ```
    //! use std::{sync::mpsc::{channel, RecvTimeoutError::Disconnected}, thread, time::Duration};
    //! use yachtbanyan::{Old, Table};
    //!
    //! let (open, closed) = channel::<()>();
    //! let table = Table::with_slots(4)?;
    //! for (number, open) in (0..).zip([open.clone(), open.clone(), open]) {
    //!     table.replace_at(number, (number, open))?;
    //! }
    //! let request = table.get_owned_at(1)?; // from here on no thread installs
    //! let olds: Vec<_> = table.handle()?.drain().collect();
    //! assert!(matches!(olds[..], [(0, Old::Unused(_)), (1, Old::InUse), (2, Old::Unused(_))]));
    //! drop(olds);
    //! assert_eq!(request.0, 1); // the guard keeps it
    //! thread::spawn(move || drop(request)); // its last user drops it
    //! assert_eq!(closed.recv_timeout(Duration::from_secs(60)), Err(Disconnected)); // all gone
    //! # Ok::<(), Box<dyn std::error::Error>>(())
    //! ```
    //!
    //! `drain` empties one slot after another, so first stop the threads that install. Handles
    //! and guards may be alive: the last user of a value drops it. Values that are left in slots
    //! are dropped with the table's last clone, handle, reader, owned guard and owned cached slot.
    //! So an owned guard keeps its value and the table; if it is forgotten, for ever.
    //!
    //! # One snapshot for a request
    //!
    //! ```
    //! let table = yachtbanyan::Table::<(&str, u16)>::with_slots(1)?;
    //! let handle = table.handle()?;
    //! handle.replace_at(0, ("old.example", 80))?;
    //! let config = handle.get_at(0)?; // once, and held until the end of the request
    //! table.replace_at(0, ("new.example", 443))?; // a reload
    //! assert_eq!((config.0, config.1), ("old.example", 80));
    //! assert_eq!((config.0, handle.get_at(0)?.1), ("old.example", 443)); // a mixture
    //! # Ok::<(), Box<dyn std::error::Error>>(())
    //! ```
    //!
    //! Two look-ups may find two values, but a guard keeps one until its drop. Over an `.await`,
    //! use an owned guard: [`Table::get_owned_at`](crate::Table::get_owned_at).
}
