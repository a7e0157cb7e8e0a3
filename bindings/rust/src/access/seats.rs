//! Seats: the workers of the core, and which of them are free.
use super::core::{self, Core};
use super::sync::{self, AtomicU32, AtomicU64, Ordering};
use crate::errors::{NoSeat, OpenError};
use crate::options::Options;
use std::cell::{Cell, UnsafeCell};
use std::sync::atomic::AtomicUsize;

/// A worker of the core, which this value owns. The seats of two threads share no cache line.
#[repr(align(128))]
pub(super) struct Seat {
    core: UnsafeCell<Core>,
    /// The neighbours of this seat in the list of guards of one reader.
    pub(super) next: Cell<Option<u32>>,
    pub(super) previous: Cell<Option<u32>>,
}

impl Seat {
    fn new(core: Core) -> Seat {
        Seat { core: UnsafeCell::new(core), next: Cell::new(None), previous: Cell::new(None) }
    }

    #[inline]
    pub(super) fn core(&self) -> *mut Core {
        self.core.get()
    }
}

impl Drop for Seat {
    fn drop(&mut self) {
        let core = std::mem::replace(self.core.get_mut(), Core::none());
        // SAFETY: the core's worker came from `yacht_core_open`, and nobody uses it after this.
        unsafe { core::yacht_core_close(core) }
    }
}

/// A seat that a handle, a reader or a guard has: its number, and its worker of the core, which is
/// at hand without a load.
#[derive(Clone, Copy)]
pub(super) struct Place {
    pub(super) number: u32,
    pub(super) core: *mut Core,
}

// SAFETY: a place is a number and an address. Each call that uses the core's worker is unsafe, and
// has its own argument.
unsafe impl Send for Place {}
// SAFETY: as above.
unsafe impl Sync for Place {}

/// The seat of a handle that installs: its worker of the core.
#[derive(Clone, Copy)]
pub(super) struct Installer {
    pub(super) core: *mut Core,
}

// SAFETY: an installer is an address. Each use of it is unsafe, and has its own argument.
unsafe impl Send for Installer {}
// SAFETY: as above.
unsafe impl Sync for Installer {}

/// 64 bits on cache lines of their own.
#[repr(align(128))]
struct Line(AtomicU64);

/// The number of seats in a word.
const IN_WORD: u32 = if cfg!(all(test, yachtbanyan_stand_in)) { 2 } else { u64::BITS };

/// A set of free numbers.
pub(super) struct Free(Box<[Line]>);

impl Free {
    /// Returns the set of the numbers below `count`.
    fn new(count: u32) -> Free {
        let bits = |first: u32| match count - first {
            rest if rest < IN_WORD => (1 << rest) - 1,
            _ => u64::MAX >> (u64::BITS - IN_WORD),
        };
        let firsts = (0..count).step_by(IN_WORD as usize);
        Free(firsts.map(|it| Line(AtomicU64::new(bits(it)))).collect())
    }

    /// Removes a number from the set, or returns `None` if it found each of the words empty. A
    /// thread begins at the word that it used last, and takes the smallest number of a word, so few
    /// seats are ever used.
    pub(super) fn claim(&self) -> Option<u32> {
        let count = self.0.len();
        let first = FIRST_WORD.try_with(Cell::get).unwrap_or(0);
        (0..count).find_map(|step| self.claim_in((first + step) % count))
    }

    fn claim_in(&self, word: usize) -> Option<u32> {
        let bits = &self.0[word].0;
        let mut found = bits.load(Ordering::Relaxed);
        while found != 0 {
            let without = found & (found - 1);
            // Acquires what the last user of the number did with its seat.
            match bits.compare_exchange_weak(found, without, Ordering::Acquire, Ordering::Relaxed) {
                Ok(_) => {
                    begin_at(word);
                    return Some(word as u32 * IN_WORD + found.trailing_zeros());
                }
                Err(now) => found = now,
            }
        }
        None
    }

    /// Adds a number to the set again. The caller has it from `claim`, and uses its seat no more.
    pub(super) fn give_back(&self, number: u32) {
        let word = (number / IN_WORD) as usize;
        self.0[word].0.fetch_or(1 << (number % IN_WORD), Ordering::Release);
        begin_at(word);
    }
}

thread_local! {
    /// The word at which the thread begins to look for a free number: at first one that few threads
    /// begin at.
    static FIRST_WORD: Cell<usize> = {
        static NEXT: AtomicUsize = AtomicUsize::new(0);
        Cell::new(NEXT.fetch_add(1, Ordering::Relaxed) % 16)
    };
}

/// Exchanges the word at which the thread begins to look, for threads that take turns.
#[cfg(all(test, yachtbanyan_stand_in))]
pub(super) fn exchange_first_word(word: usize) -> usize {
    FIRST_WORD.replace(word)
}

fn begin_at(word: usize) {
    // a thread that ends has no such word, and needs none
    let _ = FIRST_WORD.try_with(|it| it.set(word));
}

/// The seats of a table. `installing` has a seat for each handle. `looking` has the own seat of
/// each handle, that of each reader, and those of all other guards, in this order.
pub(super) struct Seats {
    pub(super) installing: Box<[Seat]>,
    pub(super) looking: Box<[Seat]>,
    readers: u32,
    free_handles: Free,
    free_readers: Free,
    free_guards: Free,
    /// The number of handles that have their seats. It is raised after the seats are claimed, and
    /// lowered before they are returned, so it is never larger than the number of claimed ones.
    handles: AtomicU32,
    /// The number of threads that wait for a handle.
    waiting: AtomicU32,
}

impl Seats {
    /// Opens a table of the core, with the seats that the options name.
    pub(super) fn open(options: &Options) -> Result<Seats, OpenError> {
        let count = options.workers()?;
        let mut cores: Vec<Core> = (0..count).map(|_| Core::none()).collect();
        // SAFETY: there is room for `count` workers; the numbers are in range.
        let answer = unsafe {
            core::yacht_core_open(options.slots, options.handles, cores.as_mut_ptr(), count)
        };
        let mut seats: Vec<Seat> =
            cores.into_iter().filter(|it| !it.worker().is_null()).map(Seat::new).collect();
        if answer != core::DONE || seats.len() != count {
            return Err(OpenError::NoMemory);
        }
        let looking = seats.split_off(options.handles as usize);
        Ok(Seats {
            installing: seats.into(),
            looking: looking.into(),
            readers: options.readers,
            free_handles: Free::new(options.handles),
            free_readers: Free::new(options.readers),
            free_guards: Free::new(options.guards),
            handles: AtomicU32::new(0),
            waiting: AtomicU32::new(0),
        })
    }

    fn most_handles(&self) -> u32 {
        self.installing.len() as u32
    }

    fn first_guard(&self) -> u32 {
        self.most_handles() + self.readers
    }

    /// Returns the seat that looks up and has this number.
    fn place(&self, number: u32) -> Place {
        let core = self.looking[number as usize].core();
        Place { number, core }
    }

    /// Returns the installing seat of a handle.
    pub(super) fn installer(&self, number: u32) -> Installer {
        let core = self.installing[number as usize].core();
        Installer { core }
    }

    /// Claims the seats of a handle, both of which have the number of the place that is returned.
    /// If a call of the table uses the last one, it waits for the end of that call.
    pub(super) fn claim_handle(&self) -> Result<Place, NoSeat> {
        self.waiting.fetch_add(1, Ordering::Relaxed);
        let claimed = self.claim_installing().inspect(|_| {
            self.handles.fetch_add(1, Ordering::Relaxed);
        });
        self.waiting.fetch_sub(1, Ordering::Relaxed);
        claimed.map(|number| self.place(number))
    }

    /// Claims an installing seat. If calls of the table use all that no handle has, it waits for
    /// the end of one.
    fn claim_installing(&self) -> Result<u32, NoSeat> {
        loop {
            if let Some(number) = self.free_handles.claim() {
                return Ok(number);
            }
            let in_use = self.handles.load(Ordering::Relaxed);
            if in_use == self.most_handles() {
                return Err(NoSeat::Handle { in_use });
            }
            sync::yield_now();
        }
    }

    /// Claims the seats of a handle for one call of the table. If other such calls use all that no
    /// handle has, it waits for the end of one. It steps back once for a thread that waits for a
    /// handle, whose turn would else seldom come between calls.
    pub(super) fn claim_call(&self) -> Result<Call<'_>, NoSeat> {
        if self.waiting.load(Ordering::Relaxed) > 0 {
            sync::yield_now();
        }
        let number = self.claim_installing()?;
        Ok(Call { seats: self, number })
    }

    /// Claims the seat of a reader.
    pub(super) fn claim_reader(&self) -> Result<Place, NoSeat> {
        let in_use = self.readers;
        let number = self.free_readers.claim().ok_or(NoSeat::Reader { in_use })?;
        Ok(self.place(self.most_handles() + number))
    }

    /// Claims a seat for a guard.
    pub(super) fn claim_guard(&self) -> Result<Place, NoSeat> {
        let first = self.first_guard();
        let in_use = self.looking.len() as u32 - first;
        let number = self.free_guards.claim().ok_or(NoSeat::Guard { in_use })?;
        Ok(self.place(first + number))
    }

    /// Returns the seats of a handle, the seat of a reader, or that of a guard.
    pub(super) fn give_back(&self, number: u32) {
        if number >= self.first_guard() {
            self.free_guards.give_back(number - self.first_guard());
        } else if number >= self.most_handles() {
            self.free_readers.give_back(number - self.most_handles());
        } else {
            self.handles.fetch_sub(1, Ordering::Relaxed);
            self.free_handles.give_back(number);
        }
    }
}

/// The seats of a handle, for one call.
pub(super) struct Call<'t> {
    seats: &'t Seats,
    number: u32,
}

impl Call<'_> {
    /// Returns the core's worker that installs.
    pub(super) fn core(&self) -> *mut Core {
        self.seats.installing[self.number as usize].core()
    }
}

impl Drop for Call<'_> {
    fn drop(&mut self) {
        self.seats.free_handles.give_back(self.number);
    }
}
