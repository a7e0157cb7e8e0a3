//! A plain machine in place of the verified one, with nothing proved: for sanitizers, which can't
//! see into a library that they have not compiled, and as the model of the tests. It has the same
//! functions and numbers.
use super::core::{
    Machine, BAD_ARGUMENT, CHAINED, CLOSE, CLOSING, DONE, ENDING, FULL, IS_CHAINED, LIVE,
    MOST_SLOTS, NOT_FREE, OPENING, STALE, STOPPED, TOO_MANY_REQUESTS, TOO_MANY_USERS,
};

const FREE: i32 = 0;
const LAST_NUMBER: u64 = (1 << 40) - 1;

#[derive(Clone, Copy, Default)]
struct Life {
    number: u64,
    phase: i32,
    requests: u32,
    users: u32,
    chain: Chain,
}

// What was seen of a chain: whether its open succeeded; whether it has a close, and whether that
// took the file; and whether the life was ended.
#[derive(Clone, Copy, Default)]
struct Chain {
    opened: Option<bool>,
    closes: bool,
    took: Option<bool>,
    ended: bool,
}

// Returns the number of a refusal in this phase.
fn refusal(phase: i32) -> i32 {
    if phase == CHAINED {
        IS_CHAINED
    } else {
        STALE - phase
    }
}

fn slot_of(key: u64) -> u32 {
    (key >> 4) as u32 & (MOST_SLOTS - 1)
}

pub struct Plain {
    lives: Vec<Life>,
    // the slots that may be reserved, of which the last one is the next
    free: Vec<u32>,
    pub len: u32,
    pub in_flight: u64,
    pub stopped: bool,
    range: (u32, u32),
}

impl Plain {
    pub fn new(slots: u32, range: (u32, u32)) -> Plain {
        let lives = vec![Life::default(); slots as usize];
        let mut it = Plain { lives, free: Vec::new(), len: 0, in_flight: 0, stopped: false, range };
        it.free = (0..slots).filter(|slot| !it.is_ranged(*slot)).collect();
        it
    }

    fn key(&self, slot: u32) -> u64 {
        self.lives[slot as usize].number << 24 | u64::from(slot) << 4
    }

    // Returns the life of a key, or STALE.
    fn life(&mut self, key: u64) -> Result<&mut Life, i32> {
        match self.lives.get_mut(slot_of(key) as usize) {
            Some(life) if life.number == key >> 24 && life.phase != FREE => Ok(life),
            _ => Err(STALE),
        }
    }

    // Returns the life of a key that is in this phase, or the refusal.
    fn in_phase(&mut self, key: u64, phase: i32) -> Result<&mut Life, i32> {
        let life = self.life(key)?;
        if life.phase != phase {
            return Err(refusal(life.phase));
        }
        Ok(life)
    }

    fn end_of_life(&mut self, key: u64, phase: i32) -> Result<i32, i32> {
        self.in_phase(key, phase)?;
        self.in_flight -= 1;
        self.free_slot(key)
    }

    fn free_slot(&mut self, key: u64) -> Result<i32, i32> {
        let (slot, life) = (slot_of(key), self.life(key)?);
        life.phase = FREE;
        if life.number != LAST_NUMBER && !self.is_ranged(slot) {
            self.free.push(slot);
        }
        self.len -= 1;
        Ok(DONE)
    }

    // Asks for the close of a life that was ended, if nobody is left.
    fn settle(&mut self, key: u64) -> Result<i32, i32> {
        let life = self.life(key)?;
        if life.phase != ENDING || life.requests > 0 || life.users > 0 {
            return Ok(DONE);
        }
        life.phase = CLOSING;
        self.in_flight += 1;
        Ok(CLOSE)
    }

    fn is_ranged(&self, slot: u32) -> bool {
        slot >= self.range.0 && slot - self.range.0 < self.range.1
    }

    // Begins a life in this phase at a slot, and returns its key.
    fn begin(&mut self, slot: u32, phase: i32) -> u64 {
        let life = &mut self.lives[slot as usize];
        *life = Life { number: life.number + 1, phase, ..Life::default() };
        self.len += 1;
        self.key(slot)
    }

    // Ends a life that became live, if the machine was stopped.
    fn live(&mut self, key: u64) -> Result<i32, i32> {
        if self.stopped {
            return self.end(key);
        }
        Ok(DONE)
    }

    // Ends a chain whose last completion was seen, or, without a close, whose open has succeeded.
    fn settle_chain(&mut self, key: u64) -> Result<i32, i32> {
        let life = self.life(key)?;
        let chain = life.chain;
        let is_last = life.requests == 0 && chain.closes == chain.took.is_some();
        match chain.opened {
            Some(true) if !chain.closes && !chain.ended => {
                life.phase = LIVE;
                return self.live(key);
            }
            Some(true) if !chain.closes => life.phase = ENDING,
            Some(true) if is_last && chain.took == Some(false) => life.phase = ENDING,
            Some(_) if is_last => return self.free_slot(key),
            _ => return Ok(DONE),
        }
        self.settle(key)
    }

    pub fn reserve(&mut self) -> Result<u64, i32> {
        if self.stopped {
            return Err(STOPPED);
        }
        let slot = self.free.pop().ok_or(FULL)?;
        self.in_flight += 1;
        Ok(self.begin(slot, OPENING))
    }

    // Begins a live life at a slot of the range, and returns its key and what to do.
    pub fn adopt(&mut self, slot: u32) -> Result<(u64, i32), i32> {
        if slot as usize >= self.lives.len() || !self.is_ranged(slot) {
            return Err(BAD_ARGUMENT);
        }
        let life = self.lives[slot as usize];
        match life.phase {
            FREE | CLOSING if life.number == LAST_NUMBER => return Err(FULL),
            CLOSING => _ = self.end_of_life(self.key(slot), CLOSING),
            FREE => {}
            _ => return Err(NOT_FREE),
        }
        let key = self.begin(slot, LIVE);
        Ok((key, self.live(key)?))
    }

    pub fn opened(&mut self, key: u64, installed: bool) -> Result<i32, i32> {
        if !installed {
            return self.end_of_life(key, OPENING);
        }
        self.in_phase(key, OPENING)?.phase = LIVE;
        self.in_flight -= 1;
        self.live(key)
    }

    pub fn chain(&mut self, key: u64, requests: u32, closes: bool) -> Result<i32, i32> {
        let life = self.in_phase(key, OPENING)?;
        (life.phase, life.requests) = (CHAINED, requests);
        life.chain = Chain { closes, ended: closes, ..Chain::default() };
        self.in_flight += u64::from(requests) + u64::from(closes);
        Ok(DONE)
    }

    pub fn chained(&mut self, key: u64, member: u32, succeeded: bool) -> Result<i32, i32> {
        if member > 2 {
            return Err(BAD_ARGUMENT);
        }
        let life = self.life(key)?;
        let (is_chained, chain) = (life.phase == CHAINED, &mut life.chain);
        match member {
            0 if !is_chained => return self.opened(key, succeeded),
            1 if !is_chained => return self.finish(key),
            _ if !is_chained && succeeded => return self.closed(key),
            _ if !is_chained => return self.close_failed(key),
            0 if chain.opened.is_none() && (succeeded || chain.took != Some(true)) => {
                chain.opened = Some(succeeded);
            }
            1 if life.requests > 0 => life.requests -= 1,
            2 if chain.closes
                && chain.took.is_none()
                && !(succeeded && chain.opened == Some(false)) =>
            {
                chain.took = Some(succeeded);
            }
            _ => return Err(IS_CHAINED),
        }
        self.in_flight -= 1;
        self.settle_chain(key)
    }

    pub fn start(&mut self, key: u64) -> Result<i32, i32> {
        let life = self.in_phase(key, LIVE)?;
        life.requests = life.requests.checked_add(1).ok_or(TOO_MANY_REQUESTS)?;
        self.in_flight += 1;
        Ok(DONE)
    }

    pub fn finish(&mut self, key: u64) -> Result<i32, i32> {
        let life = self.life(key)?;
        let refusal = refusal(life.phase);
        if life.phase == CHAINED {
            return Err(refusal);
        }
        life.requests = life.requests.checked_sub(1).ok_or(refusal)?;
        self.in_flight -= 1;
        self.settle(key)
    }

    pub fn hold(&mut self, key: u64) -> Result<i32, i32> {
        let life = self.in_phase(key, LIVE)?;
        life.users = life.users.checked_add(1).ok_or(TOO_MANY_USERS)?;
        Ok(DONE)
    }

    pub fn release(&mut self, key: u64) -> Result<i32, i32> {
        let life = self.life(key)?;
        let refusal = refusal(life.phase);
        life.users = life.users.checked_sub(1).ok_or(refusal)?;
        self.settle(key)
    }

    pub fn end(&mut self, key: u64) -> Result<i32, i32> {
        let life = self.life(key)?;
        match life.phase {
            CHAINED => life.chain.ended = true,
            LIVE => life.phase = ENDING,
            phase => return Err(refusal(phase)),
        }
        self.settle(key)
    }

    pub fn closed(&mut self, key: u64) -> Result<i32, i32> {
        self.end_of_life(key, CLOSING)
    }

    pub fn close_failed(&mut self, key: u64) -> Result<i32, i32> {
        self.in_phase(key, CLOSING).map(|_| CLOSE)
    }

    // Returns the number of a life's phase, its requests and its users.
    pub fn phase(&mut self, key: u64) -> Result<(i32, u32, u32), i32> {
        self.life(key).map(|life| (life.phase, life.requests, life.users))
    }

    pub fn key_at(&self, slot: u32) -> Result<u64, i32> {
        let life = self.lives.get(slot as usize).filter(|life| life.phase != FREE);
        life.map(|_| self.key(slot)).ok_or(STALE)
    }

    pub fn key_in(&self, phase: i32, from: u32) -> Result<u64, i32> {
        if !(OPENING..=CHAINED).contains(&phase) {
            return Err(BAD_ARGUMENT);
        }
        let mut later = self.lives.iter().enumerate().skip(from as usize);
        let found = later.find(|(_, life)| life.phase == phase);
        found.map(|(slot, _)| self.key(slot as u32)).ok_or(STALE)
    }
}

unsafe fn plain<'a>(it: *mut Machine) -> &'a mut Plain {
    unsafe { &mut *(*it).slots.cast() }
}

fn number(answer: Result<i32, i32>) -> i32 {
    answer.unwrap_or_else(|refusal| refusal)
}

// Returns the number of an answer, and writes what it found unless it is a refusal.
unsafe fn written<T>(answer: Result<(T, i32), i32>, to: *mut T) -> i32 {
    number(answer.map(|(found, number)| {
        unsafe { *to = found };
        number
    }))
}

unsafe fn at_slot(answer: Result<i32, i32>, key: u64, to: *mut u32) -> i32 {
    unsafe { written(answer.map(|number| (slot_of(key), number)), to) }
}

/// Defines the calls by a key that write its slot.
macro_rules! calls_of_a_slot {
    ($($name:ident($plain:ident, $key:ident) $answer:expr;)*) => { $(
        pub unsafe extern "C" fn $name(it: *mut Machine, $key: u64, slot: *mut u32) -> i32 {
            let $plain = unsafe { plain(it) };
            let answer = $answer;
            unsafe { at_slot(answer, $key, slot) }
        }
    )* };
}

calls_of_a_slot! {
    yacht_direct_start(it, key) it.start(key);
    yacht_direct_finish(it, key) it.finish(key);
    yacht_direct_release(it, key) it.release(key);
    yacht_direct_end(it, key) it.end(key);
    yacht_direct_close_failed(it, key) it.close_failed(key);
}

pub unsafe extern "C" fn yacht_direct_open_6(
    it: *mut Machine,
    slots: u32,
    first: u32,
    length: u32,
) -> i32 {
    if !(1..=MOST_SLOTS).contains(&slots) {
        return BAD_ARGUMENT;
    }
    let slots = Box::into_raw(Box::new(Plain::new(slots, (first, length)))).cast();
    unsafe { it.write(Machine { slots }) };
    DONE
}

pub unsafe extern "C" fn yacht_direct_free(it: Machine) {
    drop(unsafe { Box::from_raw(it.slots.cast::<Plain>()) });
}

pub unsafe extern "C" fn yacht_direct_reserve(
    it: *mut Machine,
    key: *mut u64,
    slot: *mut u32,
) -> i32 {
    let reserved = unsafe { plain(it) }.reserve();
    unsafe { written(reserved.map(|new| (slot_of(new), DONE)), slot) };
    unsafe { written(reserved.map(|new| (new, DONE)), key) }
}

pub unsafe extern "C" fn yacht_direct_adopt(it: *mut Machine, slot: u32, key: *mut u64) -> i32 {
    unsafe { written(plain(it).adopt(slot), key) }
}

pub unsafe extern "C" fn yacht_direct_stop(it: *mut Machine) {
    unsafe { plain(it) }.stopped = true;
}

pub unsafe extern "C" fn yacht_direct_opened(
    it: *mut Machine,
    key: u64,
    result: i32,
    slot: *mut u32,
) -> i32 {
    unsafe { at_slot(plain(it).opened(key, result >= 0), key, slot) }
}

pub unsafe extern "C" fn yacht_direct_chain(
    it: *mut Machine,
    key: u64,
    requests: u32,
    closes: u32,
    slot: *mut u32,
) -> i32 {
    unsafe { at_slot(plain(it).chain(key, requests, closes > 0), key, slot) }
}

pub unsafe extern "C" fn yacht_direct_chained(
    it: *mut Machine,
    key: u64,
    member: u32,
    result: i32,
    slot: *mut u32,
) -> i32 {
    unsafe { at_slot(plain(it).chained(key, member, result >= 0), key, slot) }
}

pub unsafe extern "C" fn yacht_direct_hold(it: *mut Machine, key: u64) -> i32 {
    number(unsafe { plain(it) }.hold(key))
}

pub unsafe extern "C" fn yacht_direct_closed(it: *mut Machine, key: u64) -> i32 {
    number(unsafe { plain(it) }.closed(key))
}

pub unsafe extern "C" fn yacht_direct_phase(
    it: *mut Machine,
    key: u64,
    requests: *mut u32,
    users: *mut u32,
) -> i32 {
    let found = unsafe { plain(it) }.phase(key);
    unsafe { written(found.map(|(phase, count, _)| (count, phase)), requests) };
    unsafe { written(found.map(|(phase, _, count)| (count, phase)), users) }
}

pub unsafe extern "C" fn yacht_direct_len(it: *mut Machine) -> u32 {
    unsafe { plain(it) }.len
}

pub unsafe extern "C" fn yacht_direct_in_flight(it: *mut Machine) -> u64 {
    unsafe { plain(it) }.in_flight
}

pub unsafe extern "C" fn yacht_direct_key_at(it: *mut Machine, slot: u32, key: *mut u64) -> i32 {
    unsafe { written(plain(it).key_at(slot).map(|found| (found, DONE)), key) }
}

pub unsafe extern "C" fn yacht_direct_key_in(
    it: *mut Machine,
    phase: i32,
    from: u32,
    key: *mut u64,
) -> i32 {
    unsafe { written(plain(it).key_in(phase, from).map(|found| (found, DONE)), key) }
}
