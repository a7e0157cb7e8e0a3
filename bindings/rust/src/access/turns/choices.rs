//! The choices of an exploration between threads, and what it notes of a run.
use super::{named, Choice, Clock, Kind, Turns, LONGEST, MOST};
use std::sync::atomic::Ordering::{self, AcqRel, Acquire, Release, SeqCst};

pub(super) fn mixed(a: u64, b: u64) -> u64 {
    let it = (a ^ b.rotate_left(32)).wrapping_mul(0x9e37_79b9_7f4a_7c15);
    (it ^ it >> 29).wrapping_mul(0xbf58_476d_1ce4_e5b9) ^ b
}

fn in_one(clock: &Clock) -> u64 {
    clock.iter().fold(7, |all, it| mixed(all, u64::from(*it)))
}

fn join(into: &mut Clock, from: &Clock) {
    for (it, other) in into.iter_mut().zip(from) {
        *it = (*it).max(*other);
    }
}

impl Turns {
    // Checks whether others have made another number of changes than this.
    fn is_changed(&self, at: usize, seen: u32) -> bool {
        self.changed - self.threads[at].changed != seen
    }

    fn can_go_on(&self, at: usize) -> bool {
        let it = &self.threads[at];
        !it.is_done && it.waits.is_none_or(|seen| self.is_changed(at, seen))
    }

    // Returns the state in one number.
    fn state(&self) -> u64 {
        let all = self.threads.iter().enumerate();
        let begun = mixed(self.memory, super::marks::in_one());
        all.fold(begun, |all, (at, it)| {
            let changed = self.is_changed(at, it.woke);
            let rest = [it.is_done, self.can_go_on(at), it.waits.is_some(), changed];
            rest.iter().fold(mixed(all, it.found), |all, it| mixed(all, u64::from(*it)))
        })
    }

    // Chooses the thread that makes the next step, or none if none can.
    pub(super) fn choose(&mut self) -> Option<usize> {
        let now = self.now;
        let mut free: Vec<usize> =
            (0..self.threads.len()).filter(|it| self.can_go_on(*it)).collect();
        // the present thread goes on first
        free.sort_by_key(|it| (*it == now, *it));
        let last = *free.last()?;
        if free.len() == 1 || self.is_old {
            return Some(last);
        }
        if let Some(choice) = self.path.get(self.depth) {
            self.depth += 1;
            return choice.0.last().copied().filter(|it| free.contains(it));
        }
        let state = self.state();
        if !self.seen.insert(state) {
            self.is_old = true;
            return Some(last);
        }
        self.path.push(Choice(free));
        self.depth += 1;
        Some(last)
    }

    // Goes to the next order. Returns whether there is one.
    pub(super) fn backtrack(&mut self) -> bool {
        while let Some(choice) = self.path.last_mut() {
            choice.0.pop();
            if !choice.0.is_empty() {
                return true;
            }
            self.path.pop();
        }
        false
    }

    pub(super) fn fails(&mut self, what: &str) {
        if self.fault.is_none() {
            self.fault = Some(what.to_string());
        }
    }

    // Notes a step of the present thread at an atomic, by its old value and its new one. `kind` is
    // what the step is: a load, a store, or an exchange.
    pub(super) fn note(&mut self, id: u32, (old, new): (u64, u64), kind: Kind, order: Ordering) {
        let it = &mut self.threads[self.now];
        it.clock[self.now] += 1;
        let (kept, part) = self.atomics.entry(id).or_default();
        if matches!(order, Acquire | AcqRel | SeqCst) && !matches!(kind, Kind::Store) {
            join(&mut it.clock, kept);
        }
        // an exchange goes on with what was released before, a store doesn't
        if let Kind::Store = kind {
            *kept = Clock::default();
        }
        if matches!(order, Release | AcqRel | SeqCst) && !matches!(kind, Kind::Load) {
            join(kept, &it.clock);
        }
        // a store finds nothing: what was there may be the address of memory that is used again
        let stores = matches!(kind, Kind::Store);
        let (old_name, new_name) = (if stores { 0 } else { named(old) }, named(new));
        self.memory ^= *part;
        *part = mixed(mixed(u64::from(id), new_name), in_one(kept));
        self.memory ^= *part;
        it.found = mixed(it.found, mixed(u64::from(id), mixed(old_name, new_name)));
        if stores || old != new {
            it.changed += 1;
            self.changed += 1;
            super::marks::look();
        }
        self.steps += 1;
        if self.steps > LONGEST {
            self.fails("a run has no end");
        }
    }

    // Notes a use of memory, which others may read meanwhile if this thread only reads it.
    pub(super) fn uses(&mut self, address: usize, reads: bool) {
        let (now, clock) = (self.now, &self.threads[self.now].clock);
        let [readers, writers] = self.uses.entry(address).or_default();
        let is_before = |uses: &Clock| (0..MOST).all(|at| at == now || uses[at] <= clock[at]);
        let right = is_before(writers) && (reads || is_before(readers));
        // the thread's next step may release it
        (if reads { readers } else { writers })[now] = clock[now] + 1;
        if !right {
            self.fails("two threads use memory in no order");
        }
    }
}
