//! The allocation range: groups of slots, each with a count of its full slots, and the question
//! whether all slots are full.
use super::super::sync::SeqCst;
use super::pass::{Miss, Pass};
use super::words::{bit_of, named_in, node_in, Table};

/// The steps by which passes go from group to group.
const STEPS: [usize; 8] = [67, 71, 73, 79, 83, 89, 97, 101];

/// The result of a search for an empty slot.
pub(crate) enum Found {
    At(usize),
    Full,
    Again,
}

/// The last eight slots that a pass emptied, in a ring, and the slot after the one that it filled
/// last.
#[derive(Default)]
pub(crate) struct Emptied {
    slots: [Option<usize>; 8],
    top: usize,
    next: Option<usize>,
}

impl Emptied {
    /// Keeps a slot that was emptied, in place of the oldest one.
    pub(crate) fn keep(&mut self, slot: usize) {
        self.top = (self.top + 1) % 8;
        self.slots[self.top] = Some(slot);
    }

    // Takes the slot that was emptied last, or else the one after that which was filled last.
    fn take_last(&mut self) -> Option<usize> {
        let Some(slot) = self.slots[self.top].take() else {
            return self.next;
        };
        self.top = (self.top + 7) % 8;
        Some(slot)
    }
}

impl Table {
    /// Takes a slot that is about to be emptied off its group's count, and clears the questions.
    #[inline(always)]
    pub(crate) fn lower(&self, slot: usize) {
        if self.groups > 0 {
            self.group(slot >> self.config.group_bits).fetch_sub(1, SeqCst);
            if self.question().load(SeqCst) != 0 {
                self.question().swap(0, SeqCst);
            }
        }
    }

    /// Adds a slot that was empty to its group's count.
    #[inline(always)]
    pub(crate) fn raise(&self, slot: usize, was_empty: bool) {
        if self.groups > 0 && was_empty {
            self.group(slot >> self.config.group_bits).fetch_add(1, SeqCst);
        }
    }

    fn sees_file(&self, slot: usize) -> bool {
        node_in(self.slot(slot).load(SeqCst)).is_some()
    }

    fn is_full(&self, group: usize) -> bool {
        self.group(group).load(SeqCst) == self.group_len(group) as u64
    }

    // Checks whether the question word has the bit of the pass.
    fn decide(&self, pass: &Pass) -> bool {
        self.question().load(SeqCst) & bit_of(pass.number) != 0
    }

    // Checks whether the pass was sure that every slot is full, and still is.
    fn is_still_full(&self, pass: &mut Pass) -> bool {
        pass.sure = pass.sure && self.decide(pass);
        pass.sure
    }

    // Asks whether every slot is full.
    #[inline(never)]
    fn is_all_full(&self, pass: &mut Pass) -> bool {
        if !self.decide(pass) {
            self.question().fetch_add(bit_of(pass.number), SeqCst);
        }
        pass.sure = (0..self.groups).all(|it| self.is_full(it)) && self.decide(pass);
        pass.sure
    }

    // Tries the slot at which a search begins, and then each slot of each group that isn't full.
    // Returns the first slot at which a try succeeds, and what it returns.
    #[inline(always)]
    fn search<R>(
        &self,
        pass: &mut Pass,
        attempt: impl Fn(usize) -> Option<R>,
    ) -> Option<(usize, R)> {
        let (groups, number) = (self.groups, pass.number);
        let from = pass.emptied.take_last();
        if groups == 0 {
            return None;
        }
        let bits = self.config.group_bits;
        // a pass that has filled no slot begins at a group of its own
        let own = ((groups - number % groups) % groups) << bits;
        let first = from.filter(|it| *it < self.size).unwrap_or(own);
        let at = |slot| Some((slot, attempt(slot)?));
        if let Some(found) = at(first) {
            return Some(found);
        }
        // another pass may have emptied the slot before, which this one filled last
        let first = if from == Some(first) { first.saturating_sub(1) } else { first };
        let (step, mut group) = (STEPS[number % 8] % groups, first >> bits);
        for _ in 0..groups {
            let begin = group << bits;
            if !self.is_full(group) {
                let end = begin + self.group_len(group);
                let inside = begin <= first && first < end;
                let from = if inside { first } else { begin };
                if let Some(found) = (from..end).chain(begin..from).find_map(at) {
                    return Some(found);
                }
            }
            group = (group + step) % groups;
        }
        None
    }

    // Installs the word at the slot if that is empty. Returns the node that the slot named.
    #[inline(always)]
    fn try_slot(&self, slot: usize, word: u64) -> Option<usize> {
        let old = self.slot(slot).load(SeqCst);
        if node_in(old).is_some() {
            return None;
        }
        let exchanged = self.slot(slot).compare_exchange(old, word, SeqCst, SeqCst);
        exchanged.ok()?;
        self.raise(slot, true);
        Some(named_in(old))
    }

    // Notes that the pass filled a slot that named the node.
    fn filled(&self, pass: &mut Pass, slot: usize, named: usize) {
        pass.stock[pass.entry] = named;
        pass.emptied.next = Some(slot + 1);
    }

    /// Installs a file at an empty slot, in one round.
    #[inline(always)]
    pub(crate) fn try_put_any(&self, pass: &mut Pass, tag: u64, number: u64) -> Found {
        if self.is_still_full(pass) {
            return Found::Full;
        }
        let word = self.place(pass, tag, number);
        if let Some((slot, named)) = self.search(pass, |slot| self.try_slot(slot, word)) {
            self.filled(pass, slot, named);
            return Found::At(slot);
        }
        self.take_out(named_in(word));
        if self.is_all_full(pass) {
            return Found::Full;
        }
        Found::Again
    }

    /// Finds an empty slot, in one round.
    pub(crate) fn find(&self, pass: &mut Pass) -> Found {
        if self.is_still_full(pass) {
            return Found::Full;
        }
        let is_empty = |slot| (!self.sees_file(slot)).then_some(());
        if let Some((slot, ())) = self.search(pass, is_empty) {
            return Found::At(slot);
        }
        if self.is_all_full(pass) {
            return Found::Full;
        }
        Found::Again
    }

    /// Installs a file at a slot if it is empty.
    pub(crate) fn put_empty(
        &self,
        pass: &mut Pass,
        slot: usize,
        tag: u64,
        number: u64,
    ) -> Result<(), Miss> {
        if self.sees_file(slot) {
            return Err(Miss::Other);
        }
        let word = self.place(pass, tag, number);
        let Some(named) = self.try_slot(slot, word) else {
            self.take_out(named_in(word));
            return Err(Miss::Again);
        };
        self.filled(pass, slot, named);
        Ok(())
    }
}
