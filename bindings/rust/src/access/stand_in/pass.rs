//! The steps of a pass: look-ups, installations, removals and retirements, as `crates/fx_lasting`
//! makes them.
use super::super::sync::SeqCst;
use super::range::Emptied;
use super::words::{
    announced, bit_of, empty_word, file_word, is_hot, named_in, node_in, Table, BORN, CHARGE, FREE,
    HEAT, TAKES,
};

/// A pass: its number, from 1; its stock of nodes; the entry of the stock where its next search
/// begins, and the flag that it keeps the node there; the flags that it holds by its hold word,
/// that the list has it, and that it was sure that the range is full; and the slots where its next
/// allocations begin. The passes of two threads share no cache line.
#[repr(align(128))]
pub(crate) struct Pass {
    pub(crate) number: usize,
    pub(crate) stock: Vec<usize>,
    pub(crate) entry: usize,
    pub(crate) keeps: bool,
    pub(crate) guarded: bool,
    pub(crate) listed: bool,
    pub(crate) sure: bool,
    pub(crate) emptied: Emptied,
}

/// The reason why a call that names a node changed nothing: the slot was empty, its file was on
/// another node, or its word changed during the call.
#[derive(Clone, Copy)]
pub(crate) enum Miss {
    Empty,
    Other,
    Again,
}

/// A file that a look-up found, by its node and the word of its slot; and a removed one that the
/// look-up was the last to use, by its tag.
pub(crate) struct Looked {
    pub(crate) found: Option<(usize, u64)>,
    pub(crate) freed: Option<u64>,
}

/// What a replacement by key changed: the word that it found, which is to be retired, or the reason
/// why it changed nothing. Of two files that the pass was the last to use, `freed` is one that it
/// announced, and `released` the one that it held.
pub(crate) struct Replaced {
    pub(crate) changed: Result<u64, Miss>,
    pub(crate) freed: Option<u64>,
    pub(crate) released: Option<u64>,
}

/// Returns the word of a slot if it names a file on the node.
fn named_by(word: u64, node: usize) -> Result<u64, Miss> {
    match node_in(word) {
        None => Err(Miss::Empty),
        Some(named) if named == node => Ok(word),
        Some(_) => Err(Miss::Other),
    }
}

impl Pass {
    /// Returns an idle pass. It has a stock if it installs.
    pub(crate) fn new(table: &Table, number: usize, installs: bool) -> Pass {
        let count = if installs { table.passes } else { 0 };
        let first = table.stock_start(number);
        // no other stock comes near this one
        let mut stock = Vec::with_capacity(count + 16);
        stock.extend(first..first + count);
        Pass {
            number,
            stock,
            entry: 0,
            keeps: false,
            guarded: false,
            listed: false,
            sure: false,
            emptied: Emptied::default(),
        }
    }
}

impl Table {
    // Frees the node that the pass keeps, before a call that isn't an installation.
    fn settle(&self, pass: &mut Pass) {
        if pass.keeps {
            self.node(pass.stock[pass.entry]).store(FREE, SeqCst);
            pass.keeps = false;
        }
    }

    /// Looks a slot up. The pass holds the file there until `release`.
    #[inline(always)]
    pub(crate) fn look_up(&self, pass: &mut Pass, slot: usize) -> Looked {
        self.settle(pass);
        let word = self.slot(slot).load(SeqCst);
        let (mut found, mut freed) = (None, None);
        if let Some(node) = node_in(word) {
            if !pass.listed {
                self.list(pass.number).fetch_add(bit_of(pass.number), SeqCst);
                pass.listed = true;
            } else if is_hot(word) {
                found = self.guard(pass, slot, node);
                if found.is_none() {
                    freed = self.empty_hold(pass, node);
                }
            }
            pass.guarded = found.is_some();
            if found.is_none() {
                found = self.take_at(slot);
            }
        }
        Looked { found, freed }
    }

    // Lists a pass that isn't listed.
    fn enlist(&self, pass: &mut Pass) {
        if !pass.listed {
            self.list(pass.number).fetch_add(bit_of(pass.number), SeqCst);
            pass.listed = true;
        }
    }

    // Announces the node of a hot slot, and holds its file if the slot is still hot and names it.
    fn guard(&self, pass: &Pass, slot: usize, node: usize) -> Option<(usize, u64)> {
        self.hold(pass.number).store(announced(node), SeqCst);
        let again = self.slot(slot).load(SeqCst);
        (node_in(again) == Some(node) && is_hot(again)).then_some((node, again))
    }

    fn take_at(&self, slot: usize) -> Option<(usize, u64)> {
        let word = self.slot(slot).fetch_add(1, SeqCst);
        if word & TAKES >= self.config.cold_takes {
            self.slot(slot).fetch_add(HEAT, SeqCst);
        }
        Some((node_in(word)?, word))
    }

    // Ends an announcement, or a hold by the hold word. A charge that it got is a take to drop.
    fn empty_hold(&self, pass: &Pass, node: usize) -> Option<u64> {
        let found = self.hold(pass.number).swap(0, SeqCst);
        if found == announced(node) {
            return None;
        }
        self.let_go(node)
    }

    // Drops a take or a charge. Returns the tag of the file if nobody uses it any more.
    fn let_go(&self, node: usize) -> Option<u64> {
        let found = self.node(node).fetch_sub(1, SeqCst);
        (found == 2).then(|| self.take_out(node))
    }

    /// Takes the file out of the place of its node, and frees the node.
    pub(crate) fn take_out(&self, node: usize) -> u64 {
        let tag = self.take_file(node);
        self.node(node).store(FREE, SeqCst);
        tag
    }

    /// Releases the file of a node that the pass holds. Returns its tag if nobody uses it any more.
    #[inline(always)]
    pub(crate) fn release(&self, pass: &mut Pass, node: usize) -> Option<u64> {
        if pass.guarded {
            return self.empty_hold(pass, node);
        }
        self.let_go(node)
    }

    /// Checks whether the slot has the file of a node that a pass holds.
    #[inline(always)]
    pub(crate) fn is_current(&self, slot: usize, node: usize) -> bool {
        node_in(self.slot(slot).load(SeqCst)) == Some(node)
    }

    // Finds a free node of the pass's stock, from the entry on that it found last.
    fn seek(&self, pass: &mut Pass) -> usize {
        for _ in 0..pass.stock.len() {
            let node = pass.stock[pass.entry];
            if self.node(node).load(SeqCst) == FREE {
                return node;
            }
            let next = pass.entry + 1;
            pass.entry = if next == pass.stock.len() { 0 } else { next };
        }
        unreachable!("a node of the stock is free")
    }

    /// Puts a file on the node that the pass keeps, or else on a free one of its stock. Returns the
    /// word that installs it, which begins with the takes that the node's word has lost.
    #[inline(always)]
    pub(crate) fn place(&self, pass: &mut Pass, tag: u64, number: u64) -> u64 {
        let kept = pass.keeps.then(|| pass.stock[pass.entry]);
        let node = kept.unwrap_or_else(|| self.seek(pass));
        let mut lost = 0;
        if kept.is_some() {
            lost = BORN - self.node(node).load(SeqCst);
        } else {
            self.node(node).store(BORN, SeqCst);
        }
        // the label of a kept node may have the tag already
        if kept.is_none() || self.tag(node).load(SeqCst) != tag {
            self.tag(node).store(tag, SeqCst);
        }
        pass.keeps = false;
        self.number(node).store(number, SeqCst);
        self.fill(node, tag);
        file_word(node, lost)
    }

    /// Installs a file at a slot. Returns the word that it found, which is to be retired.
    #[inline(always)]
    pub(crate) fn put(&self, pass: &mut Pass, slot: usize, tag: u64, number: u64) -> u64 {
        let word = self.place(pass, tag, number);
        let found = self.slot(slot).swap(word, SeqCst);
        self.raise(slot, node_in(found).is_none());
        pass.stock[pass.entry] = named_in(found);
        found
    }

    /// Empties a slot. Returns the word that it found, which is to be retired.
    #[inline(always)]
    pub(crate) fn take(&self, pass: &mut Pass, slot: usize) -> u64 {
        self.settle(pass);
        self.lower(slot);
        let word = empty_word(pass.stock[pass.entry]);
        let found = self.slot(slot).swap(word, SeqCst);
        pass.stock[pass.entry] = named_in(found);
        let was_empty = node_in(found).is_none();
        self.raise(slot, was_empty);
        if !was_empty && self.groups > 0 {
            pass.emptied.keep(slot);
        }
        found
    }

    /// Empties a slot if its file is on the node, for a pass that holds the file. The hold ends
    /// then. Returns the word that it found, which is to be retired.
    #[inline(always)]
    pub(crate) fn take_held(&self, pass: &mut Pass, slot: usize, node: usize) -> Result<u64, Miss> {
        let word = named_by(self.slot(slot).load(SeqCst), node)?;
        self.lower(slot);
        let own = empty_word(pass.stock[pass.entry]);
        let found = self.exchange(slot, node, word, own);
        if found.is_err() {
            self.raise(slot, true);
            return found;
        }
        pass.stock[pass.entry] = node;
        pass.emptied.keep(slot);
        found.map(|word| self.end_hold(pass, word))
    }

    /// Installs a file at a slot in place of the file with the number `its`, for a pass that holds
    /// that one meanwhile, by a take or by its hold word. The hold ends with the exchange.
    #[inline(always)]
    pub(crate) fn put_key(
        &self,
        pass: &mut Pass,
        slot: usize,
        its: u64,
        tag: u64,
        number: u64,
    ) -> Replaced {
        self.enlist(pass);
        let mut it = Replaced { changed: Err(Miss::Empty), freed: None, released: None };
        let word = self.slot(slot).load(SeqCst);
        let Some(named) = node_in(word) else {
            return it;
        };
        let mut own = self.place(pass, tag, number);
        pass.guarded = is_hot(word);
        if pass.guarded && self.guard(pass, slot, named).is_none() {
            // the slot has had another file since, so the pass takes what it has now
            self.take_out(named_in(own));
            it.freed = self.empty_hold(pass, named);
            own = self.place(pass, tag, number);
            pass.guarded = false;
        }
        let node = match pass.guarded {
            true => Some(named),
            false => self.take_at(slot).map(|it| it.0),
        };
        if let Some(node) = node {
            it.changed = self.put_held(pass, slot, node, its, own);
        }
        if it.changed.is_err() {
            self.take_out(named_in(own));
            it.released = node.and_then(|node| self.release(pass, node));
        }
        it
    }

    // Installs the word at the slot in place of the file with the number `its`, if that is on the
    // node, whose file the pass holds.
    fn put_held(
        &self,
        pass: &mut Pass,
        slot: usize,
        node: usize,
        its: u64,
        own: u64,
    ) -> Result<u64, Miss> {
        if self.number(node).load(SeqCst) != its || its == 0 {
            return Err(Miss::Other);
        }
        let word = named_by(self.slot(slot).load(SeqCst), node)?;
        let word = self.exchange(slot, node, word, own)?;
        pass.stock[pass.entry] = node;
        Ok(self.end_hold(pass, word))
    }

    // Ends the hold of the file that the pass has just taken off its slot. Returns the word of the
    // slot without the pass's own take. Nobody has charged its hold word, since a retirement visits
    // the other passes only.
    fn end_hold(&self, pass: &Pass, word: u64) -> u64 {
        if pass.guarded {
            self.hold(pass.number).store(0, SeqCst);
            return word;
        }
        word - 1
    }

    // Exchanges the word of a slot while it names the node. Returns the word that was there.
    fn exchange(&self, slot: usize, node: usize, word: u64, own: u64) -> Result<u64, Miss> {
        let mut expected = word;
        for _ in 0..self.config.tries {
            match self.slot(slot).compare_exchange(expected, own, SeqCst, SeqCst) {
                Ok(found) => return Ok(found),
                Err(found) => expected = named_by(found, node)?,
            }
        }
        Err(Miss::Again)
    }

    // Charges the hold word of a pass, if it announces the node.
    fn charge(&self, pass: usize, node: usize) -> bool {
        let (hold, name) = (self.hold(pass), announced(node));
        hold.load(SeqCst) == name
            && hold.compare_exchange(name, name | CHARGE, SeqCst, SeqCst).is_ok()
    }

    // Charges the hold words of the other listed passes that announce the node. Returns the number
    // of charges.
    #[inline(never)]
    fn charge_all(&self, number: usize, node: usize) -> u64 {
        let mut charges = 0;
        for first in (1..=self.passes).step_by(64) {
            let mut rest = self.list(first).load(SeqCst);
            while rest != 0 {
                let pass = first + rest.trailing_zeros() as usize;
                charges += u64::from(pass != number && self.charge(pass, node));
                rest &= rest - 1;
            }
        }
        charges
    }

    /// Retires the file of a slot that had this word, if it was full. Returns the tag of the file
    /// if nobody uses it any more. If its node has lost few takes, the pass keeps the node.
    #[inline(always)]
    pub(crate) fn retire(&self, pass: &mut Pass, word: u64) -> Option<u64> {
        let node = node_in(word)?;
        let mut left = word & TAKES;
        if is_hot(word) {
            left += self.charge_all(pass.number, node);
        }
        let amount = BORN - 1 - left;
        if self.node(node).load(SeqCst) == amount + 1 {
            let tag = self.take_file(node);
            let is_own = pass.stock.get(pass.entry) == Some(&node);
            pass.keeps = is_own && BORN - self.node(node).load(SeqCst) <= self.config.most_carried;
            if !pass.keeps {
                self.node(node).store(FREE, SeqCst);
            }
            return Some(tag);
        }
        let found = self.node(node).fetch_sub(amount, SeqCst);
        (found == amount + 1).then(|| self.take_out(node))
    }
}
