//! The words of the table: their places and their parts, as `life/layout.rt` and `fields.rt` in
//! `crates/fx_lasting/src`, and `groups.rt` in `crates/table_range/src`, describe them.
use super::super::sync::{self, AtomicU64, SeqCst};
use std::cell::UnsafeCell;

/// The word of a node without a file.
pub(crate) const FREE: u64 = 0;
/// The word of a node at its birth.
pub(crate) const BORN: u64 = (1 << 32) + 1;
/// The addition that heats a slot.
pub(crate) const HEAT: u64 = 1 << 21;
/// The bit of a full slot.
const FULL: u64 = 1 << 20;
/// The takes in a slot's word.
pub(crate) const TAKES: u64 = FULL - 1;
/// The charge in a hold word.
pub(crate) const CHARGE: u64 = 1 << 32;
/// The number of slots and that of nodes whose words have a line of their own.
const OWN_LINES: usize = 4096;

/// The constants of a table on which its orders depend. A table with small ones has few orders.
#[derive(Clone, Copy)]
pub(crate) struct Config {
    /// The flag that all slots are the allocation range; otherwise it is empty.
    pub(crate) allocates: bool,
    /// The exponent of the number of slots of a group.
    pub(crate) group_bits: u32,
    /// The number of takes from which on a slot becomes hot.
    pub(crate) cold_takes: u64,
    /// The most takes that the word of a kept node has lost.
    pub(crate) most_carried: u64,
    /// The tries of a call that names a node.
    pub(crate) tries: u32,
}

impl Config {
    /// Returns the constants of the core.
    pub(crate) fn of_core(slots: usize, passes: usize) -> Config {
        Config {
            allocates: true,
            group_bits: match slots {
                0..=256 => 2,
                257..=4096 => 6,
                4097..=65_536 => 10,
                _ => 14,
            },
            cold_takes: if passes == 1 { 1 << 19 } else { 16 },
            most_carried: 8,
            tries: 4,
        }
    }
}

fn slot_words(n: usize) -> usize {
    8 * n.min(OWN_LINES) + n.saturating_sub(OWN_LINES)
}

fn node_words(n: usize) -> usize {
    8 * n.min(OWN_LINES) + 4 * n.saturating_sub(OWN_LINES)
}

/// Returns the word of an empty slot that names a node.
pub(crate) fn empty_word(node: usize) -> u64 {
    (node as u64 + 1) << 40
}

/// Returns the word of a slot with the file of a node, whose word has lost some takes.
pub(crate) fn file_word(node: usize, lost: u64) -> u64 {
    (empty_word(node) | FULL) + lost
}

/// Returns the node that a slot's word names.
pub(crate) fn named_in(word: u64) -> usize {
    (word >> 40) as usize - 1
}

/// Returns the node of the file of a slot by its word, or `None` if the slot is empty.
pub(crate) fn node_in(word: u64) -> Option<usize> {
    (word & FULL != 0).then(|| named_in(word))
}

/// Checks whether a slot's word is hot.
pub(crate) fn is_hot(word: u64) -> bool {
    word >> 21 & 0x7ff != 0
}

/// Returns the hold word that announces a node.
pub(crate) fn announced(node: usize) -> u64 {
    node as u64 + 1
}

/// Returns the bit of a pass in its word of the list, and in the question word.
pub(crate) fn bit_of(pass: usize) -> u64 {
    1 << ((pass - 1) % 64)
}

/// The table: its words, and a place for the file of each node, by its tag.
pub(crate) struct Table {
    words: Box<[AtomicU64]>,
    places: Box<[UnsafeCell<Option<u64>>]>,
    pub(crate) size: usize,
    pub(crate) passes: usize,
    pub(crate) groups: usize,
    first_hold: usize,
    first_node: usize,
    pub(crate) config: Config,
}

// SAFETY: a place is filled by the pass that installs a file on its node, and emptied by the one
// that closes the file. The words order them.
unsafe impl Sync for Table {}
// SAFETY: as above.
unsafe impl Send for Table {}

impl Table {
    /// Opens a table of empty slots. The first `installing` of the passes install.
    pub(crate) fn open(config: Config, size: usize, passes: usize, installing: usize) -> Table {
        let lines = slot_words(size).div_ceil(8);
        let nodes = size + installing * passes;
        let first_node = 534 + 8 * lines + 8 * passes;
        let words = (0..first_node + node_words(nodes)).map(|_| AtomicU64::new(0));
        let range = if config.allocates { size } else { 0 };
        let table = Table {
            words: words.collect(),
            places: (0..nodes).map(|_| UnsafeCell::new(None)).collect(),
            size,
            passes,
            groups: range.div_ceil(1 << config.group_bits),
            first_hold: 526 + 8 * lines,
            first_node,
            config,
        };
        for slot in 0..size {
            table.slot(slot).store(empty_word(slot), SeqCst);
        }
        table
    }

    /// Returns the first node of a pass's stock. It has a node for each pass.
    pub(crate) fn stock_start(&self, pass: usize) -> usize {
        self.size + (pass - 1) * self.passes
    }

    /// Returns the number of slots of a group.
    pub(crate) fn group_len(&self, group: usize) -> usize {
        let first = group << self.config.group_bits;
        (self.size - first).min(1 << self.config.group_bits)
    }

    pub(crate) fn question(&self) -> &AtomicU64 {
        &self.words[0]
    }

    pub(crate) fn list(&self, pass: usize) -> &AtomicU64 {
        &self.words[6 + (pass - 1) / 64]
    }

    pub(crate) fn group(&self, group: usize) -> &AtomicU64 {
        &self.words[22 + 8 * group]
    }

    pub(crate) fn slot(&self, slot: usize) -> &AtomicU64 {
        &self.words[534 + slot_words(slot)]
    }

    pub(crate) fn hold(&self, pass: usize) -> &AtomicU64 {
        &self.words[self.first_hold + 8 * pass]
    }

    pub(crate) fn node(&self, node: usize) -> &AtomicU64 {
        &self.words[self.first_node + node_words(node)]
    }

    pub(crate) fn tag(&self, node: usize) -> &AtomicU64 {
        &self.words[self.first_node + node_words(node) + 1]
    }

    pub(crate) fn number(&self, node: usize) -> &AtomicU64 {
        &self.words[self.first_node + node_words(node) + 2]
    }

    /// Puts a file into the place of a node, for a pass that is about to install it.
    pub(crate) fn fill(&self, node: usize, tag: u64) {
        let place = &self.places[node];
        sync::changes(place.get());
        // SAFETY: the node is this pass's, kept or free.
        let old = unsafe { (*place.get()).replace(tag) };
        assert!(old.is_none(), "a file is at its node");
    }

    /// Takes the file out of the place of a node, for the pass that closes it. Returns its tag.
    pub(crate) fn take_file(&self, node: usize) -> u64 {
        let place = &self.places[node];
        sync::changes(place.get());
        // SAFETY: nobody holds the node any more, and it isn't free yet.
        let tag = unsafe { (*place.get()).take() };
        tag.expect("a file at its node")
    }

    /// Returns the words, to be compared with those of the core.
    pub(crate) fn words(&self) -> impl Iterator<Item = u64> + '_ {
        self.words.iter().map(|it| it.load(SeqCst))
    }
}
