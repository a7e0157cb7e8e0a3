//! Checks of the words of a table that no call uses, for tests.
use super::super::core::Core;
use super::words::{file_word, is_hot, named_in, node_in, Table, BORN, FREE, HEAT, TAKES};
use super::{Pass, Worker};

impl Table {
    fn check_slots(&self, nodes: &mut Vec<usize>) {
        for slot in 0..self.size {
            let word = self.slot(slot).peek();
            let (name, takes) = (named_in(word), word & TAKES);
            let node = self.node(name).peek();
            let right = match node_in(word) {
                Some(_) => node + takes == BORN,
                None => node == FREE,
            };
            assert!(right, "the word of a node at a slot is wrong");
            assert!(
                takes <= self.config.cold_takes + self.passes as u64 + self.config.most_carried,
                "a slot has too many takes"
            );
            let heat = (word - file_word(name, takes).min(word)) / HEAT;
            assert!(!is_hot(word) || heat <= self.passes as u64, "a pass heats a slot twice");
            nodes.push(name);
        }
    }

    fn check_groups(&self) {
        for group in 0..self.groups {
            let first = group << self.config.group_bits;
            let slots = first..first + self.group_len(group);
            let full = slots.filter(|it| node_in(self.slot(*it).peek()).is_some());
            let right = self.group(group).peek() == full.count() as u64;
            assert!(right, "the word of a group is wrong");
        }
    }

    fn check_pass(&self, pass: &Pass, nodes: &mut Vec<usize>) {
        assert_eq!(self.hold(pass.number).peek(), 0, "a hold word names a node");
        for (entry, node) in pass.stock.iter().enumerate() {
            let word = self.node(*node).peek();
            let right = match pass.keeps && entry == pass.entry {
                true => (BORN - self.config.most_carried..=BORN).contains(&word),
                false => word == FREE,
            };
            assert!(right, "the word of a node in a stock is wrong");
            nodes.push(*node);
        }
    }
}

/// Checks the words of a table whose workers hold nothing.
///
/// # Safety
/// As of the core's functions. These are all workers of the table.
pub(crate) unsafe fn check_idle(cores: &[Core]) {
    let workers: Vec<&Worker> = cores.iter().map(|it| unsafe { &*it.worker().cast() }).collect();
    let (table, mut nodes) = (&workers[0].table, Vec::new());
    table.check_slots(&mut nodes);
    table.check_groups();
    let mut list = 0;
    for it in &workers {
        table.check_pass(&it.pass, &mut nodes);
        list += u64::from(it.pass.listed) << (it.pass.number - 1);
    }
    assert_eq!(table.list(1).peek(), list, "the list has the wrong bit for a pass");
    nodes.sort();
    assert!(nodes.iter().copied().eq(0..nodes.len()), "a node is lost");
}

/// Checks whether every slot has a file.
///
/// # Safety
/// As of the core's functions.
pub(crate) unsafe fn is_every_slot_full(core: *mut Core) -> bool {
    let worker: &Worker = unsafe { &*(*core).worker().cast() };
    (0..worker.table.size).all(|it| node_in(worker.table.slot(it).peek()).is_some())
}

/// Returns the tag of the file at a slot, or 0 if it has none.
///
/// # Safety
/// As of the core's functions.
pub(crate) unsafe fn tag_at(core: *mut Core, slot: usize) -> u64 {
    let worker: &Worker = unsafe { &*(*core).worker().cast() };
    let table = &worker.table;
    node_in(table.slot(slot).peek()).map_or(0, |node| table.tag(node).peek())
}
