//! Calls of the core's interface, over the stand-in: small programs of up to three threads, in
//! every order of their steps.
mod calls;

use crate::access::core::{Core, DONE};
use crate::access::stand_in::{is_every_slot_full, yacht_core_open, Config};
use crate::access::turns::{explore, watch, with_config, Job};
use calls::*;
use std::cell::{Cell, RefCell};
use std::rc::Rc;

/// A table, the number of its full slots, the takes from which on a slot is hot, the exponent of a
/// group's length if there is a range, and the look-ups of each thread before.
#[derive(Clone, Copy)]
pub(super) struct Family {
    pub(super) slots: u32,
    full: u32,
    cold_takes: u64,
    pub(super) group_bits: Option<u32>,
    looks: u32,
}

// one full slot: hot for threads that are listed; cold; hot from the second take on, with threads
// that are listed; and hot, with threads that aren't listed
const HOT: Family = Family::of(1, 1, 0, None, 2);
const COLD: Family = Family::of(1, 1, 16, None, 1);
const WARM: Family = Family::of(1, 1, 2, None, 1);
const NEW: Family = Family::of(1, 1, 0, None, 0);
// an allocation range of one slot; of two, each a group of its own, full or with a free slot; of
// two in one group; and of three, in groups of two and of one, or each a group of its own
const ONE: Family = Family::of(1, 1, 16, Some(0), 1);
const RANGE: Family = Family::of(2, 2, 16, Some(0), 1);
const HALF: Family = Family::of(2, 1, 16, Some(0), 1);
const GROUP: Family = Family::of(2, 2, 16, Some(1), 1);
const GROUPS: Family = Family::of(3, 3, 16, Some(1), 1);
const APART: Family = Family::of(3, 3, 16, Some(0), 1);

impl Family {
    const fn of(slots: u32, full: u32, cold_takes: u64, bits: Option<u32>, looks: u32) -> Family {
        Family { slots, full, cold_takes, group_bits: bits, looks }
    }

    fn open(&self, count: usize) -> Scene {
        let mut cores: Vec<_> = (0..count).map(|_| Core::none()).collect();
        let opened =
            unsafe { yacht_core_open(self.slots, count as u32, cores.as_mut_ptr(), count) };
        assert_eq!(opened, DONE);
        let scene = Scene {
            cores: RefCell::new(cores),
            files: RefCell::default(),
            number: Cell::new(0),
            ends: Cell::new(0),
        };
        let numbers: Vec<_> = (0..self.full).map(|slot| scene.put(FIRST, slot)).collect();
        scene.number.set(numbers[0]);
        for who in (0..count).flat_map(|who| (0..self.looks).map(move |_| who)) {
            LOOK(&scene, who);
        }
        scene
    }

    fn scene(self, threads: &[Vec<Call>]) -> (Vec<Job>, Job) {
        let scene = Rc::new(self.open(threads.len()));
        if self.group_bits.is_some() {
            let core = scene.core(0);
            // SAFETY: the workers are there while the threads run.
            watch(move || unsafe { is_every_slot_full(core) });
        }
        let job = |(who, calls): (usize, &Vec<Call>)| -> Job {
            let (scene, calls) = (scene.clone(), calls.clone());
            Box::new(move || calls.iter().for_each(|call| call(&scene, who)))
        };
        let jobs = threads.iter().enumerate().map(job).collect();
        (jobs, Box::new(move || scene.check(&self)))
    }

    /// Returns the number of states of these threads. Panics if an order of their steps is wrong.
    fn states(self, threads: &[Vec<Call>]) -> usize {
        let config = Config {
            allocates: self.group_bits.is_some(),
            group_bits: self.group_bits.unwrap_or(0),
            cold_takes: self.cold_takes,
            most_carried: 1,
            tries: 2,
        };
        let found = with_config(config, || explore(false, || self.scene(threads)));
        found.unwrap_or_else(|fault| panic!("{fault}")).0
    }

    /// Checks these threads, by their calls.
    fn has(self, states: usize, threads: &[&[Call]]) {
        let threads: Vec<_> = threads.iter().map(|it| it.to_vec()).collect();
        want_states(self.states(&threads), states);
    }

    /// Checks threads each of whose calls is one of some, in all ways. The states of all ways are
    /// counted together.
    fn has_all(self, states: usize, threads: &[&[&[Call]]]) {
        let mut ways: Vec<Vec<Vec<Call>>> = vec![Vec::new()];
        for calls in threads {
            let mut each = vec![Vec::new()];
            for call in *calls {
                each = product(&each, call);
            }
            ways = product(&ways, &each);
        }
        let found: usize = ways.iter().map(|it| self.states(it)).sum();
        want_states(found, states);
    }
}

/// Checks a number of states. tests/check-steps leaves it out of wrong tables.
fn want_states(found: usize, states: usize) {
    if std::env::var_os("YACHTBANYAN_ANY_STATES").is_none() {
        assert_eq!(found, states, "the number of states");
    }
}

/// Returns each list with each item at its end.
fn product<T: Clone>(lists: &[Vec<T>], items: &[T]) -> Vec<Vec<T>> {
    let with = |list: &Vec<T>, it: &T| [list.as_slice(), std::slice::from_ref(it)].concat();
    let all = lists.iter().flat_map(|list| items.iter().map(move |it| with(list, it)));
    all.collect()
}

const REQUESTS: &[Call] = &[LOOK, PUT, REMOVE];
const CHANGES: &[Call] = &[INSERT, PUT, REMOVE];
const BY_KEY: &[Call] = &[LOOK_KEY, REMOVE_KEY, REPLACE_KEY];

#[test]
fn steps_of_one_thread() {
    let calls: &[Call] = &[LOOK, PUT, REMOVE, LOOK_KEY, REMOVE_KEY, REPLACE_KEY];
    for family in [HOT, WARM, COLD, NEW] {
        family.has_all(0, &[&[calls; 4]]);
    }
    HOT.has(0, &[&[PUT, LOOK, LOOK, LOOK, LOOK]]);
    ONE.has_all(0, &[&[CHANGES; 4]]);
    RANGE.has_all(0, &[&[CHANGES; 4]]);
    GROUPS.has_all(0, &[&[CHANGES; 4]]);
}

#[test]
fn steps_at_a_slot() {
    HOT.has_all(6906, &[&[REQUESTS; 2], &[REQUESTS]]);
    WARM.has_all(5160, &[&[REQUESTS; 2], &[REQUESTS]]);
    COLD.has_all(2669, &[&[REQUESTS; 2], &[REQUESTS]]);
    NEW.has_all(6772, &[&[REQUESTS; 2], &[REQUESTS]]);
    HOT.has(661, &[&[LOOK], &[REMOVE, PUT, REMOVE]]);
}

#[test]
fn steps_of_a_check() {
    HOT.has_all(4694, &[&[&[LOOK_CURRENT]], &[REQUESTS; 2]]);
    COLD.has_all(1543, &[&[&[LOOK_CURRENT]], &[REQUESTS; 2]]);
    WARM.has_all(4406, &[&[&[LOOK_CURRENT]], &[REQUESTS; 2]]);
    HOT.has(853, &[&[LOOK_CURRENT], &[REMOVE, PUT, REMOVE]]);
}

#[test]
fn steps_by_key() {
    HOT.has_all(2546, &[&[BY_KEY], &[BY_KEY]]);
    COLD.has_all(2213, &[&[BY_KEY], &[BY_KEY]]);
    HOT.has_all(15_053, &[&[BY_KEY], &[REQUESTS; 2]]);
    COLD.has_all(6456, &[&[BY_KEY], &[REQUESTS; 2]]);
    WARM.has_all(2406, &[&[BY_KEY], &[REQUESTS]]);
    COLD.has(123, &[&[REMOVE_KEY_SURELY], &[LOOK]]);
}

#[test]
fn steps_of_the_range() {
    ONE.has_all(7222, &[&[CHANGES; 2], &[CHANGES]]);
    RANGE.has_all(7988, &[&[CHANGES; 2], &[CHANGES]]);
    GROUP.has_all(7332, &[&[CHANGES; 2], &[CHANGES]]);
    GROUPS.has_all(1099, &[&[CHANGES], &[CHANGES]]);
    RANGE.has_all(985, &[&[CHANGES], &[BY_KEY]]);
    RANGE.has(650, &[&[INSERT, INSERT], &[REMOVE_SECOND]]);
    APART.has_all(1216, &[&[CHANGES], &[CHANGES]]);
    GROUPS.has(633, &[&[INSERT, INSERT], &[REMOVE_SECOND]]);
    let moved = &[REMOVE, PUT_SECOND, REMOVE_SECOND, PUT, REMOVE, PUT_SECOND];
    HALF.has(894, &[moved, &[FIND]]);
    HALF.has_all(216, &[&[&[INSERT, FIND]], &[&[INSERT, FIND]]]);
}

#[test]
#[ignore = "slow unless it is optimized"]
fn steps_of_questions() {
    RANGE.has(32_286, &[&[FIND, FIND], &[FIND], &[REMOVE]]);
    GROUP.has(36_623, &[&[FIND, FIND], &[REMOVE], &[REMOVE_SECOND]]);
}

#[test]
#[ignore = "slow unless it is optimized"]
fn steps_of_three_threads() {
    HOT.has_all(46_813, &[&[&[LOOK]], &[&[LOOK]], &[&[PUT, REMOVE]]]);
    HOT.has_all(8142, &[&[&[LOOK, PUT]], &[&[REMOVE]], &[&[LOOK]]]);
    WARM.has_all(4776, &[&[&[LOOK, PUT]], &[&[REMOVE]], &[&[LOOK]]]);
    COLD.has_all(20_585, &[&[REQUESTS], &[&[REMOVE_KEY]], &[REQUESTS]]);
    HOT.has_all(48_690, &[&[REQUESTS], &[&[REMOVE_KEY]], &[&[LOOK]]]);
    ONE.has_all(18_382, &[&[&[INSERT]], &[&[INSERT]], &[CHANGES]]);
    RANGE.has_all(24_576, &[&[&[INSERT]], &[&[INSERT]], &[CHANGES]]);
    RANGE.has(1977, &[&[INSERT], &[LOOK_KEY], &[REMOVE]]);
}

#[test]
#[ignore = "slow unless it is optimized"]
fn steps_of_more_calls() {
    HOT.has_all(83_167, &[&[REQUESTS; 2], &[REQUESTS; 2]]);
    WARM.has_all(67_374, &[&[REQUESTS; 2], &[REQUESTS; 2]]);
    RANGE.has_all(86_314, &[&[CHANGES; 2], &[CHANGES; 2]]);
    GROUPS.has_all(8098, &[&[CHANGES; 2], &[CHANGES]]);
    COLD.has_all(21_644, &[&[BY_KEY; 2], &[BY_KEY]]);
}
