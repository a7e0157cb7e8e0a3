//! How long the crate needs to find an empty slot of a table with two of them: the median and the
//! mean of many pairs of an installation and a removal, by the handle that installs or by another
//! one; and how much longer 16 handles in turn need to fill a table than one.
use std::time::Instant;
use yachtbanyan::{Handle, Key, Table};

/// The numbers of slots.
const SLOTS: [u32; 3] = [4096, 65_536, 1_048_576];

/// The number of slots without a value.
const FREE: u32 = 2;

/// The number of times that each table is filled.
const FILLS: usize = 5;

/// The number of pairs.
const PAIRS: usize = 10_000;

/// Returns the key of a value that the handle installs.
type Install = fn(&Handle<u64>) -> Key;

const CALLS: [(&str, Install); 2] = [
    ("insert", |handle| handle.insert(1).expect("an empty slot")),
    ("insert_with", |handle| {
        let made = handle.insert_with(|key| u64::from(key.slot()));
        made.expect("an empty slot")
    }),
];

/// Returns the nanoseconds of a pair.
fn pair(by: &Handle<u64>, from: &Handle<u64>, install: Install) -> u128 {
    let begun = Instant::now();
    let key = install(by);
    let removed = from.remove(key);
    let time = begun.elapsed().as_nanos();
    assert!(removed.is_ok(), "the value that was installed");
    time
}

fn print(name: &str, slots: u32, who: &str, mut times: Vec<u128>) {
    times.sort_unstable();
    let half = times[times.len() / 2];
    let mean = times.iter().sum::<u128>() / times.len() as u128;
    println!(
        "searches: {name} and remove by {who}, {FREE} of {slots} slots empty: median {half} mean {mean} \
         ns"
    );
}

/// Returns the nanoseconds of an insertion while handles in turn fill a table.
fn fill(slots: u32, handles: usize) -> f64 {
    let table = Table::<u64>::with_slots(slots).expect("memory");
    let by: Vec<_> = (0..handles)
        .map(|_| table.handle().expect("a handle"))
        .collect();
    let begun = Instant::now();
    for number in 0..slots as usize {
        by[number % handles].insert(1).expect("an empty slot");
    }
    begun.elapsed().as_nanos() as f64 / f64::from(slots)
}

/// Prints the time of an insertion while 16 handles fill a table, and while one does.
fn print_fills() {
    for slots in (12..=20).map(|bits| 1 << bits) {
        let [all, one] = [16, 1].map(|handles| {
            let mut times: Vec<_> = (0..FILLS).map(|_| fill(slots, handles)).collect();
            times.sort_unstable_by(f64::total_cmp);
            times[FILLS / 2]
        });
        let ratio = all / one;
        println!(
            "searches: fill {slots} slots by 16 handles: {all:.1} ns each, {ratio:.2} of one's"
        );
    }
}

/// Prints the times for each number of slots.
pub fn print_all() {
    for slots in SLOTS {
        let table = Table::<u64>::with_slots(slots).expect("memory");
        let [one, other] = [(); 2].map(|()| table.handle().expect("a handle"));
        for _ in 0..slots - FREE {
            one.insert(0).expect("an empty slot");
        }
        for (name, install) in CALLS {
            for (who, from) in [("the same handle", &one), ("another one", &other)] {
                let times = (0..PAIRS).map(|_| pair(&one, from, install)).collect();
                print(name, slots, who, times);
            }
        }
    }
    print_fills();
}
