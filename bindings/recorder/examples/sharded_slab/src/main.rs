//! record_sharded_slab SEED: records random calls of three threads on a slab of the crate
//! sharded-slab, and prints the log (docs/use/RECORDING.md). This is all that wraps a table.
use recorder::{record, Handle, Plan, Table, Value};
use sharded_slab::{Entry, Slab};
use std::ops::Deref;
use std::process::ExitCode;
use std::time::Duration;

struct Slabs(Slab<Value>);
struct SlabHandle<'a>(&'a Slab<Value>);
struct Guard<'a>(Entry<'a, Value>);

impl Deref for Guard<'_> {
    type Target = Value;

    fn deref(&self) -> &Value {
        &self.0
    }
}

impl Table for Slabs {
    type Handle<'a> = SlabHandle<'a>;

    fn handle(&self) -> SlabHandle<'_> {
        SlabHandle(&self.0)
    }
}

impl Handle for SlabHandle<'_> {
    type Guard<'a>
        = Guard<'a>
    where
        Self: 'a;
    const CHOOSES: bool = true;

    fn get(&self, key: usize) -> Option<Guard<'_>> {
        self.0.get(key).map(Guard)
    }

    fn put_any(&self, value: Value) -> Result<usize, Value> {
        Ok(self.0.insert(value).expect("room in the slab"))
    }

    fn take(&self, key: usize) -> bool {
        self.0.remove(key)
    }
}

/// Reads the only argument, the seed.
fn seed_of(words: &[String]) -> Result<u64, String> {
    let [seed] = words else {
        return Err(format!("{} arguments are not 1", words.len()));
    };
    match seed.parse::<u32>() {
        Ok(seed) => Ok(seed.into()),
        Err(_) => Err(format!("SEED is a number from 0 to {}, not '{seed}'", u32::MAX)),
    }
}

fn main() -> ExitCode {
    let words: Vec<String> = std::env::args().skip(1).collect();
    let seed = match seed_of(&words) {
        Ok(seed) => seed,
        Err(fault) => {
            eprintln!("record_sharded_slab: {fault}\nusage: record_sharded_slab SEED");
            return ExitCode::from(2);
        }
    };
    let plan = Plan {
        seed,
        threads: 3,
        rounds: 1,
        calls: 240,
        slots: 0,
        silence: Duration::from_secs(20),
    };
    record(Slabs(Slab::new()), plan).print()
}
