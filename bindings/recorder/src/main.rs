//! recorder TABLE SEED [THREADS [ROUNDS [CALLS [SLOTS]]]]: records random calls of threads on a
//! table, and prints the log (docs/use/RECORDING.md). TABLE is `yachtbanyan`, `c` (that of the C
//! library), `keys` and `c-keys` (the same two by the keys of their values), `slots` (a table of
//! std), or a wrong one: `stale`, `early` or `walk`, or `stale:N`, `early:N`, `lost:N`, `take:N` or
//! `full:N`, of which one of N calls is wrong. Standard error has the number of calls, and how rare
//! a fault is that they show.
//!
//! Each of THREADS (3) makes CALLS (50) calls in each of ROUNDS (20), after which all rest. The
//! table has SLOTS: 3, or by keys as many as all calls, since each call may keep its value.
//!
//! The exit status is 1 if the table panics or a call never returns, with a log up to there. It is
//! 2 if an argument is invalid, and 4 if the log can't be printed.
use recorder::tables::{Fault, Slots, Wrong};
use recorder::{record, Log, Plan};
use std::process::ExitCode;
use std::time::Duration;

const USAGE: &str = "usage: recorder TABLE SEED [THREADS [ROUNDS [CALLS [SLOTS]]]]";
const TABLES: &str =
    "yachtbanyan, c, keys, c-keys, slots, stale, early, walk, or, wrong at one of \
                      N calls, stale:N, early:N, lost:N, take:N or full:N";
/// The largest numbers of threads and of slots.
const MOST: (usize, usize) = (64, 1_048_576);

/// Reads the arguments: the table, and what is played.
fn plan_of(words: &[String]) -> Result<(&str, Plan), String> {
    let number = |at: usize, name: &str, or: usize, least: usize, most: usize| {
        let Some(word) = words.get(at) else {
            return Ok(or);
        };
        let number = word.parse().ok().filter(|it| (least..=most).contains(it));
        number.ok_or_else(|| format!("{name} is a number from {least} to {most}, not '{word}'"))
    };
    let Some(table) = words.first() else {
        return Err("no table is given".into());
    };
    if words.len() > 6 {
        return Err(format!("'{}' is an argument too many", words[6]));
    }
    let seed = number(1, "SEED", 1, 0, u32::MAX as usize)? as u64;
    let threads = number(2, "THREADS", 3, 1, MOST.0)?;
    let rounds = number(3, "ROUNDS", 20, 1, 1_000_000)?;
    let calls = number(4, "CALLS", 50, 1, 1_000_000)?;
    let all = threads * rounds * calls;
    let is_keyed = table.ends_with("keys");
    if is_keyed && all > MOST.1 {
        let most = MOST.1;
        return Err(format!("by keys at most {most} calls are recorded, not {all}"));
    }
    let least = if is_keyed { all } else { 1 };
    let slots = number(5, "SLOTS", least.max(3), least, MOST.1)?;
    let plan = Plan { seed, threads, rounds, calls, slots, silence: Duration::from_secs(20) };
    Ok((table, plan))
}

/// Records a table of the library libyachtbanyan, or returns `None` for another name.
#[cfg(feature = "yachtbanyan")]
fn log_of_library(table: &str, plan: Plan) -> Option<Result<Log, String>> {
    let options = yachtbanyan::Options::new(plan.slots as u32);
    let opened = || {
        let opened = options.handles(plan.threads as u32).open();
        opened.map_err(|fault| format!("the table was not opened: {fault}"))
    };
    match table {
        "yachtbanyan" => Some(opened().map(|it| record(it, plan))),
        "keys" => Some(opened().map(|it| record(recorder::library::Keyed(it), plan))),
        #[cfg(not(yachtbanyan_stand_in))]
        "c" => Some(Ok(record(recorder::c::CTable::<false>::new(plan.slots, plan.threads), plan))),
        #[cfg(not(yachtbanyan_stand_in))]
        "c-keys" => {
            Some(Ok(record(recorder::c::CTable::<true>::new(plan.slots, plan.threads), plan)))
        }
        _ => None,
    }
}

/// Says that this recorder was built without the library.
#[cfg(not(feature = "yachtbanyan"))]
fn log_of_library(table: &str, _: Plan) -> Option<Result<Log, String>> {
    let needed = ["yachtbanyan", "keys", "c", "c-keys"].contains(&table);
    needed.then(|| Err(format!("{table} needs the feature yachtbanyan")))
}

/// Returns the fault of a table that is wrong at one of N calls, by its name, `WRONG:N`, or at each
/// one, `WRONG`.
fn rare_fault(table: &str) -> Option<Result<Fault, String>> {
    let (name, number) = table.split_once(':').unwrap_or((table, "1"));
    let wrong = match name {
        "stale" => Wrong::Stale,
        "early" => Wrong::Early,
        "lost" => Wrong::Lost,
        "take" => Wrong::Take,
        "full" => Wrong::Full,
        _ => return None,
    };
    Some(match number.parse() {
        Ok(calls) if calls > 0 => Ok(Fault::Rare(wrong, calls)),
        _ => Err(format!("{name}:N takes a number from 1 up")),
    })
}

fn log_of(table: &str, plan: Plan) -> Result<Log, String> {
    let fault = match table {
        "slots" => Fault::None,
        "walk" => Fault::OneWalk,
        _ => match rare_fault(table) {
            Some(fault) => fault?,
            None => {
                let found = log_of_library(table, plan);
                return found.unwrap_or_else(|| Err(format!("TABLE is {TABLES}, not '{table}'")));
            }
        },
    };
    Ok(record(Slots::new(plan.slots, fault), plan))
}

fn main() -> ExitCode {
    let words: Vec<String> = std::env::args().skip(1).collect();
    if words.first().is_some_and(|it| it == "--help" || it == "-h") {
        println!("{USAGE}\nTABLE is {TABLES}");
        return ExitCode::SUCCESS;
    }
    let recorded = plan_of(&words).and_then(|(table, plan)| Ok((log_of(table, plan)?, plan)));
    match recorded {
        Ok((log, plan)) => {
            let calls = plan.threads * plan.rounds * plan.calls;
            // (1 - 1/n)^(3n) is below 0.05
            let rare = (calls / 3).max(1);
            eprintln!(
                "recorder: {calls} calls; 95 of 100 such logs have a fault of 1 call in {rare}"
            );
            log.print()
        }
        Err(fault) => {
            eprintln!("recorder: {fault}\n{USAGE}");
            ExitCode::from(2)
        }
    }
}
