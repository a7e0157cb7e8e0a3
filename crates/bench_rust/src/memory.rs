//! How many bytes tables of the Rust crate take once they are open, of values that it keeps in a
//! box each.
use yachtbanyan::Options;

/// What the C library says of its memory: `struct mallinfo2`.
#[repr(C)]
struct Info([usize; 10]);

/// The fields `hblkhd`, the bytes of large blocks, and `uordblks`, those of all others.
const USED: [usize; 2] = [4, 7];

extern "C" {
    fn mallinfo2() -> Info;
}

fn used() -> usize {
    // SAFETY: the function takes nothing, and returns ten numbers
    let Info(numbers) = unsafe { mallinfo2() };
    USED.iter().map(|&at| numbers[at]).sum()
}

/// Returns the bytes of a table with this number of slots, handles and seats.
fn bytes(slots: u32, handles: u32, seats: u32) -> f64 {
    let before = used();
    let options = Options::new(slots).handles(handles).readers(0);
    let opened = options.guards(seats - 2 * handles).open::<u64>();
    let table = opened.expect("memory");
    let found = used() - before;
    drop(table);
    found as f64
}

/// Prints the bytes of some tables, and what one more slot, seat and pair of a handle and a seat
/// takes.
pub fn print_all() {
    for (slots, handles, seats) in [
        (256, 16, 176),
        (1_048_576, 16, 176),
        (256, 64, 1024),
        (1_048_576, 64, 1024),
    ] {
        let megabytes = bytes(slots, handles, seats) / 1e6;
        println!("memory: {slots} slots, {handles} handles, {seats} seats: {megabytes:.2} MB");
    }
    let first = (bytes(4096, 1, 2) - bytes(256, 1, 2)) / 3840.0;
    let further = (bytes(1_048_576, 1, 2) - bytes(65_536, 1, 2)) / 983_040.0;
    let pair = (bytes(65_536, 33, 176) - bytes(65_536, 1, 176)) / (32.0 * 176.0);
    let seat = (bytes(65_536, 1, 1000) - bytes(65_536, 1, 200)) / 800.0 - pair;
    println!(
        "memory: each of the first 4096 slots {first:.1} bytes, each further one {further:.1}"
    );
    println!("memory: each seat {seat:.1} bytes, and each handle {pair:.1} for each seat");
}
