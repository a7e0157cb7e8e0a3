// Instructions of a life of a direct descriptor: in the machine of libyachtdirect by requests
// (reserve, opened, start, finish, end, closed) and by a chain (reserve, chain, and chained for the
// open, a read and the close), and in a slab with a generation and a count in plain Rust, each
// called by functions with the C calling convention that are not inlined.
use std::hint::black_box;

mod machine {
    #[repr(C)]
    pub struct Direct {
        pub slots: *mut std::ffi::c_void,
    }
    extern "C" {
        pub fn yacht_direct_open_6(
            machine: *mut Direct,
            slots: u32,
            first: u32,
            length: u32,
        ) -> i32;
        pub fn yacht_direct_free(machine: Direct);
        pub fn yacht_direct_reserve(machine: *mut Direct, key: *mut u64, slot: *mut u32) -> i32;
        pub fn yacht_direct_opened(
            machine: *mut Direct,
            key: u64,
            result: i32,
            slot: *mut u32,
        ) -> i32;
        pub fn yacht_direct_chain(
            machine: *mut Direct,
            key: u64,
            requests: u32,
            closes: u32,
            slot: *mut u32,
        ) -> i32;
        pub fn yacht_direct_chained(
            machine: *mut Direct,
            key: u64,
            member: u32,
            result: i32,
            slot: *mut u32,
        ) -> i32;
        pub fn yacht_direct_start(machine: *mut Direct, key: u64, slot: *mut u32) -> i32;
        pub fn yacht_direct_finish(machine: *mut Direct, key: u64, slot: *mut u32) -> i32;
        pub fn yacht_direct_end(machine: *mut Direct, key: u64, slot: *mut u32) -> i32;
        pub fn yacht_direct_closed(machine: *mut Direct, key: u64) -> i32;
    }
}

mod slab {
    #[derive(Clone, Copy, PartialEq)]
    enum Phase {
        Free(u32),
        Opening,
        Live,
        Ending,
        Closing,
    }
    #[derive(Clone, Copy)]
    struct Entry {
        generation: u64,
        requests: u32,
        phase: Phase,
    }
    pub struct Slab {
        entries: Vec<Entry>,
        free: u32,
    }
    const NONE: u32 = u32::MAX;
    impl Slab {
        pub fn new(n: u32) -> Slab {
            let entries = (0..n)
                .map(|i| Entry {
                    generation: 0,
                    requests: 0,
                    phase: Phase::Free(if i + 1 < n { i + 1 } else { NONE }),
                })
                .collect();
            Slab { entries, free: 0 }
        }
        fn entry(&mut self, key: u64) -> Option<&mut Entry> {
            let entry = self.entries.get_mut((key >> 4 & 0xfffff) as usize)?;
            (entry.generation == key >> 24).then_some(entry)
        }
    }
    #[inline(never)]
    pub extern "C" fn reserve(slab: &mut Slab, key: &mut u64, slot: &mut u32) -> i32 {
        let at = slab.free;
        let Some(entry) = slab.entries.get_mut(at as usize) else {
            return -6;
        };
        if let Phase::Free(next) = entry.phase {
            slab.free = next;
        }
        entry.generation += 1;
        entry.requests = 0;
        entry.phase = Phase::Opening;
        *key = entry.generation << 24 | u64::from(at) << 4;
        *slot = at;
        0
    }
    #[inline(never)]
    pub extern "C" fn opened(slab: &mut Slab, key: u64, result: i32) -> i32 {
        let free = slab.free;
        let Some(entry) = slab.entry(key) else {
            return -10;
        };
        if entry.phase != Phase::Opening {
            return -11;
        }
        if result >= 0 {
            entry.phase = Phase::Live;
        } else {
            entry.phase = Phase::Free(free);
            slab.free = (key >> 4 & 0xfffff) as u32;
        }
        0
    }
    #[inline(never)]
    pub extern "C" fn start(slab: &mut Slab, key: u64, slot: &mut u32) -> i32 {
        let Some(entry) = slab.entry(key) else {
            return -10;
        };
        if entry.phase != Phase::Live {
            return -11;
        }
        entry.requests += 1;
        *slot = (key >> 4 & 0xfffff) as u32;
        0
    }
    #[inline(never)]
    pub extern "C" fn finish(slab: &mut Slab, key: u64, slot: &mut u32) -> i32 {
        let Some(entry) = slab.entry(key) else {
            return -10;
        };
        if entry.requests == 0 {
            return -11;
        }
        entry.requests -= 1;
        if entry.phase == Phase::Ending && entry.requests == 0 {
            entry.phase = Phase::Closing;
            *slot = (key >> 4 & 0xfffff) as u32;
            return 1;
        }
        0
    }
    #[inline(never)]
    pub extern "C" fn end(slab: &mut Slab, key: u64, slot: &mut u32) -> i32 {
        let Some(entry) = slab.entry(key) else {
            return -10;
        };
        if entry.phase != Phase::Live {
            return -11;
        }
        if entry.requests == 0 {
            entry.phase = Phase::Closing;
            *slot = (key >> 4 & 0xfffff) as u32;
            return 1;
        }
        entry.phase = Phase::Ending;
        0
    }
    #[inline(never)]
    pub extern "C" fn closed(slab: &mut Slab, key: u64) -> i32 {
        let free = slab.free;
        let Some(entry) = slab.entry(key) else {
            return -10;
        };
        if entry.phase != Phase::Closing {
            return -11;
        }
        entry.phase = Phase::Free(free);
        slab.free = (key >> 4 & 0xfffff) as u32;
        0
    }
}

fn main() {
    let words: Vec<String> = std::env::args().collect();
    let (kind, lives): (&str, u64) = (&words[1], words[2].parse().unwrap());
    let (mut key, mut slot, mut closes) = (0u64, 0u32, 0u64);
    if kind == "chain" {
        unsafe {
            use machine::*;
            let mut it = Direct {
                slots: std::ptr::null_mut(),
            };
            assert_eq!(yacht_direct_open_6(&mut it, 1024, 0, 0), 0);
            for _ in 0..lives {
                assert!(yacht_direct_reserve(&mut it, &mut key, &mut slot) == 0);
                let closing = black_box(1);
                assert!(yacht_direct_chain(&mut it, black_box(key), 1, closing, &mut slot) == 0);
                for member in 0..3 {
                    let (key, result) = (black_box(key), black_box(0));
                    assert!(yacht_direct_chained(&mut it, key, member, result, &mut slot) == 0);
                }
                closes += 1;
            }
            yacht_direct_free(it);
        }
    } else if kind == "machine" {
        unsafe {
            use machine::*;
            let mut it = Direct {
                slots: std::ptr::null_mut(),
            };
            assert_eq!(yacht_direct_open_6(&mut it, 1024, 0, 0), 0);
            for _ in 0..lives {
                assert!(yacht_direct_reserve(&mut it, &mut key, &mut slot) == 0);
                let result = black_box(0);
                assert!(yacht_direct_opened(&mut it, black_box(key), result, &mut slot) == 0);
                assert!(yacht_direct_start(&mut it, black_box(key), &mut slot) == 0);
                assert!(yacht_direct_finish(&mut it, black_box(key), &mut slot) == 0);
                closes += yacht_direct_end(&mut it, black_box(key), &mut slot) as u64;
                assert!(yacht_direct_closed(&mut it, black_box(key)) == 0);
            }
            yacht_direct_free(it);
        }
    } else {
        use slab::*;
        let mut it = Slab::new(1024);
        for _ in 0..lives {
            assert!(reserve(&mut it, &mut key, &mut slot) == 0);
            assert!(opened(&mut it, black_box(key), black_box(0)) == 0);
            assert!(start(&mut it, black_box(key), &mut slot) == 0);
            assert!(finish(&mut it, black_box(key), &mut slot) == 0);
            closes += end(&mut it, black_box(key), &mut slot) as u64;
            assert!(closed(&mut it, black_box(key)) == 0);
        }
    }
    assert_eq!(closes, lives);
}
