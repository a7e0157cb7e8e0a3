//! The C interface of the verified judge (`crates/fx_judge_c`), as `include/yachtjudge.h` has it.

/// Defines numbers of the header.
macro_rules! numbers {
    ($($name:ident $number:literal),*) => { $(pub(crate) const $name: u32 = $number;)* };
}

// the answers, as yachtjudge.h describes them
numbers! { LEGAL 0, NOT_LEGAL 1, UNDECIDED 2, BAD_SCRIPT 3, NO_MEMORY 4 }
numbers! { NOT_A_LOG 9, KERNEL_LOG 10, LONG_LOG 11 }
// of a list of texts
numbers! { ALL 0, NO_ROOM 2 }
// the kinds of points; what is none of these is the removal of a file
numbers! { POINT_EVENT 1, POINT_ACCESS 2, POINT_PUT 3 }

/// Defines structs of the header.
macro_rules! structs {
    ($($name:ident { $($member:ident: $kind:ty),* })*) => { $(
        #[repr(C)]
        #[derive(Clone, Copy, Debug, Default)]
        pub(crate) struct $name { $(pub(crate) $member: $kind),* }
    )* };
}

structs! {
    Verdict { commands: u64, at: u64, note: u64, submission: u32, line: u32 }
    Texts { count: u64, bytes: u64, line: u32 }
    Reading { line: u64, steps: u64, note: u64 }
    Point { kind: u32, slot: u32, at: u64, access: u64,
            by_call: u32, by_member: u32, by_entry: u32, file: u8 }
    Step { rule: u32, is_strict: u32, first: u64, second: u64, access: u64, premise: u64,
           other: u64, slot: u64, from: Point, to: Point }
}

/// Declares functions of the header, of which each takes bytes and their number first.
macro_rules! functions {
    ($($name:ident(text, $($more:ident: $kind:ty),*);)*) => { unsafe extern "C" { $(
        pub(crate) fn $name(text: *const u8, text_length: usize, $($more: $kind),*) -> u32;
    )* } };
}

functions! {
    yacht_judge_6(text, other: *const u8, other_length: usize, states: u32, memory: u32,
                  note: *mut u8, note_length: usize, verdict: *mut Verdict);
    yacht_outcomes_6(text, states: u32, memory: u32, texts: *mut u8, texts_length: usize,
                     lengths: *mut u64, lengths_length: usize, found: *mut Texts);
    yacht_judge_log_6(text, whole_updates: u32, states: u32, memory: u32, moves: u64,
                      note: *mut u8, note_length: usize, steps: *mut Step, steps_length: usize,
                      reading: *mut Reading);
}
