
// Appended to examples/direct/ring.rs, whose queue then passes each entry through `spoiled`: as
// tests/injector.h does for the servers in C.
static SPOILED: std::sync::Mutex<(u32, u32, [bool; 65], bool)> =
    std::sync::Mutex::new((0, 0, [false; 65], false));

fn spoiled(it: Sqe) -> Sqe {
    const EVERY: u32 = 97;
    let mut state = SPOILED.lock().unwrap();
    let (closes, others, left, is_linked) = &mut *state;
    let was_linked = std::mem::replace(is_linked, it.flags & 12 != 0);
    let (is_close, is_send, slot) = (it.opcode == 19, it.opcode == 26, it.file_index as usize);
    assert!(!is_send || it.own_flags & NOSIGNAL != 0, "a send without MSG_NOSIGNAL");
    assert!(slot == 0 || is_close || !left[slot], "an open at a slot whose file is left");
    if is_close {
        left[slot] = false;
    }
    if !is_send && !is_close && it.opcode != Sqe::RECEIVE {
        return it;
    }
    let count = if is_close { closes } else { others };
    *count += 1;
    if *count % EVERY != 0 {
        return it;
    }
    if !is_close && *count / EVERY % 2 != 0 {
        let (len, own_flags) = (if is_send { it.len.div_ceil(2) } else { 1 }, it.own_flags & !WAITALL);
        return Sqe { len, own_flags, ..it };
    }
    if is_close {
        left[slot] = !was_linked; // the open of a chain may fail
    }
    let (flags, data, len) = (it.flags & !FIXED_FILE, it.data, -125i32 as u32);
    Sqe { flags, data, len, fd: -1, own_flags: 1, ..Sqe::default() }
}
