//! The layer over a ring of the test's own: what it queues, and what each completion leads to.
use super::*;
use std::collections::VecDeque;
use std::io;

/// What was queued, the completions to come, and the number of the error that the ring has, if it
/// is not 0. A wait completes a request without a key.
#[derive(Default)]
struct Script {
    queued: Vec<Entry<&'static str>>,
    completions: VecDeque<Completion>,
    error: i32,
}

const WAIT: Completion = Completion { user_data: 0, result: 0, flags: 0 };

impl Script {
    fn unless_broken<T>(&self, value: T) -> io::Result<T> {
        if self.error != 0 {
            return Err(io::Error::from_raw_os_error(self.error));
        }
        Ok(value)
    }
}

impl Ring for Script {
    type Request = &'static str;

    fn push(&mut self, entry: Entry<&'static str>) -> io::Result<()> {
        self.queued.push(entry);
        self.unless_broken(())
    }

    fn make_room(&mut self, entries: usize) -> io::Result<bool> {
        self.unless_broken(entries <= 8)
    }

    fn completion(&mut self) -> Option<Completion> {
        self.completions.pop_front()
    }

    fn wait(&mut self) -> io::Result<()> {
        self.completions.push_back(WAIT);
        self.unless_broken(())
    }
}

type Tested = Lives<u32, Script>;

fn lives(slots: u32) -> Tested {
    Lives::new(Script::default(), slots).unwrap()
}

/// Lets a request be completed, and returns the events until the layer waits.
fn complete(lives: &mut Tested, user_data: u64, result: i32, flags: u32) -> Vec<Event<u32>> {
    lives.ring().completions.push_back(Completion { user_data, result, flags });
    let events = std::iter::from_fn(|| lives.next().unwrap());
    events.take_while(|event| *event != Event::Other(WAIT)).collect()
}

/// Lets the layer wait, without an event before.
fn wait(lives: &mut Tested) {
    assert_eq!(lives.next().unwrap(), Some(Event::Other(WAIT)));
}

/// Returns what was queued since the last call.
fn queued(lives: &mut Tested) -> Vec<Entry<&'static str>> {
    std::mem::take(&mut lives.ring().queued)
}

/// Accepts a connection, and returns its key.
fn accepted(lives: &mut Tested) -> Key {
    lives.accept(5, 1, 0);
    wait(lives);
    let data = queued(lives)[0].user_data;
    let key = Key::from_bits(data).0;
    lives.accept(5, 0, 0);
    assert_eq!(complete(lives, data, 0, 0), [Event::Opened(key, 0)]);
    key
}

#[test]
fn accepts_are_kept_in_flight() {
    let mut it = lives(8);
    it.accept(5, 3, 4);
    wait(&mut it);
    let first = queued(&mut it);
    assert_eq!(first.len(), 3);
    for entry in &first {
        assert_eq!((entry.request, entry.flags), (Request::Accept(5), 0));
        assert_eq!(entry.file_index, Key::from_bits(entry.user_data).0.slot() + 1);
    }
    // a slot more for accepts, and four for chains
    assert_eq!(complete(&mut it, first[0].user_data, 0, 0).len(), 1);
    assert_eq!(queued(&mut it).len(), 1);
    assert_eq!(complete(&mut it, first[1].user_data, 0, 0).len(), 1);
    assert_eq!(queued(&mut it).len(), 0);
    // the connection was reset: another accept; then the listening socket is shut down: none
    assert_eq!(complete(&mut it, first[2].user_data, -103, 0), []);
    let again = queued(&mut it);
    assert_eq!(again.len(), 1);
    assert_eq!(complete(&mut it, again[0].user_data, -22, 0), [Event::Stopped(-22)]);
    assert_eq!(queued(&mut it).len(), 0);
    // all slots are left to chains
    it.accept(5, 3, u32::MAX);
    wait(&mut it);
    assert_eq!(queued(&mut it).len(), 0);
}

#[test]
fn last_completions_are_known() {
    const MORE: u32 = 2;
    const NOTIF: u32 = 8;
    // of a kind of zero-copy sends or of another: the completions, each with its result and flags
    let rows: [(u8, &[(i32, u32)]); 8] = [
        (0, &[(4, 0)]),
        (0, &[(-125, 0)]),
        (0, &[(4, MORE), (0, 0)]),
        (1, &[(4, MORE), (0, NOTIF)]),
        (1, &[(-32, MORE), (0, NOTIF)]),
        (1, &[(-125, 0), (0, NOTIF)]),
        (1, &[(-22, 0)]),
        (1, &[(-95, 0)]),
    ];
    for (kind, completions) in rows {
        let mut it = lives(1);
        let key = accepted(&mut it);
        it.set_zero_copy(&[1]);
        it.start(key, kind, "send").unwrap();
        for (nth, (result, flags)) in completions.iter().enumerate() {
            let found = complete(&mut it, key.to_bits(kind), *result, *flags);
            let last = nth + 1 == completions.len();
            assert!(
                matches!(found[..], [Event::Completed { is_last, .. }] if is_last == last),
                "{kind}, {completions:?}: {found:?}"
            );
            assert_eq!(it.slots().in_flight(), u64::from(!last));
        }
    }
}

#[test]
fn a_life_ends_by_a_shutdown_and_a_close() {
    let mut it = lives(1);
    let key = accepted(&mut it);
    it.start(key, 2, "receive").unwrap();
    it.end(key);
    assert!(it.start(key, 2, "receive").is_err());
    let entries = queued(&mut it);
    let all: Vec<_> = entries.iter().map(|it| (it.request, it.fd, it.flags)).collect();
    assert_eq!(all, [(Request::Own("receive"), 0, 1), (Request::Shutdown, 0, 1)]);
    assert_eq!(complete(&mut it, entries[1].user_data, 0, 0), []);
    assert_eq!(complete(&mut it, entries[0].user_data, 0, 0).len(), 1);
    // the close is canceled once, and then another has emptied the slot
    for result in [-125, -9] {
        let close = queued(&mut it);
        assert_eq!((close.len(), close[0].request), (1, Request::Close));
        assert_eq!((close[0].file_index, close[0].flags), (1, 0));
        let over = complete(&mut it, close[0].user_data, result, 0);
        assert_eq!(over.len(), usize::from(result == -9));
    }
    assert!(it.slots().is_empty());
    // a second last completion, of a kind that zero_copy lacks: the life was over once
    let late = complete(&mut it, key.to_bits(2), 0, 8);
    assert!(matches!(late[..], [Event::Completed { is_last: true, .. }]), "{late:?}");
}

#[test]
fn a_chain_is_linked() {
    let mut it = lives(1);
    let key = it.chain(7, "open", vec![(0, "read"), (3, "send")], true).unwrap();
    assert_eq!(it.chain(8, "open", vec![], true).unwrap_err().1, 8);
    let entries = queued(&mut it);
    let all: Vec<_> = entries.iter().map(|it| (it.request, it.file_index, it.flags)).collect();
    let own = Request::Own;
    // IOSQE_IO_LINK is 4, IOSQE_IO_HARDLINK 8, IOSQE_FIXED_FILE 1
    let wanted = [(own("open"), 1, 4), (own("read"), 0, 9), (own("send"), 0, 9)];
    assert_eq!(all, [&wanted[..], &[(Request::Close, 1, 0)]].concat());
    // the close is canceled, and its file left: it is asked for again
    for (entry, result) in entries.iter().zip([0, 5, 5, -125]) {
        assert!(!complete(&mut it, entry.user_data, result, 0).contains(&Event::Over(key, 7)));
    }
    let close = queued(&mut it);
    assert_eq!((close.len(), close[0].request), (1, Request::Close));
    assert_eq!(complete(&mut it, close[0].user_data, 0, 0), [Event::Over(key, 7)]);
    // a chain without a close is a life like others
    let key = it.chain(9, "open", vec![(0, "read")], false).unwrap();
    let flags: Vec<_> = queued(&mut it).iter().map(|it| it.flags).collect();
    assert_eq!(flags, [4, 1]);
    assert_eq!(complete(&mut it, key.to_bits(14), 0, 0), [Event::Opened(key, 0)]);
    assert_eq!(complete(&mut it, key.to_bits(0), 5, 0).len(), 1);
    assert_eq!(it.live(key), Some(&mut 9));
}

#[test]
#[should_panic(expected = "the queue is too short")]
fn a_chain_longer_than_the_queue_is_refused() {
    let _ = lives(1).chain(7, "open", vec![(0, "read"); 8], false);
}

#[test]
fn nothing_is_left_after_a_stop() {
    let mut it = lives(4);
    let key = accepted(&mut it);
    let chain = it.chain(7, "open", vec![], true).unwrap();
    it.accept(5, 1, 0);
    wait(&mut it);
    let accept = queued(&mut it).pop().unwrap();
    it.stop();
    assert!(it.chain(8, "open", vec![], true).is_err());
    let entries = queued(&mut it);
    assert_eq!(entries[0].request, Request::Cancel(accept.user_data));
    assert_eq!((entries[1].request, entries.len()), (Request::Shutdown, 2));
    assert_eq!(complete(&mut it, entries[0].user_data, 0, 0), []);
    // the accept came before its cancel: its close is due
    let late = Key::from_bits(accept.user_data).0;
    assert_eq!(complete(&mut it, accept.user_data, 0, 0), [Event::Opened(late, 0)]);
    assert_eq!(complete(&mut it, entries[1].user_data, 0, 0), []);
    let closes = queued(&mut it);
    assert_eq!(closes.len(), 2);
    for (close, of) in closes.iter().zip([late, key]) {
        assert_eq!(complete(&mut it, close.user_data, 0, 0), [Event::Over(of, 0)]);
    }
    assert_eq!(complete(&mut it, chain.to_bits(14), -2, 0), [Event::Opened(chain, -2)]);
    assert_eq!(complete(&mut it, chain.to_bits(13), -125, 0), [Event::Over(chain, 7)]);
    for _ in 0..2 {
        assert!(matches!(it.next(), Ok(None)));
    }
}

#[test]
fn an_error_stays() {
    const EINVAL: i32 = 22;
    let breaks: [fn(&mut Tested); 3] = [
        |it| assert_eq!(it.chain(7, "open", vec![], true), Err((ReserveError::Stopped, 7))),
        |it| it.push_other("read", 1),
        |it| assert!(it.next().is_err()),
    ];
    for breaks in breaks {
        let mut it = lives(4);
        it.ring().error = EINVAL;
        breaks(&mut it);
        it.ring().error = 0;
        it.ring().completions.clear();
        queued(&mut it);
        it.accept(5, 1, 0);
        for _ in 0..3 {
            assert_eq!(it.next().unwrap_err().raw_os_error(), Some(EINVAL));
        }
        assert_eq!(it.chain(7, "open", vec![], true), Err((ReserveError::Stopped, 7)));
        assert_eq!(queued(&mut it), []);
        it.stop();
        assert!(matches!(it.next(), Ok(None)));
    }
}
