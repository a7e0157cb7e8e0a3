//! Lives beside those of the plain machine (`stand_in.rs`), with random calls: over the library, a
//! model of the verified one.
use super::core::{CHAINED, CLOSE, CLOSING, DONE, ENDING, LIVE, OPENING};
use super::stand_in::Plain;
use super::{
    AdoptError, Adopted, After, Key, Member, Next, OpenError, OtherSlots, Phase, PhaseName,
    Refusal, Releases,
};
use super::{ReserveError, Slots};
use std::cell::Cell;
use std::sync::atomic::{AtomicU32, Ordering::Relaxed};
use std::sync::{Arc, OnceLock};

const MEMBERS: [Member; 3] = [Member::Open, Member::Request, Member::Close];

/// Slots whose values are their keys, and the plain machine.
struct Model {
    slots: Slots<Key>,
    plain: Plain,
    all: Vec<Key>,
    seed: u64,
}

/// Returns the number of what a call asks for, or of its refusal.
fn number_of(key: Key, answer: Result<Next, Refusal>) -> Result<i32, i32> {
    match answer {
        Ok(Next::Nothing) => Ok(DONE),
        Ok(Next::Close(slot)) if slot == key.slot() => Ok(CLOSE),
        Err(refusal) if refusal.key() == key => Err(refusal.number()),
        other => panic!("{other:?} of {key}"),
    }
}

// Submits a chain, which calls for each of its members once.
fn submit_chain(slots: &mut Slots<Key>, key: Key, requests: u32, closes: bool) {
    let submitted = Cell::new(0);
    let submit = |slot| {
        assert_eq!(slot, key.slot());
        submitted.set(submitted.get() + 1);
    };
    let before = slots.in_flight();
    let mut chain = slots.chain(key, submit).unwrap();
    for _ in 0..requests {
        chain = chain.request(submit);
    }
    if closes {
        chain.close(submit);
    } else {
        drop(chain);
    }
    assert_eq!(submitted.get(), requests + 1 + u32::from(closes));
    // the open was in flight before
    assert_eq!(slots.in_flight(), before + u64::from(submitted.get()) - 1);
}

impl Model {
    fn below(&mut self, most: usize) -> usize {
        self.seed = self.seed.wrapping_mul(6364136223846793005).wrapping_add(1442695040888963407);
        (self.seed >> 33) as usize % most
    }

    /// Returns the number of what a completion leaves, or of its refusal. A life that is over
    /// returns its value.
    fn after(&mut self, key: Key, answer: Result<After<Key>, Refusal>) -> Result<i32, i32> {
        let is_over = self.plain.phase(key.bits()).is_err();
        number_of(
            key,
            answer.map(|after| match after {
                After::Close(slot) => Next::Close(slot),
                After::Nothing => {
                    assert!(!is_over, "{key} is over");
                    Next::Nothing
                }
                After::Over(value) => {
                    assert_eq!((value, is_over), (key, true));
                    Next::Nothing
                }
            }),
        )
    }

    fn chain(&mut self, key: Key, requests: u32, closes: bool) {
        match self.plain.chain(key.bits(), requests, closes) {
            Ok(_) => submit_chain(&mut self.slots, key, requests, closes),
            Err(number) => {
                let refused = self.slots.chain(key, |_| panic!("an open is submitted")).map(drop);
                assert_eq!(refused.map_err(Refusal::number), Err(number));
                let refused = self.slots.count_chain(key, requests, closes);
                assert_eq!(refused.map_err(Refusal::number), Err(number));
            }
        }
    }

    fn call(&mut self, key: Key, what: usize) {
        let (bits, slot) = (key.bits(), key.slot());
        let (few, good) = (self.below(3) as u32, self.below(3) > 0);
        let result = if good { few as i32 } else { -125 };
        let to = |close: bool| if close { Next::Close(slot) } else { Next::Nothing };
        let at = |close, answer: Result<u32, Refusal>| {
            number_of(key, answer.inspect(|it| assert_eq!(*it, slot)).map(|_| to(close)))
        };
        let (wanted, found) = match what {
            0 => {
                let wanted = self.plain.opened(bits, good);
                let opened = self.slots.opened(key, result);
                (wanted, self.after(key, opened))
            }
            1 | 2 => (self.plain.start(bits), at(false, self.slots.start(key))),
            3 | 4 => (self.plain.finish(bits), number_of(key, self.slots.finish(key))),
            5 => (self.plain.hold(bits), number_of(key, self.slots.hold(key).map(|_| to(false)))),
            6 => (self.plain.release(bits), number_of(key, self.slots.release(key))),
            7 => (self.plain.end(bits), number_of(key, self.slots.end(key))),
            8 => {
                let value = self.slots.closed(key).inspect(|value| assert_eq!(*value, key));
                (self.plain.closed(bits), number_of(key, value.map(|_| to(false))))
            }
            9 => (self.plain.close_failed(bits), at(true, self.slots.close_failed(key))),
            10 => return self.chain(key, few, good),
            _ => {
                let wanted = self.plain.chained(bits, what as u32 % 3, good);
                let seen = self.slots.chained(key, MEMBERS[what % 3], result);
                (wanted, self.after(key, seen))
            }
        };
        assert_eq!(found, wanted, "call {what} of {key}");
    }

    fn reserve(&mut self) {
        let (wanted, count) = (self.plain.reserve(), self.slots.slots());
        let found = self.slots.reserve_with(|key| key);
        assert_eq!(found.map(Key::bits).map_err(ReserveError::number), wanted);
        if let Err(ReserveError::Full { slots }) = found {
            assert_eq!(slots, count);
        }
        self.all.extend(found);
    }

    fn adopt(&mut self, slot: u32) {
        let earlier = self.slots.key_at(slot);
        let wanted = self.plain.adopt(slot);
        let found = self.slots.adopt_with(slot, |key| key);
        if let Ok(Adopted { key, earlier: value, .. }) = found {
            assert_eq!((value, key.slot()), (earlier, slot));
            self.all.push(key);
        }
        let number = |it: Adopted<Key>| (it.key.bits(), number_of(it.key, Ok(it.next)).unwrap());
        assert_eq!(found.map(number).map_err(AdoptError::number), wanted);
    }

    // Makes a call of a life under way, or of one of the latest that may be over.
    fn random_call(&mut self) {
        let slot = self.below(self.slots.slots() as usize) as u32;
        let back = self.below(self.all.len().min(60));
        let latest = self.all[self.all.len() - 1 - back];
        let key = self.slots.key_at(slot).filter(|_| back % 4 != 0).unwrap_or(latest);
        let what = self.below(14);
        self.call(key, what);
    }

    // Checks what can be asked.
    fn agrees(&mut self) {
        let (slots, plain) = (&mut self.slots, &mut self.plain);
        assert_eq!((slots.len(), slots.is_empty()), (plain.len, plain.len == 0));
        assert_eq!(slots.in_flight(), plain.in_flight);
        let names = [PhaseName::Opening, PhaseName::Live, PhaseName::Ending, PhaseName::Closing];
        for name in names.into_iter().chain([PhaseName::Chained]) {
            let next =
                |key: &u64| plain.key_in(name as i32, Key::from_bits(*key).0.slot() + 1).ok();
            let wanted = std::iter::successors(plain.key_in(name as i32, 0).ok(), next);
            assert!(slots.keys(name).map(Key::bits).eq(wanted), "{name:?}");
        }
        for key in self.all.iter().rev().take(20) {
            let found = slots.phase(*key).map(|phase| match phase {
                Phase::Opening => (OPENING, 0, 0),
                Phase::Live { requests, users } => (LIVE, requests, users),
                Phase::Ending { requests, users } => (ENDING, requests, users),
                Phase::Closing => (CLOSING, 0, 0),
                Phase::Chained { requests } => (CHAINED, requests, 0),
            });
            assert_eq!(found, plain.phase(key.bits()).ok(), "{key}");
            let value = found.map(|_| *key);
            assert_eq!((slots.get(*key).copied(), slots.get_mut(*key).copied()), (value, value));
            let at = slots.key_at(key.slot()).map(Key::bits);
            assert_eq!(at, plain.key_at(key.slot()).ok());
        }
    }
}

#[test]
fn random_calls_answer_as_the_plain_machine() {
    for (seed, count, range) in [(1, 1, 0..0), (2, 3, 0..0), (3, 40, 0..0), (4, 5, 2..4)] {
        let slots = Slots::with_range(count, range.clone()).unwrap();
        let plain = Plain::new(count, (range.start, range.end - range.start));
        let mut model = Model { slots, plain, all: Vec::new(), seed };
        model.reserve();
        for round in 0..20_000 {
            match model.below(24) {
                0 | 1 => model.reserve(),
                2 | 3 => {
                    let slot = model.below(count as usize + 1) as u32;
                    model.adopt(slot);
                }
                _ => model.random_call(),
            }
            if round % 16 == 0 {
                model.agrees();
            }
        }
        assert!(model.all.len() > 300, "{} lives", model.all.len());
        // after a stop each life comes to its end
        model.slots.stop();
        model.plain.stopped = true;
        model.reserve();
        while let Some(key) = model.slots.key_in(PhaseName::Live, 0) {
            model.call(key, 7);
        }
        while !model.slots.is_empty() {
            model.random_call();
            model.agrees();
        }
        assert_eq!(model.slots.in_flight(), 0);
        (0..count).for_each(|slot| model.adopt(slot));
        model.agrees();
    }
}

#[test]
fn numbers_of_slots_out_of_range() {
    let most = super::MOST_SLOTS;
    for slots in [0, most + 1, u32::MAX] {
        assert_eq!(Slots::<()>::new(slots).err(), Some(OpenError::Slots(slots)));
    }
    let mut slots = Slots::<()>::new(most).unwrap();
    let keys: Vec<Key> = (0..most).map(|_| slots.reserve().unwrap()).collect();
    assert_eq!(slots.reserve(), Err(ReserveError::Full { slots: most }));
    let mut seen = vec![false; most as usize];
    for key in keys {
        assert!(!std::mem::replace(&mut seen[key.slot() as usize], true));
        assert_eq!(Key::from_bits(key.to_bits(15)), (key, 15));
    }
    // a range that ends before it begins is empty
    let mut slots = Slots::<()>::with_range(4, std::ops::Range { start: 3, end: 1 }).unwrap();
    assert_eq!((0..5).filter(|_| slots.reserve().is_ok()).count(), 4);
}

#[test]
fn a_value_that_panics_leaves_a_free_slot() {
    let mut slots = Slots::<u8>::new(1).unwrap();
    let made = std::panic::catch_unwind(std::panic::AssertUnwindSafe(|| {
        slots.reserve_with(|_| panic!("no value"))
    }));
    assert!(made.is_err() && slots.is_empty());
    assert!(slots.reserve().is_ok());
}

#[test]
fn each_refusal_has_a_number_and_words() {
    let key = Key::from_bits(5 << 24 | 3 << 4).0;
    let refusals = [
        (Refusal::Stale { key }, -10, "the life of the key is over"),
        (Refusal::IsOpening { key }, -11, "the open is not completed"),
        (Refusal::IsLive { key }, -12, "the file is open"),
        (Refusal::IsEnding { key }, -13, "the life was ended"),
        (Refusal::IsClosing { key }, -14, "the close is not completed"),
        (Refusal::TooManyRequests { key }, -15, "too many requests are in flight"),
        (Refusal::TooManyUsers { key }, -16, "there are too many users"),
        (Refusal::IsChained { key }, -17, "the chain is not over"),
        (Refusal::OtherSlots { key }, -20, "the queue is that of another machine"),
    ];
    for (it, number, words) in refusals {
        assert_eq!((it.key(), it.number()), (key, number));
        assert_eq!((Refusal::of(number, key), it.to_string()), (it, format!("3#5: {words}")));
    }
    let full = |slots| ReserveError::Full { slots };
    assert_eq!((full(1).number(), ReserveError::Stopped.number()), (-6, -18));
    assert_eq!(full(1).to_string(), "the only slot has a life");
    assert_eq!(full(2).to_string(), "all 2 slots have lives");
    assert_eq!((key.slot(), key.number(), key.to_bits(15)), (3, 5, 5 << 24 | 3 << 4 | 15));
    assert!(std::panic::catch_unwind(|| key.to_bits(16)).is_err());
}

#[test]
fn users_in_other_threads_come_back() {
    let woken = Arc::new(AtomicU32::new(0));
    let collected = Arc::new((OnceLock::<Releases>::new(), AtomicU32::new(0)));
    let (counter, inner) = (woken.clone(), Arc::downgrade(&collected));
    // what wakes the ring's thread may look at the queue
    let mut slots = Slots::<()>::new(2).unwrap();
    let releases = slots.releases(move || {
        counter.fetch_add(1, Relaxed);
        let inner = inner.upgrade().unwrap();
        let keys = inner.0.get().map_or(0, |it| it.collect().len());
        inner.1.fetch_add(keys as u32, Relaxed);
    });
    let key = slots.reserve().unwrap();
    assert_eq!(slots.opened(key, 0), Ok(After::Nothing));
    let mut others = Slots::<()>::new(2).unwrap();
    let twin = others.reserve().unwrap();
    assert_eq!((twin, others.opened(twin, 0)), (key, Ok(After::Nothing)));
    let other = Refusal::OtherSlots { key };
    assert_eq!(others.hold_by(key, &releases).map(|it| it.key()), Err(other));
    let mut users: Vec<_> = (0..40).map(|_| slots.hold_by(key, &releases).unwrap()).collect();
    assert_eq!((slots.end(key), users[0].key()), (Ok(Next::Nothing), key));
    let no = Refusal::IsEnding { key };
    assert_eq!(slots.hold_by(key, &releases).map(|it| it.key()), Err(no));
    assert!(slots.collect(&releases).unwrap().is_empty(), "a user that is refused");
    let last = users.pop();
    std::thread::scope(|scope| {
        for user in users {
            scope.spawn(move || drop(user));
        }
    });
    assert_eq!(others.collect(&releases), Err(OtherSlots));
    let keys = slots.collect(&releases).unwrap();
    assert_eq!((keys.len(), woken.load(Relaxed)), (39, 1));
    assert!(keys.into_iter().all(|it| slots.release(it) == Ok(Next::Nothing)));
    assert!(slots.collect(&releases).unwrap().is_empty() && slots.phase(key).is_some());
    collected.0.set(releases).ok().unwrap();
    drop(last);
    assert_eq!((woken.load(Relaxed), collected.1.load(Relaxed)), (2, 1));
    assert_eq!(slots.release(key), Ok(Next::Close(key.slot())));
    assert_eq!(slots.phase(key), Some(Phase::Closing));
}
