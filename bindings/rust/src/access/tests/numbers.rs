//! A seat without further numbers.
use crate::{GetError, Options};

const STALE: GetError = GetError::Stale { slot: 0 };

#[test]
fn a_seat_that_has_used_its_numbers_up_uses_none_again() {
    let table = Options::new(1).handles(2).open().unwrap();
    let handle = table.handle().unwrap();
    let core = table.values().seats.installing[0].core();
    // SAFETY: no call uses the worker meanwhile.
    unsafe { crate::access::stand_in::draw_next(core, u64::MAX - 1) };
    let last = handle.insert(7).unwrap();
    assert_eq!((*handle.get(last).unwrap(), last.to_bits()), (7, None));
    for number in 8..11 {
        let old = handle.get_at(0).unwrap().key();
        assert!(handle.replace_at(0, number).is_ok());
        let none = handle.get_at(0).unwrap().key();
        for key in [none, old, last] {
            assert_eq!(handle.get(key).unwrap_err(), STALE);
            assert_eq!(handle.remove(key), Err(STALE.into()));
        }
        assert_eq!(*handle.get_at(0).unwrap(), number);
    }
}
