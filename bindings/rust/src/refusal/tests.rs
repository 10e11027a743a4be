extern crate std;
use super::{unless_refused, Refusal};
use std::string::ToString;

#[test]
fn an_answer_is_made_of_the_values() {
    assert_eq!(unless_refused(0, [7u32, 8], |[x, y]| (x, y)), Ok((7, 8)));
    assert_eq!(unless_refused(0, [-7i32, 8], |[x, y]| (x, y)), Ok((-7, 8)));
    assert_eq!(unless_refused(0, [0u32; 0], |[]| ()), Ok(()));
}

#[test]
fn a_refusal_tells_the_first_value_or_nothing() {
    assert_eq!(unless_refused(4, [0u32, 0], |_| ()), Err(Refusal::TableLength));
    assert_eq!(unless_refused(11, [7u32, 8], |_| ()), Err(Refusal::NoRoom { count: 7 }));
    assert_eq!(unless_refused(11, [u64::MAX], |_| ()), Err(Refusal::NoRoom { count: u64::MAX }));
    assert_eq!(unless_refused(11, [7i64, -8], |_| ()), Err(Refusal::NoRoom { count: 7 }));
    assert_eq!(unless_refused(12, [0i32, 0], |_| ()), Err(Refusal::OriginLimit));
    assert_eq!(unless_refused(13, [0u64], |_| ()), Err(Refusal::TooManySquares));
    assert_eq!(unless_refused(14, [0u64], |_| ()), Err(Refusal::BadCheck { block: 0 }));
    assert_eq!(unless_refused(14, [u64::MAX], |_| ()), Err(Refusal::BadCheck { block: u64::MAX }));
    assert_eq!(unless_refused(15, [0u32; 0], |_| ()), Err(Refusal::Departure));
}

#[test]
fn a_refusal_has_its_number_and_says_its_value() {
    for (refusal, number, said) in [
        (Refusal::NoArea, 7, "no area is in force"),
        (Refusal::NoRoom { count: 7 }, 11, "there are 7 runs, more than there is room for"),
        (Refusal::OriginLimit, 12, "the origin is beyond 1,000,000 either way"),
        (Refusal::TooManySquares, 13, "the area has more than 16,777,216 squares"),
        (Refusal::BadCheck { block: 7 }, 14, "the check of block 7 is bad"),
        (Refusal::Departure, 15, "the file is not the card of this area and kind, or the table not the right one"),
    ] {
        assert_eq!((u32::from(refusal), refusal.to_string().as_str()), (number, said));
    }
}
