//! Sets of places and of steps, with a flag for each in one number.

use crate::PLACES;

/// The set with this place alone.
pub fn flag(place: usize) -> u64 {
    1 << place
}

/// The set with this step alone.
pub fn step_flag(step: usize) -> u128 {
    1 << step
}

/// The members of a set, by rising number.
pub fn members(set: u64) -> impl Iterator<Item = usize> {
    let mut rest = set;
    std::iter::from_fn(move || {
        (rest != 0).then(|| {
            let member = rest.trailing_zeros() as usize;
            rest &= rest - 1;
            member
        })
    })
}

/// The steps of a set, by rising number.
pub fn steps_of(set: u128) -> impl Iterator<Item = usize> {
    let mut rest = set;
    std::iter::from_fn(move || {
        (rest != 0).then(|| {
            let step = rest.trailing_zeros() as usize;
            rest &= rest - 1;
            step
        })
    })
}

/// The places that are reached from these, where `from[p]` are those that are reached from place p at once.
pub fn reached(begin: u64, from: &[u64; PLACES]) -> u64 {
    let mut seen = begin;
    let mut fresh = begin;
    while fresh != 0 {
        let place = fresh.trailing_zeros() as usize;
        fresh &= fresh - 1;
        let found = from[place] & !seen;
        seen |= found;
        fresh |= found;
    }
    seen
}

/// The least place where the test is true.
pub fn least(places: usize, test: impl Fn(usize) -> bool) -> Option<usize> {
    (0..places).find(|&place| test(place))
}
