//! The nets of the families, at the largest size: 64 places, 128 steps and 1,023 arcs.

use crate::nets::{Net, Step, Yield};
use crate::numbers::Numbers;

pub const PLACES: usize = 64;
const STEPS: usize = 128;
const ARCS: usize = 1023;

fn largest(steps: Vec<Step>) -> Net {
    Net {
        places: PLACES,
        steps,
        arcs: ARCS,
    }
}

/// A net of so many steps, where a rule says what each is.
fn by_rule(rule: impl FnMut(usize) -> Step) -> Net {
    largest((0..STEPS).map(rule).collect())
}

/// Step 0 leads from place 0 away to 2; steps 1 and 2 are a detour over place 1.
pub fn tiny() -> Net {
    let steps = vec![
        Step::new(0, &[(2, 1)]),
        Step::new(0, &[(1, 1)]),
        Step::new(1, &[(0, 1)]),
    ];
    Net {
        places: 3,
        steps,
        arcs: 3,
    }
}

/// Rings of so many places: two steps from each place to the next one of its ring.
pub fn rings(length: usize) -> Net {
    by_rule(|t| {
        let place = t % PLACES;
        let begin = place - place % length;
        Step::new(place, &[(begin + (place + 1) % length, 1)])
    })
}

/// A tree: two steps from each place to the two below it; from the leaves to the last place, and from there to
/// the root.
pub fn tree() -> Net {
    by_rule(|t| match t % PLACES {
        place @ 0..31 => Step::new(place, &[(2 * place + 1, 1), (2 * place + 2, 1)]),
        place @ 31..63 => Step::new(place, &[(63, 1)]),
        place => Step::new(place, &[(0, 1)]),
    })
}

/// Two steps from each place, each with eight yields and the last with seven, so with all arcs.
pub fn dense(numbers: &mut Numbers) -> Net {
    by_rule(|t| {
        let yields: Vec<Yield> = (0..if t < STEPS - 1 { 8 } else { 7 })
            .map(|i| (8 * i + numbers.below(8), 1 + numbers.below(3) as u32))
            .collect();
        Step::new(t % PLACES, &yields)
    })
}

/// Any inputs, and any yields at one to seven places.
pub fn random(numbers: &mut Numbers) -> Net {
    by_rule(|t| {
        let yields: Vec<Yield> = (0..1 + numbers.below(7))
            .map(|_| (numbers.below(PLACES), 1 + numbers.below(2) as u32))
            .collect();
        let input = if t == 0 {
            yields[0].0
        } else {
            numbers.below(PLACES)
        };
        Step::new(input, &yields)
    })
}

/// How many places of `traps` hold a block that must stay.
pub const TRAPS: usize = 25;

/// Traps: from each place three steps away for ever, with the least numbers, a step that goes back to it at
/// once, and one that leaves three blocks there.
pub fn traps() -> Net {
    by_rule(|t| match t {
        0..75 => Step::new(t / 3, &[(63, 1)]),
        75..100 => Step::new(t - 75, &[(t - 75, 1)]),
        100..125 => Step::new(t - 100, &[(t - 100, 3)]),
        _ => Step::new(63, &[(62, 1)]),
    })
}

/// How many rings of three places `ring_traps` has.
pub const RING_TRAPS: usize = 21;

/// Rings of three places: from each place a step away for ever, with the least numbers, and one to the next.
pub fn ring_traps() -> Net {
    by_rule(|t| match t {
        0..63 => Step::new(t, &[(63, 1)]),
        63..126 => {
            let place = t - 63;
            Step::new(place, &[(place - place % 3 + (place + 1) % 3, 1)])
        }
        _ => Step::new(63, &[(63, 1)]),
    })
}
