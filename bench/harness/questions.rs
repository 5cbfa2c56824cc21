//! Questions: a net, a start, a tally and a target, and the sheets that ask them.

use crate::nets::Net;
use crate::numbers::Numbers;
use plain::{Asked, PLACES};

/// The most blocks that a board has room for, those that lie on it included.
const BOARD_LIMIT: u32 = 2_147_483_647;

#[derive(Clone)]
pub struct Question {
    pub net: Net,
    pub start: Vec<u32>,
    pub tally: Vec<u16>,
    pub target: Vec<u32>,
    pub kind: u8,
}

impl Question {
    /// A question whose exact target is what the tally leaves.
    pub fn of_tally(net: Net, start: Vec<u32>, tally: Vec<u16>) -> Question {
        let target = left_by(&net, &start, &tally);
        Question {
            net,
            start,
            tally,
            target,
            kind: 0,
        }
    }

    /// A question that can be done: its tally is what a run of so many steps, each any that can be fired,
    /// counts.
    pub fn of_run(net: Net, start: Vec<u32>, total: usize, numbers: &mut Numbers) -> Question {
        let mut tally = vec![0; net.steps.len()];
        let mut counts = start.clone();
        for _ in 0..total {
            let step = any_step(&net, &counts, numbers);
            fire(&net, &mut counts, step);
            tally[step] += 1;
        }
        Question::of_tally(net, start, tally)
    }

    pub fn sheet(&self) -> Vec<u8> {
        let mut sheet = self.net.file();
        sheet.extend(self.start.iter().flat_map(|n| n.to_be_bytes()));
        sheet.extend(self.tally.iter().flat_map(|n| n.to_be_bytes()));
        sheet.push(self.kind);
        sheet.extend(self.target.iter().flat_map(|n| n.to_be_bytes()));
        sheet
    }

    /// The start as a row of a board, with all the spare that a board can have.
    pub fn board(&self) -> ([u32; PLACES], u32) {
        let mut row = [0; PLACES];
        row[..self.start.len()].copy_from_slice(&self.start);
        (row, BOARD_LIMIT - self.start.iter().sum::<u32>())
    }

    pub fn asked<'a>(&'a self, board: &'a ([u32; PLACES], u32)) -> Asked<'a> {
        Asked {
            counts: &board.0,
            spare: board.1,
            tally: &self.tally,
            target: &self.target,
            kind: self.kind,
        }
    }
}

/// A step that can be fired; the nets here have one at any time.
fn any_step(net: &Net, counts: &[u32], numbers: &mut Numbers) -> usize {
    let ready: Vec<usize> = (0..net.steps.len())
        .filter(|&step| counts[net.steps[step].input] > 0)
        .collect();
    ready[numbers.below(ready.len())]
}

fn fire(net: &Net, counts: &mut [u32], step: usize) {
    counts[net.steps[step].input] -= 1;
    for &(place, weight) in &net.steps[step].yields {
        counts[place] += weight;
    }
}

/// The final numbers of a tally, 0 for those below zero.
fn left_by(net: &Net, start: &[u32], tally: &[u16]) -> Vec<u32> {
    let mut left: Vec<i64> = start.iter().map(|&count| count.into()).collect();
    for (step, &times) in net.steps.iter().zip(tally) {
        left[step.input] -= i64::from(times);
        step.yields
            .iter()
            .for_each(|&(place, weight)| left[place] += i64::from(times) * i64::from(weight));
    }
    left.iter().map(|&number| number.max(0) as u32).collect()
}
