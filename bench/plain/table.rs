//! The steps of a tally with their inputs and yields.

use crate::chained::{first_of, next_of};
use crate::places::flag;
use crate::question::Question;
use crate::{PLACES, STEPS};

/// A yield of a step.
#[derive(Clone, Copy)]
pub struct Arc {
    pub place: u8,
    pub weight: u8,
}

const NO_ARC: Arc = Arc {
    place: 0,
    weight: 0,
};

/// For each step that the tally asks for: its input, where it yields, and its arcs one behind the other.
pub struct Table<const ARCS: usize> {
    pub steps: usize,
    inputs: [u8; STEPS],
    yields: [u64; STEPS],
    begins: [u16; STEPS],
    ends: [u16; STEPS],
    arcs: [Arc; ARCS],
}

impl<const ARCS: usize> Table<ARCS> {
    pub fn new() -> Table<ARCS> {
        Table {
            steps: 0,
            inputs: [0; STEPS],
            yields: [0; STEPS],
            begins: [0; STEPS],
            ends: [0; STEPS],
            arcs: [NO_ARC; ARCS],
        }
    }

    /// Takes over the steps that the tally asks for; a step that it does not ask for has no yields here.
    pub fn fill(&mut self, question: &Question<'_>) {
        self.steps = question.net.steps.len();
        let mut end = 0;
        for (step, row) in question.net.steps.iter().enumerate() {
            self.inputs[step] = row[0];
            self.begins[step] = end as u16;
            if question.tally[step] > 0 {
                end = self.add_chain(step, question.net.arcs, first_of(row), end);
            }
            self.ends[step] = end as u16;
        }
    }

    fn add_chain(&mut self, step: usize, arcs: &[[u8; 4]], first: usize, begin: usize) -> usize {
        let mut end = begin;
        let mut number = first;
        while number != 0 {
            let arc = &arcs[number - 1];
            self.yields[step] |= flag(arc[0].into());
            self.arcs[end] = Arc {
                place: arc[0],
                weight: arc[1],
            };
            end += 1;
            number = next_of(arc);
        }
        end
    }

    pub fn input(&self, step: usize) -> usize {
        usize::from(self.inputs[step]) % PLACES
    }

    /// The places where a step yields.
    pub fn yields(&self, step: usize) -> u64 {
        self.yields[step]
    }

    pub fn arcs(&self, step: usize) -> &[Arc] {
        &self.arcs[self.begins[step].into()..self.ends[step].into()]
    }
}
