//! The first order of a tally that can be done.

use crate::checks::held_places;
use crate::places::{flag, members, reached, step_flag, steps_of};
use crate::question::Question;
use crate::table::Table;
use crate::{PLACES, STEPS};

/// A run of a tally: what lies where, and what is still to be done.
pub struct Run<'a, const ARCS: usize> {
    table: &'a Table<ARCS>,
    counts: [u32; PLACES],
    held: u64,
    /// How often each step is still to be done.
    left: [u16; STEPS],
    /// How many blocks are still to be taken at each place.
    takes: [u32; PLACES],
    /// For each place the steps that are still to take there.
    takers: [u128; PLACES],
    /// The steps that are still to be done and whose input holds a block.
    ready: u128,
    /// For each place the inputs of the steps that are still to yield there.
    before: [u64; PLACES],
    /// For each place in `known` all places from which it is reached.
    above: [u64; PLACES],
    known: u64,
}

impl<'a, const ARCS: usize> Run<'a, ARCS> {
    pub fn new(table: &'a Table<ARCS>, question: &Question<'_>) -> Run<'a, ARCS> {
        let mut run = Run {
            table,
            counts: question.counts,
            held: held_places(&question.counts),
            left: question.tally,
            takes: [0; PLACES],
            takers: [0; PLACES],
            ready: 0,
            before: [0; PLACES],
            above: [0; PLACES],
            known: 0,
        };
        let asked = (0..table.steps).filter(|&step| question.tally[step] > 0);
        asked.for_each(|step| run.ask(step));
        run
    }

    /// Takes a step in that is to be done.
    fn ask(&mut self, step: usize) {
        let input = self.table.input(step);
        self.takes[input] += u32::from(self.left[step]);
        self.takers[input] |= step_flag(step);
        if self.held & flag(input) != 0 {
            self.ready |= step_flag(step);
        }
        for place in members(self.table.yields(step)) {
            self.before[place] |= flag(input);
        }
    }

    /// Fires the first order, and hands out each of its steps.
    pub fn fire_all(&mut self, total: usize, mut put: impl FnMut(usize)) {
        for _ in 0..total {
            // There is one, as no place is short and none cut off.
            let Some(step) = steps_of(self.ready).find(|&step| self.is_safe(step)) else {
                return;
            };
            self.fire(step);
            put(step);
        }
    }

    /// Whether no place is cut off after the step. Only its input can be, and only where it loses its last
    /// block while another step is still to take there.
    fn is_safe(&mut self, step: usize) -> bool {
        let input = self.table.input(step);
        let yields = self.table.yields(step);
        if self.counts[input] > 1 || yields & flag(input) != 0 || self.takes[input] == 1 {
            return true;
        }
        let held = (self.held & !flag(input)) | yields;
        held & self.above(input) != 0
    }

    /// The places from which a place is reached. They stay the same until a step is done for the last time.
    fn above(&mut self, place: usize) -> u64 {
        if self.known & flag(place) == 0 {
            self.above[place] = reached(self.before[place], &self.before);
            self.known |= flag(place);
        }
        self.above[place]
    }

    fn fire(&mut self, step: usize) {
        let table = self.table;
        let input = table.input(step);
        self.counts[input] -= 1;
        self.takes[input] -= 1;
        for arc in table.arcs(step) {
            self.counts[usize::from(arc.place) % PLACES] += u32::from(arc.weight);
        }
        if self.counts[input] == 0 {
            self.held &= !flag(input);
            self.ready &= !self.takers[input];
        }
        self.hold(table.yields(step));
        self.left[step] -= 1;
        if self.left[step] == 0 {
            self.finish(step);
        }
    }

    /// These places hold a block.
    fn hold(&mut self, places: u64) {
        let fresh = places & !self.held;
        self.held |= places;
        for place in members(fresh) {
            self.ready |= self.takers[place];
        }
    }

    /// The step was done for the last time.
    fn finish(&mut self, step: usize) {
        let input = self.table.input(step);
        self.takers[input] &= !step_flag(step);
        self.ready &= !step_flag(step);
        let still =
            steps_of(self.takers[input]).fold(0, |places, other| places | self.table.yields(other));
        let lost = self.table.yields(step) & !still;
        for place in members(lost) {
            self.before[place] &= !flag(input);
        }
        if lost != 0 {
            self.known = 0;
        }
    }
}
