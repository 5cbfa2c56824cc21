//! The checks of a resume: its sizes, and what stands in the way of its tally.

use crate::places::{flag, least, reached};
use crate::question::Question;
use crate::table::Table;
use crate::{PLACES, Refusal, STEPS, refusal};

const DONE_LIMIT: usize = 65_535;

/// How many steps the tally asks for, if the memory has as many entries.
pub fn check_counts(tally: &[u16; STEPS], memory: usize) -> Result<usize, Refusal> {
    let total = tally.iter().map(|&count| usize::from(count)).sum();
    if total > DONE_LIMIT {
        return Err(refusal(8, 0));
    }
    if total > memory {
        return Err(refusal(9, 0));
    }
    Ok(total)
}

/// Whether spare has room for all yields at once.
pub fn check_spare<const ARCS: usize>(
    table: &Table<ARCS>,
    question: &Question<'_>,
) -> Result<(), Refusal> {
    let blocks = |step| -> u64 {
        table
            .arcs(step)
            .iter()
            .map(|arc| u64::from(arc.weight))
            .sum()
    };
    let asked: u64 = (0..table.steps)
        .map(|step| u64::from(question.tally[step]) * blocks(step))
        .sum();
    if asked > question.spare {
        return Err(refusal(10, 0));
    }
    Ok(())
}

/// What is wrong with the tally itself, if anything: short before cut off before missed, and the least such place.
pub fn check_causes<const ARCS: usize>(
    table: &Table<ARCS>,
    question: &Question<'_>,
) -> Result<(), Refusal> {
    let finals = final_numbers(table, question);
    let places = question.net.places;
    if let Some(place) = least(places, |place| finals[place] < 0) {
        return Err(refusal(11, place));
    }
    let cut_off = cut_off_places(table, question);
    if cut_off != 0 {
        return Err(refusal(12, cut_off.trailing_zeros() as usize));
    }
    let missed = |place: usize| {
        let target = i64::from(question.target[place]);
        finals[place] < target || (question.exact && finals[place] > target)
    };
    match least(places, missed) {
        Some(place) => Err(refusal(13, place)),
        None => Ok(()),
    }
}

fn final_numbers<const ARCS: usize>(table: &Table<ARCS>, question: &Question<'_>) -> [i64; PLACES] {
    let mut finals = question.counts.map(i64::from);
    for step in 0..table.steps {
        let times = i64::from(question.tally[step]);
        finals[table.input(step)] -= times;
        table.arcs(step).iter().for_each(|arc| {
            finals[usize::from(arc.place) % PLACES] += times * i64::from(arc.weight)
        });
    }
    finals
}

fn cut_off_places<const ARCS: usize>(table: &Table<ARCS>, question: &Question<'_>) -> u64 {
    let mut onward = [0; PLACES];
    let mut subnet = 0;
    let asked = (0..table.steps).filter(|&step| question.tally[step] > 0);
    for step in asked {
        onward[table.input(step)] |= table.yields(step);
        subnet |= flag(table.input(step)) | table.yields(step);
    }
    subnet & !reached(held_places(&question.counts), &onward)
}

/// The places that hold a block.
pub fn held_places(counts: &[u32; PLACES]) -> u64 {
    counts.iter().enumerate().fold(0, |held, (place, &count)| {
        held | u64::from(count > 0) << place
    })
}
