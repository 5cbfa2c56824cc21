//! The families of inputs: each has a question for each of three totals.

use crate::numbers::Numbers;
use crate::questions::Question;
use crate::shapes::{self, PLACES, RING_TRAPS, TRAPS};

/// Which call answers the questions of a family.
#[derive(Clone, Copy, PartialEq)]
pub enum Call {
    Judge,
    Resume,
}

pub struct Family {
    pub name: &'static str,
    pub call: Call,
    /// The question for each total, by rising totals; each but a tally's last few is twice the one before.
    pub questions: Vec<(usize, Question)>,
    /// The refusal that is wanted; 0 for none.
    pub refusal: u8,
}

const TINY_TOTALS: [usize; 3] = [3, 6, 12];
const SHEET_TOTALS: [usize; 3] = [1024, 2048, 4096];
const RESUME_TOTALS: [usize; 3] = [16_384, 32_768, 65_535];

type Maker = fn(usize) -> Question;

const SHEETS: [(&str, Maker, u8); 10] = [
    ("ring", ring, 0),
    ("tree", tree, 0),
    ("dense", dense, 0),
    ("random", random, 0),
    ("refused with 11", short, 11),
    ("refused with 12", cut_off, 12),
    ("refused with 13", missed, 13),
    ("traps", traps, 0),
    ("ring traps", ring_traps, 0),
    ("one step", one_step, 0),
];

const RESUMES: [(&str, Maker, u8); 4] = [
    ("resume: ring", ring, 0),
    ("resume: tree", tree, 0),
    ("resume: dense", dense, 0),
    ("resume: random", random, 0),
];

pub fn all() -> Vec<Family> {
    let made = |call, totals: [usize; 3]| {
        move |&(name, make, refusal): &(&'static str, Maker, u8)| Family {
            name,
            call,
            questions: totals.iter().map(|&total| (total, make(total))).collect(),
            refusal,
        }
    };
    let tiny: (&str, Maker, u8) = ("tiny", tiny, 0);
    let mut families = vec![made(Call::Judge, TINY_TOTALS)(&tiny)];
    families.extend(SHEETS.iter().map(made(Call::Judge, SHEET_TOTALS)));
    families.extend(RESUMES.iter().map(made(Call::Resume, RESUME_TOTALS)));
    families
}

/// A block at each of these places.
fn one_at(places: impl Iterator<Item = usize>) -> Vec<u32> {
    let mut start = vec![0; PLACES];
    places.for_each(|place| start[place] = 1);
    start
}

/// One block goes there and back, and in the end away.
fn tiny(total: usize) -> Question {
    let rounds = total as u16 / 2;
    let away = u16::from(total % 2 == 1);
    Question::of_tally(shapes::tiny(), vec![1, 0, 0], vec![away, rounds, rounds])
}

/// Sixteen blocks on one ring of all places.
fn ring(total: usize) -> Question {
    let start = one_at((0..PLACES).step_by(4));
    Question::of_run(
        shapes::rings(PLACES),
        start,
        total,
        &mut Numbers::from_seed(1),
    )
}

fn tree(total: usize) -> Question {
    Question::of_run(
        shapes::tree(),
        one_at(0..1),
        total,
        &mut Numbers::from_seed(2),
    )
}

fn dense(total: usize) -> Question {
    let mut numbers = Numbers::from_seed(3);
    let net = shapes::dense(&mut numbers);
    Question::of_run(net, one_at(0..4), total, &mut numbers)
}

fn random(total: usize) -> Question {
    let mut numbers = Numbers::from_seed(4);
    let net = shapes::random(&mut numbers);
    Question::of_run(net, vec![1; PLACES], total, &mut numbers)
}

/// A ring whose last place is to give more blocks than it gets.
fn short(total: usize) -> Question {
    let mut question = ring(total - 100);
    question.tally[PLACES - 1] += 100;
    question
}

/// Two rings, and no block on the second.
fn cut_off(total: usize) -> Question {
    let tally = vec![(total / 128) as u16; 128];
    Question::of_tally(shapes::rings(32), one_at(0..16), tally)
}

/// A block too few is wanted at the last place.
fn missed(total: usize) -> Question {
    let mut question = dense(total);
    question.target[PLACES - 1] -= 1;
    question
}

/// The step back to the first place as often as the total allows; in each place the block must stay till then.
fn traps(total: usize) -> Question {
    let mut tally = vec![1; 128];
    tally[125..].fill(0);
    tally[75] = (total - 5 * TRAPS + 1) as u16;
    Question::of_tally(shapes::traps(), one_at(0..TRAPS), tally)
}

/// A block on each ring of three places goes round, that of the first ring as often as the total allows, and
/// leaves in the end.
fn ring_traps(total: usize) -> Question {
    let mut tally = vec![0; 128];
    let begins = || (0..RING_TRAPS).map(|ring| 3 * ring);
    begins().for_each(|place| tally[place] = 1);
    tally[63..126].fill(1);
    let rounds = (total - 4 * RING_TRAPS) / 3 + 1;
    tally[63..66].fill(rounds as u16);
    tally[126] = (total - 4 * RING_TRAPS - 3 * (rounds - 1)) as u16;
    Question::of_tally(shapes::ring_traps(), one_at(begins()), tally)
}

/// One step, which goes back to its place, is all of the tally.
fn one_step(total: usize) -> Question {
    let mut tally = vec![0; 128];
    tally[75] = total as u16;
    Question::of_tally(shapes::traps(), one_at(0..1), tally)
}
