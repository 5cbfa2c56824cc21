//! The examiner's calls in plain Rust, for a comparison of speed: it judges a sheet, and resumes a tally on
//! a new sitting. It is written from docs/RULES.md, docs/FORMATS.md and docs/REFUSALS.md alone.

mod chained;
mod checks;
mod first_order;
mod line;
mod places;
mod question;
mod table;

use checks::{check_causes, check_counts, check_spare};
use first_order::Run;
use line::Line;
use question::Question;
use table::Table;

/// Why a call says no: the refusal's number, and what it names.
#[derive(Clone, Copy, Debug, PartialEq, Eq)]
pub struct Refusal {
    pub number: u8,
    pub detail: u16,
}

/// The most places and steps that a net has.
pub const PLACES: usize = 64;
pub const STEPS: usize = 128;

/// How many arcs a table has room for: the small one suffices for small nets and is soon cleared.
const FEW_ARCS: usize = 64;
const ALL_ARCS: usize = PLACES * STEPS;

/// How many entries the order memory of a sheet has.
const SHEET_MEMORY: usize = 4096;

const fn refusal(number: u8, detail: usize) -> Refusal {
    Refusal {
        number,
        detail: detail as u16,
    }
}

/// Judges a sheet: puts the line of its verdict at the start of `text`, and says how many bytes that is.
pub fn judge(sheet: &[u8], text: &mut [u8]) -> Result<usize, Refusal> {
    let judged = Question::of_sheet(sheet).and_then(|question| match question.net.most_arcs() {
        0..=FEW_ARCS => write_order::<FEW_ARCS>(&question, text),
        _ => write_order::<ALL_ARCS>(&question, text),
    });
    match judged {
        Ok(written) => written,
        Err(refused) => line::write_refused(text, refused),
    }
}

/// The line of the first order; or why there is none.
fn write_order<const ARCS: usize>(
    question: &Question<'_>,
    text: &mut [u8],
) -> Result<Result<usize, Refusal>, Refusal> {
    let mut table = Table::<ARCS>::new();
    let total = prepare(question, SHEET_MEMORY, &mut table)?;
    let Some(mut line) = Line::of_tally(text, &question.tally) else {
        return Ok(Err(refusal(22, 0)));
    };
    Run::new(&table, question).fire_all(total, |step| line.add(step));
    Ok(Ok(line.end()))
}

/// What a resume is asked for, besides the net.
#[derive(Clone, Copy)]
pub struct Asked<'a> {
    pub counts: &'a [u32],
    pub spare: u32,
    pub tally: &'a [u16],
    pub target: &'a [u32],
    pub kind: u8,
}

/// Does a tally on a count board with these blocks, by the net of a chained file: notes the steps of the first
/// order in `order`, and says how many they are.
pub fn resume(file: &[u8], asked: Asked<'_>, order: &mut [u16]) -> Result<usize, Refusal> {
    let question = Question::of_resume(file, asked)?;
    match question.net.most_arcs() {
        0..=FEW_ARCS => list_order::<FEW_ARCS>(&question, order),
        _ => list_order::<ALL_ARCS>(&question, order),
    }
}

fn list_order<const ARCS: usize>(
    question: &Question<'_>,
    order: &mut [u16],
) -> Result<usize, Refusal> {
    let mut table = Table::<ARCS>::new();
    let total = prepare(question, order.len(), &mut table)?;
    let mut entries = order[..total].iter_mut();
    Run::new(&table, question).fire_all(total, |step| {
        if let Some(entry) = entries.next() {
            *entry = step as u16;
        }
    });
    Ok(total)
}

/// Fills the table and makes the checks of a resume; answers how many steps the tally asks for.
fn prepare<const ARCS: usize>(
    question: &Question<'_>,
    memory: usize,
    table: &mut Table<ARCS>,
) -> Result<usize, Refusal> {
    let total = check_counts(&question.tally, memory)?;
    table.fill(question);
    check_spare(table, question)?;
    check_causes(table, question)?;
    Ok(total)
}
