//! Whether both sides answer the same, to the byte, before anything is timed.

use crate::families::{Call, Family};
use crate::library;
use crate::nets::{Net, Step};
use crate::numbers::Numbers;
use crate::questions::Question;
use plain::Refusal;

/// How many small sheets both sides judge besides the families' own inputs.
const SMALL_SHEETS: u64 = 20_000;

/// The longest line, and some memory behind it.
pub const TEXT_ROOM: usize = 16_400;

pub const ORDER_ROOM: usize = 65_600;

/// Checks every input; says which is answered otherwise.
pub fn check(families: &[Family]) -> Result<(), String> {
    families.iter().try_for_each(check_family)?;
    (0..SMALL_SHEETS).try_for_each(|seed| {
        let sheet = small_sheet(&mut Numbers::from_seed(seed));
        same_line(&sheet).map_err(|what| format!("small sheet {seed}: {what}"))?;
        Ok(())
    })
}

fn check_family(family: &Family) -> Result<(), String> {
    family.questions.iter().try_for_each(|(total, question)| {
        let asked: usize = question.tally.iter().map(|&count| usize::from(count)).sum();
        let said = match family.call {
            Call::Judge => same_line(&question.sheet()),
            Call::Resume => same_order(question),
        };
        let named = |what: String| format!("{} of {total} steps: {what}", family.name);
        if said.map_err(named)? != family.refusal || asked != *total {
            return Err(named("the input is not what it should be".to_string()));
        }
        Ok(())
    })
}

/// Judges a sheet by both; answers the number of the refusal that the line has, 0 for none.
fn same_line(sheet: &[u8]) -> Result<u8, String> {
    let mut ours = vec![0xEE; TEXT_ROOM];
    let mut theirs = ours.clone();
    let length = same(
        library::judge(sheet, &mut ours),
        plain::judge(sheet, &mut theirs),
    )?;
    if ours != theirs {
        return Err("the lines differ".to_string());
    }
    let length = length.map_err(|refused| format!("{refused:?}"))?;
    let line = String::from_utf8_lossy(&ours[..length]).to_string();
    let number = line
        .strip_prefix("no ")
        .and_then(|rest| rest.split(' ').next());
    Ok(number.map_or(0, |number| number.parse().unwrap_or(255)))
}

/// Resumes a tally by both.
fn same_order(question: &Question) -> Result<u8, String> {
    let mut ours = vec![0xEEEE; ORDER_ROOM];
    let mut theirs = ours.clone();
    let file = question.net.file();
    let board = question.board();
    let said = same(
        library::resume(&file, question.asked(&board), &mut ours),
        plain::resume(&file, question.asked(&board), &mut theirs),
    )?;
    if ours != theirs {
        return Err("the orders differ".to_string());
    }
    Ok(said.map_or_else(|refused| refused.number, |_| 0))
}

type Said = Result<usize, Refusal>;

fn same(ours: Said, theirs: Said) -> Result<Said, String> {
    if ours != theirs {
        return Err(format!("the library says {ours:?}, plain Rust {theirs:?}"));
    }
    Ok(ours)
}

/// A sheet of a small net with any start, tally and target; of some a byte is altered.
fn small_sheet(numbers: &mut Numbers) -> Vec<u8> {
    let places = 1 + numbers.below(5);
    let step = |numbers: &mut Numbers| {
        let yields: Vec<_> = (0..1 + numbers.below(3))
            .map(|_| (numbers.below(places), 1 + numbers.below(2) as u32))
            .collect();
        Step::new(numbers.below(places), &yields)
    };
    let steps = (0..numbers.below(6)).map(|_| step(numbers)).collect();
    let net = Net {
        places,
        steps,
        arcs: numbers.below(4),
    };
    let start = (0..places).map(|_| numbers.below(3) as u32).collect();
    let tally = net.steps.iter().map(|_| numbers.below(4) as u16).collect();
    let mut question = Question::of_tally(net, start, tally);
    question.kind = numbers.below(2) as u8;
    if numbers.below(3) == 0 {
        question.target[numbers.below(places)] += 1;
    }
    let mut sheet = question.sheet();
    if numbers.below(4) == 0 {
        let byte = numbers.below(sheet.len());
        sheet[byte] = numbers.below(256) as u8;
    }
    sheet
}
