//! A question: a net, the blocks at the start, the tally and the target.

use crate::chained::{Head, Net};
use crate::{Asked, PLACES, Refusal, STEPS, refusal};

/// The most blocks that a board has room for, those that lie on it included.
const BOARD_LIMIT: u64 = 2_147_483_647;

/// The spare of the board that a sheet is judged on.
const SHEET_SPARE: u32 = 1_000_000;

/// A question whose form was checked.
pub struct Question<'a> {
    pub net: Net<'a>,
    pub counts: [u32; PLACES],
    pub spare: u64,
    pub tally: [u16; STEPS],
    pub target: [u32; PLACES],
    pub exact: bool,
}

impl<'a> Question<'a> {
    /// The question of a sheet.
    pub fn of_sheet(sheet: &'a [u8]) -> Result<Question<'a>, Refusal> {
        let head = Head::read(sheet)?;
        let starts = head.net_length();
        let tallies = starts + 4 * head.places;
        let kind = tallies + 2 * head.steps;
        if sheet.len() != kind + 1 + 4 * head.places {
            return Err(refusal(1, 0));
        }
        let net = Net::read(head, sheet)?;
        let exact = is_exact(sheet[kind])?;
        let counts = read_fours(&sheet[starts..tallies]);
        check_board(&counts, SHEET_SPARE)?;
        Ok(Question {
            net,
            counts,
            spare: SHEET_SPARE.into(),
            tally: read_twos(&sheet[tallies..kind]),
            target: read_fours(&sheet[kind + 1..]),
            exact,
        })
    }

    /// The question of a resume on a new sitting.
    pub fn of_resume(file: &'a [u8], asked: Asked<'_>) -> Result<Question<'a>, Refusal> {
        let head = Head::read(file)?;
        if file.len() != head.net_length() {
            return Err(refusal(1, 0));
        }
        let net = Net::read(head, file)?;
        let counts = asked.counts.try_into().map_err(|_| refusal(19, 0))?;
        check_board(&counts, asked.spare)?;
        if asked.tally.len() != head.steps || asked.target.len() != head.places {
            return Err(refusal(7, 0));
        }
        Ok(Question {
            net,
            counts,
            spare: asked.spare.into(),
            tally: padded(asked.tally),
            target: padded(asked.target),
            exact: is_exact(asked.kind)?,
        })
    }
}

fn is_exact(kind: u8) -> Result<bool, Refusal> {
    match kind {
        0 => Ok(true),
        1 => Ok(false),
        _ => Err(refusal(7, 0)),
    }
}

fn check_board(counts: &[u32; PLACES], spare: u32) -> Result<(), Refusal> {
    let blocks: u64 = counts.iter().map(|&count| u64::from(count)).sum();
    if blocks + u64::from(spare) > BOARD_LIMIT {
        return Err(refusal(19, 0));
    }
    Ok(())
}

fn padded<T: Copy + Default, const N: usize>(row: &[T]) -> [T; N] {
    let mut padded = [T::default(); N];
    padded[..row.len()].copy_from_slice(row);
    padded
}

fn read_fours(bytes: &[u8]) -> [u32; PLACES] {
    let mut row = [0; PLACES];
    for (number, four) in row.iter_mut().zip(bytes.as_chunks().0) {
        *number = u32::from_be_bytes(*four);
    }
    row
}

fn read_twos(bytes: &[u8]) -> [u16; STEPS] {
    let mut row = [0; STEPS];
    for (number, two) in row.iter_mut().zip(bytes.as_chunks().0) {
        *number = u16::from_be_bytes(*two);
    }
    row
}
