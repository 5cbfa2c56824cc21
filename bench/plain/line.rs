//! The line of a verdict.

use crate::{Refusal, STEPS, refusal};

/// A space and a step's number, and how many of the four bytes these are.
type Piece = ([u8; 4], usize);

const fn piece(step: usize) -> Piece {
    match step {
        0..10 => ([b' ', b'0' + step as u8, 0, 0], 2),
        10..100 => (
            [b' ', b'0' + (step / 10) as u8, b'0' + (step % 10) as u8, 0],
            3,
        ),
        _ => (
            [
                b' ',
                b'1',
                b'0' + (step / 10 % 10) as u8,
                b'0' + (step % 10) as u8,
            ],
            4,
        ),
    }
}

const fn all_pieces() -> [Piece; STEPS] {
    let mut pieces = [piece(0); STEPS];
    let mut step = 1;
    while step < STEPS {
        pieces[step] = piece(step);
        step += 1;
    }
    pieces
}

static PIECES: [Piece; STEPS] = all_pieces();

/// The line of an accepted sheet while it is written.
pub struct Line<'a> {
    text: &'a mut [u8],
    end: usize,
}

impl<'a> Line<'a> {
    /// A line that begins; none where the memory is too short for all of the tally.
    pub fn of_tally(text: &'a mut [u8], tally: &[u16; STEPS]) -> Option<Line<'a>> {
        let steps: usize = tally
            .iter()
            .zip(&PIECES)
            .map(|(&count, piece)| usize::from(count) * piece.1)
            .sum();
        let text = text.get_mut(..2 + steps + 1)?;
        text[..2].copy_from_slice(b"ok");
        Some(Line { text, end: 2 })
    }

    /// Adds a step. Four bytes are soon written, and what is too many is written over; not so at the line's end.
    pub fn add(&mut self, step: usize) {
        let (bytes, length) = &PIECES[step];
        match self.text.get_mut(self.end..self.end + 4) {
            Some(room) => room.copy_from_slice(bytes),
            None => self.text[self.end..self.end + length].copy_from_slice(&bytes[..*length]),
        }
        self.end += length;
    }

    /// Ends the line, and answers its length.
    pub fn end(self) -> usize {
        self.text[self.end] = b'\n';
        self.end + 1
    }
}

/// Writes the line of a refused sheet; refused where the memory is too short for it.
pub fn write_refused(text: &mut [u8], refused: Refusal) -> Result<usize, Refusal> {
    let mut line = [0; 12];
    line[..2].copy_from_slice(b"no");
    let end = add_number(&mut line, 2, refused.number.into());
    let end = add_number(&mut line, end, refused.detail);
    line[end] = b'\n';
    let room = text.get_mut(..end + 1).ok_or(refusal(22, 0))?;
    room.copy_from_slice(&line[..end + 1]);
    Ok(end + 1)
}

/// A space and a number below 10,000.
fn add_number(line: &mut [u8; 12], begin: usize, number: u16) -> usize {
    let digits = match number {
        0..10 => 1,
        10..100 => 2,
        100..1000 => 3,
        _ => 4,
    };
    line[begin] = b' ';
    let mut rest = number;
    for place in (begin + 1..=begin + digits).rev() {
        line[place] = b'0' + (rest % 10) as u8;
        rest /= 10;
    }
    begin + digits + 1
}
