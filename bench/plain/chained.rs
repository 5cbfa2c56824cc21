//! A chained net file.

use crate::{PLACES, Refusal, STEPS, refusal};

const MOST_ARCS: usize = 1023;
const HEAD: usize = 4;

/// The head of a file.
#[derive(Clone, Copy)]
pub struct Head {
    pub places: usize,
    pub steps: usize,
    arcs: usize,
}

impl Head {
    /// Reads a head; the length of the file is another matter.
    pub fn read(file: &[u8]) -> Result<Head, Refusal> {
        let Some(&[places, steps, high, low]) = file.first_chunk::<HEAD>() else {
            return Err(refusal(1, 0));
        };
        let head = Head {
            places: places.into(),
            steps: steps.into(),
            arcs: u16::from_be_bytes([high, low]).into(),
        };
        if head.places == 0 || head.places > PLACES {
            return Err(refusal(2, 0));
        }
        if head.steps > STEPS || head.arcs > MOST_ARCS {
            return Err(refusal(3, 0));
        }
        Ok(head)
    }

    /// How many bytes the net has.
    pub fn net_length(&self) -> usize {
        HEAD + 3 * self.steps + 4 * self.arcs
    }
}

/// A net whose file was checked.
#[derive(Clone, Copy)]
pub struct Net<'a> {
    pub places: usize,
    pub steps: &'a [[u8; 3]],
    pub arcs: &'a [[u8; 4]],
}

/// The number of an arc's next arc; 0 for none.
pub fn next_of(arc: &[u8; 4]) -> usize {
    u16::from_be_bytes([arc[2], arc[3]]).into()
}

/// The number of the arc with which the chain of a step begins; 0 for none.
pub fn first_of(step: &[u8; 3]) -> usize {
    u16::from_be_bytes([step[1], step[2]]).into()
}

impl<'a> Net<'a> {
    /// Reads a whole file, whose length is that of its head.
    pub fn read(head: Head, file: &'a [u8]) -> Result<Net<'a>, Refusal> {
        let (steps, arcs) = file[HEAD..head.net_length()].split_at(3 * head.steps);
        let net = Net {
            places: head.places,
            steps: steps.as_chunks().0,
            arcs: arcs.as_chunks().0,
        };
        net.check()?;
        Ok(net)
    }

    fn check(&self) -> Result<(), Refusal> {
        if let Some(step) = self.steps.iter().position(|step| self.step_unfit(step)) {
            return Err(refusal(4, step));
        }
        if let Some(arc) = (0..self.arcs.len()).position(|arc| self.arc_unfit(arc)) {
            return Err(refusal(5, arc + 1));
        }
        match self.steps.iter().position(|step| first_of(step) == 0) {
            Some(step) => Err(refusal(6, step)),
            None => Ok(()),
        }
    }

    fn step_unfit(&self, step: &[u8; 3]) -> bool {
        usize::from(step[0]) >= self.places || first_of(step) > self.arcs.len()
    }

    /// Whether an arc is unfit; here they are counted from 0.
    fn arc_unfit(&self, index: usize) -> bool {
        let arc = &self.arcs[index];
        let next = next_of(arc);
        let goes_on = || {
            next > index + 1
                && self
                    .arcs
                    .get(next - 1)
                    .is_some_and(|after| after[0] > arc[0])
        };
        usize::from(arc[0]) >= self.places || arc[1] == 0 || !(next == 0 || goes_on())
    }

    /// More arcs than this no table of the net has: each chain has its own there.
    pub fn most_arcs(&self) -> usize {
        self.steps.len() * self.places.min(self.arcs.len())
    }
}
