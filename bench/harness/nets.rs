//! Nets as they are built for the inputs, and their chained files.

/// A yield: a place and how many blocks.
pub type Yield = (usize, u32);

/// A step: its input place, and its yields by rising place.
#[derive(Clone)]
pub struct Step {
    pub input: usize,
    pub yields: Vec<Yield>,
}

impl Step {
    pub fn new(input: usize, yields: &[Yield]) -> Step {
        let mut yields = yields.to_vec();
        yields.sort();
        yields.dedup_by_key(|one| one.0);
        Step { input, yields }
    }
}

#[derive(Clone)]
pub struct Net {
    pub places: usize,
    pub steps: Vec<Step>,
    /// How many arcs the file has at least: those above what the steps need are in no chain.
    pub arcs: usize,
}

impl Net {
    /// The net as a chained file, each step with a chain of its own.
    pub fn file(&self) -> Vec<u8> {
        let needed = self.steps.iter().map(|step| step.yields.len()).sum();
        let arcs = self.arcs.max(needed);
        let mut file = vec![self.places as u8, self.steps.len() as u8];
        file.extend((arcs as u16).to_be_bytes());
        file.extend(self.step_rows());
        file.extend(self.arc_rows());
        file.extend([0, 1, 0, 0].repeat(arcs - needed));
        file
    }

    fn step_rows(&self) -> Vec<u8> {
        let mut first = 1u16;
        let row = |step: &Step| {
            let [high, low] = first.to_be_bytes();
            first += step.yields.len() as u16;
            [step.input as u8, high, low]
        };
        self.steps.iter().flat_map(row).collect()
    }

    fn arc_rows(&self) -> Vec<u8> {
        let mut number = 0u16;
        let row = |(place, weight, is_last): (usize, u32, bool)| {
            number += 1;
            let next = if is_last { 0 } else { number + 1 };
            let [high, low] = next.to_be_bytes();
            [place as u8, weight as u8, high, low]
        };
        self.steps.iter().flat_map(chain).flat_map(row).collect()
    }
}

/// The yields of a step, each with whether it is the last.
fn chain(step: &Step) -> impl Iterator<Item = (usize, u32, bool)> {
    let last = step.yields.len() - 1;
    step.yields
        .iter()
        .enumerate()
        .map(move |(i, &(place, weight))| (place, weight, i == last))
}
