//! The table: ratios of times, and how they grow.

use crate::timing::{Measured, Round};

pub fn print_head() {
    println!(
        "time of the library / time of plain Rust, and how the time grows as the tally doubles"
    );
    println!(
        "{:<16} {:>7} {:>15}   {:>15}   {:>15}",
        "family", "median", "lowest..highest", "library grows", "plain grows"
    );
}

/// Prints the ratios at the largest total, and the growth of each side from each total to the next.
pub fn print_family(measured: &Measured<'_>) {
    let last = measured.family.questions.len() - 1;
    let ratios = spread(measured, |round| round.ours[last] / round.plain[last]);
    let growth = |side: fn(&Round) -> &[f64]| {
        let factors: Vec<String> = (0..last)
            .map(|i| spread(measured, |round| side(round)[i + 1] / side(round)[i]).median)
            .map(|factor| format!("x{factor:.2}"))
            .collect();
        factors.join(" ")
    };
    println!(
        "{:<16} {:>7.2} {:>15}   {:>15}   {:>15}",
        measured.family.name,
        ratios.median,
        format!("{:.2}..{:.2}", ratios.lowest, ratios.highest),
        growth(|round| &round.ours),
        growth(|round| &round.plain),
    );
}

struct Spread {
    median: f64,
    lowest: f64,
    highest: f64,
}

fn spread(measured: &Measured<'_>, number: impl Fn(&Round) -> f64) -> Spread {
    let mut numbers: Vec<f64> = measured.rounds.iter().map(number).collect();
    numbers.sort_by(f64::total_cmp);
    Spread {
        median: numbers[numbers.len() / 2],
        lowest: numbers[0],
        highest: numbers[numbers.len() - 1],
    }
}
