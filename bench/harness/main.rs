//! Compares the speed of the library with that of the same calls in plain Rust: on the same machine, on the
//! same inputs, in one run. It prints how many times as long the library takes, and no times.

mod agreement;
mod families;
mod library;
mod nets;
mod numbers;
mod questions;
mod report;
mod shapes;
mod timing;

use std::process::ExitCode;

fn main() -> ExitCode {
    // an argument asks for the families with this in their names alone
    let wanted = std::env::args().nth(1).unwrap_or_default();
    let mut families = families::all();
    families.retain(|family| family.name.contains(&wanted));
    if let Err(difference) = agreement::check(&families) {
        eprintln!("bench: {difference}");
        return ExitCode::from(1);
    }
    report::print_head();
    for family in &families {
        report::print_family(&timing::measure(family));
    }
    ExitCode::SUCCESS
}
