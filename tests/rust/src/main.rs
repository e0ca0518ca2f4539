//! Compares the library's five calls with a reference that shares no code with it. README.md says what is tried.

mod compare;
mod damage;
mod generate;
mod headers;
mod judge;
mod library;
mod log;
mod pattern;
mod random;
mod script;
mod tally;
mod text;
mod trials;

use std::process::ExitCode;

fn main() -> ExitCode {
    let reference_is_right = trials::listing() & trials::readings_written_out(4_000);
    let tally = trials::all();
    let library_agrees = tally.report();
    if reference_is_right && library_agrees {
        ExitCode::SUCCESS
    } else {
        ExitCode::FAILURE
    }
}
