//! Prints the state of a program after so many steps.

#![forbid(unsafe_code)]

use std::env;
use std::ffi::OsString;
use std::process::ExitCode;

use reference::cli::{self, Failure, Progress};
use reference::machine::State;

const NAME: &str = "run";
const USAGE: &str = "run FILE K (K from 0 to 4294967296)";
const LONGEST_RUN: u64 = 1 << 32;
/// So many steps are gone between two looks at the clock.
const SLICE: u64 = 1 << 24;

fn main() -> ExitCode {
    let arguments: Vec<OsString> = env::args_os().skip(1).collect();
    cli::finish(NAME, USAGE, run(&arguments))
}

fn run(arguments: &[OsString]) -> Result<(), Failure> {
    let [file, steps] = arguments else {
        return Err(Failure::Call("a file and a number of steps are wanted".into()));
    };
    let steps = cli::number(steps, "K", 0, LONGEST_RUN)?;
    let mut state = State::start(cli::load(file)?);
    advance(&mut state, steps);
    let line = format!("{} {} {}", state.cpu.place, state.cpu.register, state.digest());
    cli::print_line(&line).map_err(Failure::output)
}

fn advance(state: &mut State, steps: u64) {
    let mut progress = Progress::new(NAME);
    progress.begin(steps);
    let mut gone = 0;
    while gone < steps && !state.has_halted() {
        let slice = SLICE.min(steps - gone);
        state.run(slice);
        gone += slice;
        progress.gone(gone);
    }
}
