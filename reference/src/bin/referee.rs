//! Hears a case, line by line.

#![forbid(unsafe_code)]

use std::env;
use std::io;
use std::process::ExitCode;

use reference::cli::{self, Failure};
use reference::lines::{self, Answer, Entry, Lines};
use reference::referee::Case;

const NAME: &str = "referee";
const USAGE: &str = "referee (lines on standard input, the first: case DIGEST)";

fn main() -> ExitCode {
    cli::finish(NAME, USAGE, referee())
}

fn referee() -> Result<(), Failure> {
    if env::args_os().len() > 1 {
        return Err(Failure::Call("no arguments are wanted".into()));
    }
    let mut input = Lines::new(io::stdin().lock());
    let start = input.next_line().map_err(Failure::input)?.and_then(|line| lines::opening(&line));
    let start = start.ok_or_else(|| Failure::Call("the first line opens no case".into()))?;
    let mut case = Case::open(start);
    print(Answer { outcome: Ok(()), standing: case.standing() })?;
    while let Some(line) = input.next_line().map_err(Failure::input)? {
        print(Entry::parse(&line).enter(&mut case))?;
    }
    Ok(())
}

fn print(answer: Answer) -> Result<(), Failure> {
    cli::print_line(&answer.to_string()).map_err(Failure::output)
}
