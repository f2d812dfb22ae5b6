//! Plays a party of a case, going by the record on standard input.

#![forbid(unsafe_code)]

use std::env;
use std::ffi::OsString;
use std::io::{self, BufRead};
use std::process::ExitCode;

use reference::cli::{self, Failure, Progress};
use reference::hex;
use reference::lines::{self, Lines};
use reference::message::{Halvings, Message};
use reference::party::{Party, Reply};
use reference::referee::Side;
use reference::sha256;
use reference::witness::Difference;

const NAME: &str = "party";
const USAGE: &str = "party FILE claimer N (N from 1 to 32), or party FILE doubter";

/// What the call asks for.
enum Role {
    Claimer(Halvings),
    Doubter,
}

fn main() -> ExitCode {
    let arguments: Vec<OsString> = env::args_os().skip(1).collect();
    cli::finish(NAME, USAGE, party(&arguments))
}

fn party(arguments: &[OsString]) -> Result<(), Failure> {
    let (file, role) = match arguments {
        [file, side, n] if side == "claimer" => (file, Role::Claimer(halvings(n)?)),
        [file, side] if side == "doubter" => (file, Role::Doubter),
        _ => return Err(Failure::Call("a file and a side are wanted, and of a claimer a number".into())),
    };
    let program = cli::load(file)?;
    let side = match role {
        Role::Claimer(_) => Side::Claimer,
        Role::Doubter => Side::Doubter,
    };
    let mut party = Party::new(side, program, Progress::new(NAME));
    if let Role::Claimer(halvings) = role {
        say(side, &party.claim(halvings))?;
    }
    listen(party, side, io::stdin().lock())
}

fn halvings(n: &OsString) -> Result<Halvings, Failure> {
    let n = cli::number(n, "N", 1, 32)?;
    Halvings::new(n).ok_or_else(|| Failure::Call("there is no such N".into()))
}

/// Hears the record to its end, or to the case's.
fn listen(mut party: Party<Progress>, side: Side, input: impl BufRead) -> Result<(), Failure> {
    let mut input = Lines::new(input);
    let mut pairs: u64 = 0;
    while let Some(line) = input.next_line().map_err(Failure::input)? {
        // An answer that is missing or empty is the end of the record.
        let Some(answer) = input.next_line().map_err(Failure::input)?.filter(|answer| !answer.is_empty()) else {
            return Ok(());
        };
        pairs += 1;
        let reply = party
            .hear(&line, &answer)
            .map_err(|reason| Failure::Other(format!("lines {} and {}: {reason}", 2 * pairs - 1, 2 * pairs)))?;
        match reply {
            Reply::Nothing => {}
            Reply::Say(message) => say(side, &message)?,
            Reply::OtherStart(start) => {
                cli::complain(
                    NAME,
                    &format_args!("the case is about a run from {start}, which is not this program's start"),
                );
            }
            Reply::Over(found) => return found.map_or(Ok(()), |found| show(&found)),
        }
    }
    Ok(())
}

fn say(side: Side, message: &Message) -> Result<(), Failure> {
    cli::print_line(&lines::sent(side, message)).map_err(Failure::output)
}

/// Two strings that differ in a case about another program need not collide, and then say nothing.
fn show(found: &Difference) -> Result<(), Failure> {
    if sha256::digest(&found.shown) != sha256::digest(&found.own) {
        return Ok(());
    }
    let line = format!("collision {} {}", hex::encode(&found.shown), hex::encode(&found.own));
    cli::print_line(&line).map_err(Failure::output)
}
