//! What the programs have in common: arguments, program files, progress and failures.

use std::ffi::OsStr;
use std::fmt;
use std::fs::File;
use std::io::{self, Read, Write};
use std::path::Path;
use std::process::ExitCode;
use std::time::{Duration, Instant};

use crate::lines;
use crate::machine::Memory;
use crate::program::{self, BadProgram};

/// Why a program ends with status 1.
#[derive(Debug)]
pub enum Failure {
    /// A wrong call; the usage is shown.
    Call(String),
    /// A file that is no program; `5` is printed.
    Program(String, BadProgram),
    /// Anything else.
    Other(String),
}

impl Failure {
    pub fn input(error: io::Error) -> Failure {
        Failure::Other(format!("cannot read standard input: {error}"))
    }

    pub fn output(error: io::Error) -> Failure {
        Failure::Other(format!("cannot write to standard output: {error}"))
    }
}

impl fmt::Display for Failure {
    fn fmt(&self, f: &mut fmt::Formatter<'_>) -> fmt::Result {
        match self {
            Failure::Call(reason) | Failure::Other(reason) => f.write_str(reason),
            Failure::Program(name, reason) => write!(f, "{name}: {reason}"),
        }
    }
}

/// Tells how it went, and turns that into the status.
pub fn finish(program: &str, usage: &str, result: Result<(), Failure>) -> ExitCode {
    let Err(failure) = result else { return ExitCode::SUCCESS };
    complain(program, &failure);
    match failure {
        Failure::Call(_) => complain_plainly(&format!("usage: {usage}")),
        Failure::Program(..) => {
            if let Err(error) = print_line("5") {
                complain(program, &Failure::output(error));
            }
        }
        Failure::Other(_) => {}
    }
    ExitCode::FAILURE
}

/// Prints a line at once.
pub fn print_line(line: &str) -> io::Result<()> {
    let mut out = io::stdout().lock();
    writeln!(out, "{line}")?;
    out.flush()
}

/// Says something on standard error. If even that fails, nobody is left to be told.
pub fn complain(program: &str, what: &dyn fmt::Display) {
    complain_plainly(&format!("{program}: {what}"));
}

fn complain_plainly(line: &str) {
    let _ = writeln!(io::stderr(), "{line}");
}

/// A number of the call, from the smallest to the largest that it may be.
pub fn number(text: &OsStr, what: &str, smallest: u64, largest: u64) -> Result<u64, Failure> {
    lines::number(text.as_encoded_bytes())
        .filter(|number| (smallest..=largest).contains(number))
        .ok_or_else(|| Failure::Call(format!("{what} must be a number from {smallest} to {largest}")))
}

/// The memory with which a program file starts.
pub fn load(path: &OsStr) -> Result<Box<Memory>, Failure> {
    let path = Path::new(path);
    let bytes = read(path).map_err(|error| Failure::Call(format!("{}: {error}", path.display())))?;
    program::load(&bytes).map_err(|reason| Failure::Program(path.display().to_string(), reason))
}

fn read(path: &Path) -> io::Result<Vec<u8>> {
    let mut bytes = Vec::new();
    File::open(path)?.take(program::READ_AT_MOST as u64).read_to_end(&mut bytes)?;
    Ok(bytes)
}

/// Tells once a second how far a long run is.
pub struct Progress {
    program: &'static str,
    steps: u64,
    told: Instant,
}

impl Progress {
    /// Runs of more steps are long.
    const SHORT: u64 = 1 << 28;
    const PAUSE: Duration = Duration::from_secs(1);

    pub fn new(program: &'static str) -> Progress {
        Progress { program, steps: 0, told: Instant::now() }
    }

    /// A run of so many steps begins.
    pub fn begin(&mut self, steps: u64) {
        self.steps = steps;
        self.told = Instant::now();
    }

    /// So many of its steps are gone.
    pub fn gone(&mut self, gone: u64) {
        if self.steps > Progress::SHORT && self.told.elapsed() >= Progress::PAUSE {
            complain(self.program, &format_args!("{gone} of {} steps", self.steps));
            self.told = Instant::now();
        }
    }
}

impl crate::party::Watch for Progress {
    fn begin(&mut self, steps: u64) {
        Progress::begin(self, steps);
    }

    fn gone(&mut self, steps: u64) {
        Progress::gone(self, steps);
    }
}
