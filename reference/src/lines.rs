//! The lines of a case: read, entered into a case, and answered.

use std::fmt;
use std::io::{self, BufRead, ErrorKind};

use crate::hex;
use crate::message::Message;
use crate::referee::{Case, Refusal, Side, Standing};
use crate::sha256::Digest;

/// The longest line, without its line feed: a word, a space, the longest message in hexadecimal, and a CR.
pub const LONGEST: usize = 2155;

/// A line as it came in, without its line feed.
#[derive(Clone, Debug, PartialEq, Eq)]
pub enum Line {
    Whole(Vec<u8>),
    /// There was more than the longest line has; it is not held.
    TooLong,
}

impl Line {
    pub fn is_empty(&self) -> bool {
        matches!(self, Line::Whole(line) if line.is_empty())
    }
}

/// Reads lines and holds no more of one than the longest has.
pub struct Lines<R> {
    input: R,
}

impl<R: BufRead> Lines<R> {
    pub fn new(input: R) -> Lines<R> {
        Lines { input }
    }

    /// The next line; none at the end. The last may lack its line feed.
    pub fn next_line(&mut self) -> io::Result<Option<Line>> {
        let mut held = Vec::new();
        let mut seen = false;
        let mut too_long = false;
        loop {
            let available = match self.input.fill_buf() {
                Ok(bytes) => bytes,
                Err(error) if error.kind() == ErrorKind::Interrupted => continue,
                Err(error) => return Err(error),
            };
            if available.is_empty() {
                break;
            }
            seen = true;
            let end = available.iter().position(|&byte| byte == b'\n');
            let part = &available[..end.unwrap_or(available.len())];
            if too_long || part.len() > LONGEST - held.len() {
                too_long = true;
            } else {
                held.extend_from_slice(part);
            }
            let used = end.map_or(available.len(), |end| end + 1);
            self.input.consume(used);
            if end.is_some() {
                break;
            }
        }
        let line = if too_long { Line::TooLong } else { Line::Whole(held) };
        Ok(seen.then_some(line))
    }
}

/// What a line says.
#[derive(Clone, Debug, PartialEq, Eq)]
pub enum Entry {
    Sent {
        sender: Side,
        bytes: Vec<u8>,
    },
    /// None where there is no number, or one of more than 64 bits.
    Day(Option<u64>),
    Unreadable,
}

impl Entry {
    pub fn parse(line: &Line) -> Entry {
        let Line::Whole(line) = line else { return Entry::Unreadable };
        let line = without_cr(line);
        if let Some(day) = line.strip_prefix(b"day ") {
            return Entry::Day(number(day));
        }
        let (sender, text) = if let Some(text) = line.strip_prefix(b"claimer ") {
            (Side::Claimer, text)
        } else if let Some(text) = line.strip_prefix(b"doubter ") {
            (Side::Doubter, text)
        } else {
            return Entry::Unreadable;
        };
        hex::decode(text).map_or(Entry::Unreadable, |bytes| Entry::Sent { sender, bytes })
    }

    /// Enters it into a case.
    pub fn enter(&self, case: &mut Case) -> Answer {
        let outcome = match self {
            Entry::Sent { sender, bytes } => case.receive(*sender, bytes),
            Entry::Day(Some(day)) => case.begin_day(*day),
            Entry::Day(None) => Err(Refusal::NotThisDay),
            Entry::Unreadable => Err(Refusal::NoMessage),
        };
        Answer { outcome, standing: case.standing() }
    }
}

/// The digest of a line that opens a case.
pub fn opening(line: &Line) -> Option<Digest> {
    match line {
        Line::Whole(line) => Digest::from_hex(without_cr(line).strip_prefix(b"case ")?),
        Line::TooLong => None,
    }
}

/// The line by which a party sends a message.
pub fn sent(sender: Side, message: &Message) -> String {
    format!("{sender} {}", hex::encode(&message.encode()))
}

/// The referee's answer to a line.
#[derive(Clone, Copy, Debug, PartialEq, Eq)]
pub struct Answer {
    pub outcome: Result<(), Refusal>,
    pub standing: Standing,
}

impl Answer {
    /// Reads what the referee writes, and nothing else.
    pub fn parse(text: &[u8]) -> Option<Answer> {
        const STANDINGS: [Standing; 4] = [
            Standing::Turn(Side::Claimer),
            Standing::Turn(Side::Doubter),
            Standing::Won(Side::Claimer),
            Standing::Won(Side::Doubter),
        ];
        let outcomes = || [Ok(())].into_iter().chain(Refusal::ALL.map(Err));
        STANDINGS
            .into_iter()
            .flat_map(|standing| outcomes().map(move |outcome| Answer { outcome, standing }))
            .find(|answer| answer.to_string().as_bytes() == text)
    }
}

impl fmt::Display for Answer {
    fn fmt(&self, f: &mut fmt::Formatter<'_>) -> fmt::Result {
        match self.outcome {
            Ok(()) => write!(f, "taken {}", self.standing),
            Err(refusal) => write!(f, "{} {}", refusal.number(), self.standing),
        }
    }
}

/// Reads decimal digits and nothing else.
pub fn number(text: &[u8]) -> Option<u64> {
    if text.is_empty() {
        return None;
    }
    text.iter().try_fold(0u64, |sum, character| match character {
        b'0'..=b'9' => sum.checked_mul(10)?.checked_add((character - b'0').into()),
        _ => None,
    })
}

fn without_cr(line: &[u8]) -> &[u8] {
    line.strip_suffix(b"\r").unwrap_or(line)
}

#[cfg(test)]
mod tests {
    use super::*;
    use std::io::BufReader;

    fn parse(line: &str) -> Entry {
        Entry::parse(&Line::Whole(line.into()))
    }

    #[test]
    fn lines_of_every_kind() {
        let from_claimer = |bytes: &[u8]| Entry::Sent { sender: Side::Claimer, bytes: bytes.to_vec() };
        assert_eq!(parse("claimer 0aF9"), from_claimer(&[0x0a, 0xf9]));
        assert_eq!(parse("claimer 02\r"), from_claimer(&[2]));
        assert_eq!(parse("claimer "), from_claimer(&[]));
        assert_eq!(parse("doubter 02"), Entry::Sent { sender: Side::Doubter, bytes: vec![2] });
        assert_eq!(parse("day 007"), Entry::Day(Some(7)));
        assert_eq!(parse("day 18446744073709551615\r"), Entry::Day(Some(u64::MAX)));
        for day in ["", " 1", "1 ", "+1", "-1", "one", "18446744073709551616", "1\r\r"] {
            assert_eq!(parse(&format!("day {day}")), Entry::Day(None));
        }
        for line in ["", "day", "claimer", "Day 1", "claimer  02", "claimer 0", "doubter 02\r\r", "judge 02", " day 1"]
        {
            assert_eq!(parse(line), Entry::Unreadable);
        }
        assert_eq!(Entry::parse(&Line::TooLong), Entry::Unreadable);
    }

    #[test]
    fn the_line_that_opens_a_case() {
        let line = format!("case {}", "aB".repeat(32));
        let digest = Some(Digest([0xab; 32]));
        assert_eq!(opening(&Line::Whole(line.clone().into())), digest);
        assert_eq!(opening(&Line::Whole(format!("{line}\r").into())), digest);
        for wrong in [&line[..68], &format!("{line}0"), &format!("{line} "), "", "case ", "day 0"] {
            assert_eq!(opening(&Line::Whole(wrong.into())), None);
        }
        assert_eq!(opening(&Line::TooLong), None);
    }

    #[test]
    fn answers_are_read_as_they_were_written() {
        for text in ["taken turn claimer", "1 turn doubter", "2 won claimer", "3 turn doubter", "4 won doubter"] {
            assert_eq!(Answer::parse(text.as_bytes()).unwrap().to_string(), text);
        }
        for text in ["", "taken", "5 turn claimer", "taken turn claimer ", "taken turn judge", "taken turn claimer\r"] {
            assert_eq!(Answer::parse(text.as_bytes()), None);
        }
    }

    /// Reads all lines through a small buffer: their lengths, or none where they are too long.
    fn lengths(input: &[u8]) -> Vec<Option<usize>> {
        let mut lines = Lines::new(BufReader::with_capacity(7, input));
        let mut lengths = Vec::new();
        while let Some(line) = lines.next_line().unwrap() {
            lengths.push(match line {
                Line::Whole(line) => Some(line.len()),
                Line::TooLong => None,
            });
        }
        lengths
    }

    #[test]
    fn lines_are_bounded() {
        assert_eq!(lengths(b""), []);
        assert_eq!(lengths(b"\n"), [Some(0)]);
        assert_eq!(lengths(b"a\n\nbcd"), [Some(1), Some(0), Some(3)]);
        let input = [&[b'a'; LONGEST][..], b"\n", &[b'a'; LONGEST + 1], b"\nab\n", &[b'a'; 9999]].concat();
        assert_eq!(lengths(&input), [Some(LONGEST), None, Some(2), None]);
    }
}
