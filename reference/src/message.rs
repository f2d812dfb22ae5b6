//! Messages, and their bytes.

use crate::sha256::Digest;
use crate::witness::Witness;

/// The halvings of a claim: it is about 2^n steps, with n from 1 to 32.
#[derive(Clone, Copy, Debug, PartialEq, Eq)]
pub struct Halvings(u8);

impl Halvings {
    pub fn new(n: u64) -> Option<Halvings> {
        u8::try_from(n).ok().filter(|n| (1..=32).contains(n)).map(Halvings)
    }

    /// The number of steps.
    pub fn steps(self) -> u64 {
        1 << self.0
    }
}

#[derive(Clone, Debug, PartialEq, Eq)]
pub enum Message {
    Claim { halvings: Halvings, digest: Digest },
    Doubt,
    Middle(Digest),
    Right,
    Wrong,
    Step(Box<Witness>),
}

impl Message {
    pub fn encode(&self) -> Vec<u8> {
        match self {
            Message::Claim { halvings, digest } => [&[1, halvings.0], &digest.0[..]].concat(),
            Message::Doubt => vec![2],
            Message::Middle(digest) => [&[3], &digest.0[..]].concat(),
            Message::Right => vec![4],
            Message::Wrong => vec![5],
            Message::Step(witness) => [&[6], &witness.to_bytes()[..]].concat(),
        }
    }

    /// The message that the bytes are, if they are one.
    pub fn decode(bytes: &[u8]) -> Option<Message> {
        let (kind, rest) = bytes.split_first()?;
        match (kind, rest) {
            (1, [n, digest @ ..]) => {
                let halvings = Halvings::new((*n).into())?;
                Some(Message::Claim { halvings, digest: Digest(digest.try_into().ok()?) })
            }
            (2, []) => Some(Message::Doubt),
            (3, digest) => Some(Message::Middle(Digest(digest.try_into().ok()?))),
            (4, []) => Some(Message::Right),
            (5, []) => Some(Message::Wrong),
            (6, step) => Some(Message::Step(Box::new(Witness::from_bytes(step.try_into().ok()?)))),
            _ => None,
        }
    }
}

#[cfg(test)]
mod tests {
    use super::*;
    use crate::machine::{State, blank_memory};

    fn examples() -> Vec<Message> {
        let state = State::start(blank_memory());
        let digest = state.digest();
        let claim = |n| Message::Claim { halvings: Halvings::new(n).unwrap(), digest };
        vec![
            claim(1),
            claim(32),
            Message::Doubt,
            Message::Middle(digest),
            Message::Right,
            Message::Wrong,
            Message::Step(Box::new(Witness::of(&state))),
        ]
    }

    #[test]
    fn messages_are_read_as_they_were_written() {
        for message in examples() {
            assert_eq!(Message::decode(&message.encode()), Some(message));
        }
    }

    #[test]
    fn a_byte_more_or_less_is_no_message() {
        for message in examples() {
            let mut bytes = message.encode();
            bytes.push(0);
            assert_eq!(Message::decode(&bytes), None);
            bytes.truncate(bytes.len() - 2);
            assert_eq!(Message::decode(&bytes), None);
        }
    }

    #[test]
    fn what_is_no_message() {
        assert_eq!(Message::decode(&[]), None);
        for kind in [0, 7, 8, 255] {
            assert_eq!(Message::decode(&[kind]), None);
        }
        for n in [0, 33, 255] {
            let mut bytes = examples()[0].encode();
            bytes[1] = n;
            assert_eq!(Message::decode(&bytes), None);
        }
    }
}
