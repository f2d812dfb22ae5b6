//! Program files.

use std::fmt;

use crate::machine::{Memory, WORDS, blank_memory};

const WORD_BYTES: usize = 4;

/// So much of a file is read: one word more than a program has, which is enough to know that it is too long.
pub const READ_AT_MOST: usize = (WORDS + 1) * WORD_BYTES;

/// Why bytes are no program.
#[derive(Clone, Copy, Debug, PartialEq, Eq)]
pub enum BadProgram {
    NotInWords,
    TooLong,
}

impl fmt::Display for BadProgram {
    fn fmt(&self, f: &mut fmt::Formatter<'_>) -> fmt::Result {
        match self {
            BadProgram::NotInWords => write!(f, "not in whole words of {WORD_BYTES} bytes"),
            BadProgram::TooLong => write!(f, "longer than {WORDS} words"),
        }
    }
}

/// The memory with the words of a program at its front.
pub fn load(bytes: &[u8]) -> Result<Box<Memory>, BadProgram> {
    if bytes.len() > WORDS * WORD_BYTES {
        return Err(BadProgram::TooLong);
    }
    let (words, rest) = bytes.as_chunks::<WORD_BYTES>();
    if !rest.is_empty() {
        return Err(BadProgram::NotInWords);
    }
    let mut memory = blank_memory();
    for (to, word) in memory.iter_mut().zip(words) {
        *to = u32::from_be_bytes(*word);
    }
    Ok(memory)
}

#[cfg(test)]
mod tests {
    use super::*;

    #[test]
    fn words_are_high_byte_first_and_the_rest_is_zero() {
        let memory = load(&[1, 2, 3, 4, 0, 0, 0, 5]).unwrap();
        assert_eq!(memory[..2], [0x01020304, 5]);
        assert!(memory[2..].iter().all(|&word| word == 0));
        assert_eq!(load(&[]).unwrap(), blank_memory());
        assert_eq!(load(&[255; 262_144]).unwrap()[65535], u32::MAX);
    }

    #[test]
    fn bad_programs() {
        for length in [1, 2, 3, 5, 262_143] {
            assert_eq!(load(&vec![0; length]), Err(BadProgram::NotInWords));
        }
        for length in [262_145, 262_148] {
            assert_eq!(load(&vec![0; length]), Err(BadProgram::TooLong));
        }
    }
}
