//! The machine: instructions, steps, runs, and the digest of a state.

use crate::sha256::{Digest, digest};
use crate::tree::{Tree, state_string};

/// The number of words.
pub const WORDS: usize = 1 << 16;

pub type Memory = [u32; WORDS];

/// A memory of zeros.
pub fn blank_memory() -> Box<Memory> {
    vec![0; WORDS].into_boxed_slice().try_into().expect("so many words were asked for")
}

#[derive(Clone, Copy, Debug, PartialEq, Eq)]
pub enum Operation {
    Load,
    Store,
    Add,
    Subtract,
    Jump,
    JumpIfZero,
    Set,
    Halt,
}

/// What a word says as an instruction.
#[derive(Clone, Copy, Debug, PartialEq, Eq)]
pub struct Instruction {
    pub operation: Operation,
    pub place: u16,
}

impl Instruction {
    #[inline]
    pub fn decode(word: u32) -> Instruction {
        let operation = match word >> 16 {
            1 => Operation::Load,
            2 => Operation::Store,
            3 => Operation::Add,
            4 => Operation::Subtract,
            5 => Operation::Jump,
            6 => Operation::JumpIfZero,
            7 => Operation::Set,
            _ => Operation::Halt,
        };
        Instruction { operation, place: word as u16 }
    }
}

/// The place of the next instruction, and the register.
#[derive(Clone, Copy, Debug, Default, PartialEq, Eq)]
pub struct Cpu {
    pub place: u16,
    pub register: u32,
}

impl Cpu {
    /// Place and register after an instruction; `operand` is the word at its place.
    /// What it stores, if it does, is the register.
    #[inline]
    pub fn after(self, instruction: Instruction, operand: u32) -> Cpu {
        let Cpu { place, register } = self;
        let next = place.wrapping_add(1);
        match instruction.operation {
            Operation::Load => Cpu { place: next, register: operand },
            Operation::Store => Cpu { place: next, register },
            Operation::Add => Cpu { place: next, register: register.wrapping_add(operand) },
            Operation::Subtract => Cpu { place: next, register: register.wrapping_sub(operand) },
            Operation::Jump => Cpu { place: instruction.place, register },
            Operation::JumpIfZero if register == 0 => Cpu { place: instruction.place, register },
            Operation::JumpIfZero => Cpu { place: next, register },
            Operation::Set => Cpu { place: next, register: instruction.place.into() },
            Operation::Halt => self,
        }
    }
}

#[derive(Clone, PartialEq, Eq)]
pub struct State {
    pub cpu: Cpu,
    pub memory: Box<Memory>,
}

impl State {
    /// The state from which a program starts.
    pub fn start(memory: Box<Memory>) -> State {
        State { cpu: Cpu::default(), memory }
    }

    /// The instruction that is next.
    pub fn instruction(&self) -> Instruction {
        Instruction::decode(self.memory[usize::from(self.cpu.place)])
    }

    pub fn has_halted(&self) -> bool {
        self.instruction().operation == Operation::Halt
    }

    /// Goes so many steps on. A halted machine stays as it is, so the rest is not gone.
    pub fn run(&mut self, steps: u64) {
        let memory = &mut *self.memory;
        let mut cpu = self.cpu;
        for _ in 0..steps {
            let instruction = Instruction::decode(memory[usize::from(cpu.place)]);
            let at = usize::from(instruction.place);
            match instruction.operation {
                Operation::Halt => break,
                Operation::Store => memory[at] = cpu.register,
                _ => {}
            }
            cpu = cpu.after(instruction, memory[at]);
        }
        self.cpu = cpu;
    }

    pub fn digest(&self) -> Digest {
        let root = Tree::of(&self.memory).root();
        digest(&state_string(self.cpu.place.into(), self.cpu.register, &root))
    }
}

#[cfg(test)]
mod tests {
    use super::*;

    fn state(place: u16, register: u32, words: &[(usize, u32)]) -> State {
        let mut memory = blank_memory();
        for &(at, word) in words {
            memory[at] = word;
        }
        State { cpu: Cpu { place, register }, memory }
    }

    /// One step of an instruction at place 3 with 9 in the register and 5 at place 16: place, register, word at 16.
    fn step(number: u32) -> (u16, u32, u32) {
        let mut state = state(3, 9, &[(3, number << 16 | 16), (16, 5)]);
        state.run(1);
        (state.cpu.place, state.cpu.register, state.memory[16])
    }

    #[test]
    fn every_number() {
        assert_eq!(step(1), (4, 5, 5));
        assert_eq!(step(2), (4, 9, 9));
        assert_eq!(step(3), (4, 14, 5));
        assert_eq!(step(4), (4, 4, 5));
        assert_eq!(step(5), (16, 9, 5));
        assert_eq!(step(6), (4, 9, 5));
        assert_eq!(step(7), (4, 16, 5));
        for number in [0, 8, 9, 255, 256, 257, 0x0501, 0x8001, 0xffff] {
            assert_eq!(step(number), (3, 9, 5));
        }
    }

    #[test]
    fn a_jump_if_zero_is_made_at_zero() {
        let mut state = state(3, 0, &[(3, 6 << 16 | 16)]);
        state.run(1);
        assert_eq!(state.cpu, Cpu { place: 16, register: 0 });
    }

    #[test]
    fn sums_are_cut_to_32_bits() {
        let mut state = state(0, 1, &[(0, 3 << 16 | 9), (1, 4 << 16 | 8), (8, 1), (9, u32::MAX)]);
        state.run(1);
        assert_eq!(state.cpu.register, 0);
        state.run(1);
        assert_eq!(state.cpu.register, u32::MAX);
    }

    #[test]
    fn after_the_last_place_comes_the_first() {
        let mut state = state(65535, 0, &[(65535, 7 << 16 | 1)]);
        state.run(1);
        assert_eq!(state.cpu, Cpu { place: 0, register: 1 });
    }

    #[test]
    fn an_instruction_may_overwrite_itself() {
        let mut state = state(0, 42, &[(0, 2 << 16)]);
        state.run(1);
        assert_eq!((state.cpu.place, state.memory[0]), (1, 42));
    }

    #[test]
    fn a_halted_machine_stays() {
        let mut halted = state(0, 0, &[(0, 7 << 16 | 8)]);
        halted.run(1);
        let before = halted.clone();
        assert!(before.has_halted());
        halted.run(u64::MAX);
        assert!(halted == before);
    }

    #[test]
    fn known_digests() {
        let mut state = state(0, 0, &[]);
        let halted = "b232e62652a6d3dabd5de8688923479bb71c838f00907c882b8bcf845424934a";
        assert_eq!(state.digest().to_string(), halted);
        state.run(1);
        assert_eq!(state.digest().to_string(), halted);
    }
}
