//! The last step of a dispute: what is shown, the verdict, and where two showings differ.

use crate::machine::{Cpu, Instruction, Operation, State};
use crate::sha256::{Digest, digest};
use crate::tree::{LEVELS, Opening, Tree, state_string};

/// What is shown of a step.
#[derive(Clone, Debug, PartialEq, Eq)]
pub struct Witness {
    pub place: u32,
    pub register: u32,
    pub memory: Digest,
    /// The opening of the place.
    pub instruction: Opening,
    /// The opening of the instruction's place.
    pub operand: Opening,
}

/// Two different strings. Where both stand for one digest, they are a collision.
#[derive(Clone, Debug, PartialEq, Eq)]
pub struct Difference {
    pub shown: Vec<u8>,
    pub own: Vec<u8>,
}

impl Witness {
    const OPENING_BYTES: usize = 4 + 32 * LEVELS;
    /// The length of what `to_bytes` writes.
    pub const BYTES: usize = 4 + 4 + 32 + 2 * Self::OPENING_BYTES;

    /// What an honest party shows of the step from a state.
    pub fn of(state: &State) -> Witness {
        let tree = Tree::of(&state.memory);
        let open = |place| Opening::of(&state.memory, &tree, place);
        Witness {
            place: state.cpu.place.into(),
            register: state.cpu.register,
            memory: tree.root(),
            instruction: open(state.cpu.place),
            operand: open(state.instruction().place),
        }
    }

    /// Whether it shows a step from the one digest to the other.
    pub fn is_accepted(&self, start: Digest, end: Digest) -> bool {
        self.end_from(start) == Some(end)
    }

    /// The digest of the next state, where all fits the digest at the start.
    fn end_from(&self, start: Digest) -> Option<Digest> {
        let place = u16::try_from(self.place).ok()?;
        let instruction = self.decoded();
        let fits = digest(&self.state_string()) == start
            && self.instruction.climb(place) == self.memory
            && self.operand.climb(instruction.place) == self.memory;
        fits.then(|| {
            let cpu = Cpu { place, register: self.register }.after(instruction, self.operand.word);
            let memory = match instruction.operation {
                Operation::Store => self.operand.with(self.register).climb(instruction.place),
                _ => self.memory,
            };
            digest(&state_string(cpu.place.into(), cpu.register, &memory))
        })
    }

    /// The first two strings that differ: the states' first, then the instructions' ways from the top down, then the
    /// operands'.
    pub fn difference(&self, own: &Witness) -> Option<Difference> {
        let pairs = self.strings().into_iter().zip(own.strings());
        pairs.map(|(shown, own)| Difference { shown, own }).find(|difference| difference.shown != difference.own)
    }

    /// All strings that a step stands on, in the order of the search. The place of an accepted step fits 16 bits.
    fn strings(&self) -> Vec<Vec<u8>> {
        let mut strings = vec![self.state_string().to_vec()];
        strings.extend(self.instruction.way_down(self.place as u16));
        strings.extend(self.operand.way_down(self.decoded().place));
        strings
    }

    fn state_string(&self) -> [u8; 41] {
        state_string(self.place, self.register, &self.memory)
    }

    fn decoded(&self) -> Instruction {
        Instruction::decode(self.instruction.word)
    }

    pub fn to_bytes(&self) -> Vec<u8> {
        let mut bytes = Vec::with_capacity(Self::BYTES);
        bytes.extend(self.place.to_be_bytes());
        bytes.extend(self.register.to_be_bytes());
        bytes.extend(self.memory.0);
        for opening in [&self.instruction, &self.operand] {
            bytes.extend(opening.word.to_be_bytes());
            bytes.extend(opening.siblings.iter().flat_map(|sibling| sibling.0));
        }
        bytes
    }

    pub fn from_bytes(bytes: &[u8; Self::BYTES]) -> Witness {
        let mut rest = &bytes[..];
        Witness {
            place: u32::from_be_bytes(take(&mut rest)),
            register: u32::from_be_bytes(take(&mut rest)),
            memory: Digest(take(&mut rest)),
            instruction: take_opening(&mut rest),
            operand: take_opening(&mut rest),
        }
    }
}

fn take_opening(rest: &mut &[u8]) -> Opening {
    Opening { word: u32::from_be_bytes(take(rest)), siblings: std::array::from_fn(|_| Digest(take(rest))) }
}

/// Takes so many bytes from the front.
fn take<const N: usize>(rest: &mut &[u8]) -> [u8; N] {
    let (front, back) = rest.split_first_chunk().expect("a shown step has all its bytes");
    *rest = back;
    *front
}

#[cfg(test)]
mod tests {
    use super::*;
    use crate::machine::blank_memory;

    /// The step of an instruction at place 3, with 5 at place 16.
    fn state(number: u32, register: u32) -> State {
        let mut memory = blank_memory();
        memory[3] = number << 16 | 16;
        memory[16] = 5;
        memory[17] = 6;
        State { cpu: Cpu { place: 3, register }, memory }
    }

    fn ends(state: &State) -> (Digest, Digest) {
        let mut next = state.clone();
        next.run(1);
        (state.digest(), next.digest())
    }

    #[test]
    fn honest_steps_are_accepted() {
        for number in (0..=9).chain([0xffff]) {
            for register in [0, 9] {
                let state = state(number, register);
                let witness = Witness::of(&state);
                let (start, end) = ends(&state);
                assert!(witness.is_accepted(start, end));
                assert!(!witness.is_accepted(end, end) || start == end);
                assert!(!witness.is_accepted(start, digest(b"")));
            }
        }
    }

    #[test]
    fn it_is_read_as_it_was_written() {
        let witness = Witness::of(&state(2, 9));
        let bytes = witness.to_bytes();
        assert_eq!(bytes.len(), 1072);
        assert_eq!(Witness::from_bytes(&bytes.try_into().unwrap()), witness);
    }

    #[test]
    fn damage_of_any_byte_is_not_accepted() {
        let state = state(2, 9);
        let (start, end) = ends(&state);
        let honest = Witness::of(&state).to_bytes();
        for at in 0..Witness::BYTES {
            let mut bytes: [u8; Witness::BYTES] = honest.clone().try_into().unwrap();
            bytes[at] ^= 1;
            assert!(!Witness::from_bytes(&bytes).is_accepted(start, end), "byte {at}");
        }
    }

    #[test]
    fn a_place_above_65535_is_not_accepted() {
        let mut witness = Witness::of(&state(0, 9));
        witness.place += 65536;
        let start = digest(&witness.state_string());
        assert!(!witness.is_accepted(start, start));
    }

    #[test]
    fn a_word_from_another_place_is_not_accepted() {
        let state = state(1, 0);
        let mut witness = Witness::of(&state);
        witness.operand = Opening::of(&state.memory, &Tree::of(&state.memory), 17);
        let end = digest(&state_string(4, 6, &witness.memory));
        assert!(!witness.is_accepted(state.digest(), end));
    }

    #[test]
    fn differences_are_found_in_order() {
        let own = Witness::of(&state(1, 0));
        assert_eq!(own.difference(&own), None);

        let mut shown = own.clone();
        shown.operand.word = 8;
        let found = shown.difference(&own).unwrap();
        assert_eq!(found.own, own.operand.way_down(16)[0]);
        assert_eq!(found.shown, shown.operand.way_down(16)[0]);

        shown.instruction.siblings[0] = digest(b"");
        let found = shown.difference(&own).unwrap();
        assert_eq!(found.own, own.instruction.way_down(3)[0]);
        assert_eq!(found.shown, shown.instruction.way_down(3)[0]);

        shown.register = 1;
        let found = shown.difference(&own).unwrap();
        assert_eq!(found.own, own.state_string());
        assert_eq!(found.shown, shown.state_string());
    }

    /// Were the digests of two tops alike, only the strings below the first difference would tell.
    #[test]
    fn the_topmost_difference_comes_first() {
        let own = Witness::of(&state(1, 0));
        let mut shown = own.clone();
        shown.instruction.siblings[LEVELS - 1] = digest(b"");
        let found = shown.difference(&own).unwrap();
        assert_eq!(found.shown[..33], found.own[..33]);
        assert_eq!(found.shown[33..], digest(b"").0);
    }
}
