//! The memory's digest, and openings of single words.

use std::iter;

use crate::machine::Memory;
use crate::sha256::{Digest, digest};

/// How often the words are joined in pairs.
pub const LEVELS: usize = 16;

const WORD: u8 = 0;
const PAIR: u8 = 1;
const STATE: u8 = 2;

/// The string whose digest is a word's.
pub fn word_string(word: u32) -> [u8; 5] {
    let [a, b, c, d] = word.to_be_bytes();
    [WORD, a, b, c, d]
}

/// The string whose digest joins two.
pub fn pair_string(left: &Digest, right: &Digest) -> [u8; 65] {
    let mut string = [PAIR; 65];
    string[1..33].copy_from_slice(&left.0);
    string[33..].copy_from_slice(&right.0);
    string
}

/// The string whose digest is a state's.
pub fn state_string(place: u32, register: u32, memory: &Digest) -> [u8; 41] {
    let mut string = [STATE; 41];
    string[1..5].copy_from_slice(&place.to_be_bytes());
    string[5..9].copy_from_slice(&register.to_be_bytes());
    string[9..].copy_from_slice(&memory.0);
    string
}

/// All digests over a memory, by levels: the words' first, the memory's last.
pub struct Tree {
    levels: Vec<Vec<Digest>>,
}

impl Tree {
    pub fn of(memory: &Memory) -> Tree {
        let words: Vec<Digest> = memory.iter().map(|&word| digest(&word_string(word))).collect();
        let levels = iter::successors(Some(words), |below| {
            let (pairs, _) = below.as_chunks::<2>();
            (!pairs.is_empty()).then(|| pairs.iter().map(|[left, right]| digest(&pair_string(left, right))).collect())
        });
        Tree { levels: levels.collect() }
    }

    /// The memory's digest.
    pub fn root(&self) -> Digest {
        self.levels[LEVELS][0]
    }

    /// The digests beside the way up from a place, the lowest first.
    fn siblings(&self, place: u16) -> [Digest; LEVELS] {
        std::array::from_fn(|level| self.levels[level][usize::from(place) >> level ^ 1])
    }
}

/// A word, and the digests beside its way up, the lowest first.
#[derive(Clone, Debug, PartialEq, Eq)]
pub struct Opening {
    pub word: u32,
    pub siblings: [Digest; LEVELS],
}

impl Opening {
    /// The honest opening of a place; the tree is that of the memory.
    pub fn of(memory: &Memory, tree: &Tree, place: u16) -> Opening {
        Opening { word: memory[usize::from(place)], siblings: tree.siblings(place) }
    }

    /// The same way up from another word.
    pub fn with(&self, word: u32) -> Opening {
        Opening { word, ..self.clone() }
    }

    /// The memory's digest that it gives when climbed from a place.
    pub fn climb(&self, place: u16) -> Digest {
        let word = digest(&word_string(self.word));
        self.pairs(place).last().map_or(word, |pair| digest(&pair))
    }

    /// The strings that are digested on the way, from the top down: the pairs, and last the word's.
    pub fn way_down(&self, place: u16) -> Vec<Vec<u8>> {
        let word = word_string(self.word).to_vec();
        let mut way: Vec<Vec<u8>> = iter::once(word).chain(self.pairs(place).map(|pair| pair.to_vec())).collect();
        way.reverse();
        way
    }

    /// The joined pairs on the way up, the lowest first.
    fn pairs(&self, place: u16) -> impl Iterator<Item = [u8; 65]> {
        let mut own = digest(&word_string(self.word));
        self.siblings.iter().enumerate().map(move |(level, sibling)| {
            let is_right = place >> level & 1 == 1;
            let pair = if is_right { pair_string(sibling, &own) } else { pair_string(&own, sibling) };
            own = digest(&pair);
            pair
        })
    }
}

#[cfg(test)]
mod tests {
    use super::*;
    use crate::machine::blank_memory;

    /// A memory in which no two words are alike.
    fn counted() -> Box<Memory> {
        let mut memory = blank_memory();
        for (word, number) in memory.iter_mut().zip(1..) {
            *word = number;
        }
        memory
    }

    #[test]
    fn a_blank_memory_is_joined_sixteen_times() {
        let mut expected = digest(&[0; 5]);
        for _ in 0..LEVELS {
            expected = digest(&[&[1][..], &expected.0, &expected.0].concat());
        }
        assert_eq!(Tree::of(&blank_memory()).root(), expected);
        assert_eq!(expected.to_string(), "5350bf0c06787f1977cb398befdd025d9facb63ffa7a6fde9d9ba316e8c9ef8c");
    }

    #[test]
    fn openings_climb_to_the_root_from_their_own_place_only() {
        let memory = counted();
        let tree = Tree::of(&memory);
        for place in [0, 1, 2, 3, 255, 256, 32767, 32768, 65534, 65535] {
            let opening = Opening::of(&memory, &tree, place);
            assert_eq!(opening.climb(place), tree.root());
            for bit in 0..LEVELS {
                assert_ne!(opening.climb(place ^ 1 << bit), tree.root());
            }
        }
    }

    #[test]
    fn an_opening_with_another_word_gives_the_changed_memory() {
        let mut memory = counted();
        let opening = Opening::of(&memory, &Tree::of(&memory), 40_000);
        memory[40_000] = 7;
        assert_eq!(opening.with(7).climb(40_000), Tree::of(&memory).root());
    }

    #[test]
    fn the_way_down_begins_at_the_root_and_ends_at_the_word() {
        let memory = counted();
        let tree = Tree::of(&memory);
        let way = Opening::of(&memory, &tree, 5).way_down(5);
        assert_eq!(way.len(), LEVELS + 1);
        assert_eq!(digest(&way[0]), tree.root());
        assert_eq!(way[LEVELS], [0, 0, 0, 0, 6]);
        for (above, below) in way.iter().zip(&way[1..]) {
            let below = digest(below).0;
            assert!(above[1..33] == below || above[33..] == below);
        }
    }
}
