//! A run whose states can be looked up.

use crate::machine::{Cpu, Memory, State};

/// The steps between two states that are kept.
pub const STRIDE: u64 = 1 << 20;

/// The states of a run after each `STRIDE` steps, as differences.
pub struct History {
    start: State,
    marks: Vec<Mark>,
    /// The state at the last mark.
    latest: State,
}

/// A state, as what has changed in the memory since the mark before.
struct Mark {
    cpu: Cpu,
    changes: Box<[Change]>,
}

struct Change {
    place: u16,
    word: u32,
}

impl History {
    pub fn new(memory: Box<Memory>) -> History {
        let start = State::start(memory);
        History { latest: start.clone(), start, marks: Vec::new() }
    }

    pub fn start(&self) -> &State {
        &self.start
    }

    /// The state after so many steps. `watch` is told, now and then, how many of the steps are gone that had not been.
    pub fn after(&mut self, steps: u64, watch: &mut dyn FnMut(u64)) -> State {
        let marks = self.extend(steps / STRIDE, watch);
        let mut state = self.start.clone();
        for mark in &self.marks[..marks] {
            for change in &mark.changes {
                state.memory[usize::from(change.place)] = change.word;
            }
            state.cpu = mark.cpu;
        }
        state.run(steps - marks as u64 * STRIDE);
        state
    }

    /// Goes on to so many marks, or to where the machine has halted; how many of them there are.
    fn extend(&mut self, marks: u64, watch: &mut dyn FnMut(u64)) -> usize {
        let mut before = self.latest.memory.clone();
        let mut gone = 0;
        while (self.marks.len() as u64) < marks && !self.latest.has_halted() {
            self.latest.run(STRIDE);
            let changes = changes(&before, &self.latest.memory);
            for change in &changes {
                before[usize::from(change.place)] = change.word;
            }
            self.marks.push(Mark { cpu: self.latest.cpu, changes });
            gone += STRIDE;
            watch(gone);
        }
        usize::try_from(marks).map_or(self.marks.len(), |marks| marks.min(self.marks.len()))
    }
}

fn changes(before: &Memory, after: &Memory) -> Box<[Change]> {
    (0..=u16::MAX)
        .zip(before.iter().zip(after))
        .filter(|(_, (before, after))| before != after)
        .map(|(place, (_, &word))| Change { place, word })
        .collect()
}

#[cfg(test)]
mod tests {
    use super::*;
    use crate::program::load;

    /// Counts at place 100 without end, or up to a number of turns.
    fn counter(turns: Option<u32>) -> Box<Memory> {
        let mut memory = load(&[]).unwrap();
        memory[..7].copy_from_slice(&[0x1_0064, 0x3_0065, 0x2_0064, 0x4_0066, 0x6_0006, 0x5_0000, 0]);
        memory[101] = 1;
        memory[102] = turns.unwrap_or(0);
        memory
    }

    fn plain(memory: &Memory, steps: u64) -> State {
        let mut state = State::start(Box::new(*memory));
        state.run(steps);
        state
    }

    #[test]
    fn states_are_those_of_the_plain_run() {
        let memory = counter(None);
        let mut history = History::new(memory.clone());
        for steps in [0, 1, 3 * STRIDE + 5, STRIDE - 1, STRIDE, STRIDE + 1, 2 * STRIDE, 3 * STRIDE + 6, 17] {
            assert!(history.after(steps, &mut |_| ()) == plain(&memory, steps), "{steps} steps");
        }
    }

    #[test]
    fn a_halted_run_has_no_more_marks() {
        let memory = counter(Some(400_000));
        let mut history = History::new(memory.clone());
        let mut told = Vec::new();
        let last = history.after(1 << 32, &mut |gone| told.push(gone));
        assert_eq!(told, [STRIDE, 2 * STRIDE, 3 * STRIDE]);
        assert!(last.has_halted() && last.memory[100] == 400_000);
        for steps in [5 << 30, 2 * STRIDE + 1, 6 * 400_000 - 2, 6 * 400_000 - 1, 6 * 400_000] {
            assert!(history.after(steps, &mut |_| ()) == plain(&memory, steps), "{steps} steps");
        }
    }

    #[test]
    fn an_endless_jump_has_marks_without_changes() {
        let mut memory = load(&[]).unwrap();
        memory[0] = 5 << 16;
        let mut history = History::new(memory.clone());
        assert!(history.after(4 * STRIDE, &mut |_| ()) == plain(&memory, 0));
        assert!(history.marks.iter().all(|mark| mark.changes.is_empty()));
    }
}
