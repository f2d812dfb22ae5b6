//! The dispute: turns, days, refusals, and the referee.

use std::fmt;

use crate::message::Message;
use crate::sha256::Digest;
use crate::witness::Witness;

#[derive(Clone, Copy, Debug, PartialEq, Eq)]
pub enum Side {
    Claimer,
    Doubter,
}

impl Side {
    pub fn other(self) -> Side {
        match self {
            Side::Claimer => Side::Doubter,
            Side::Doubter => Side::Claimer,
        }
    }
}

impl fmt::Display for Side {
    fn fmt(&self, f: &mut fmt::Formatter<'_>) -> fmt::Result {
        f.write_str(match self {
            Side::Claimer => "claimer",
            Side::Doubter => "doubter",
        })
    }
}

#[derive(Clone, Copy, Debug, PartialEq, Eq)]
pub enum Refusal {
    NoMessage,
    OutOfTurn,
    NotForThisTurn,
    NotThisDay,
}

impl Refusal {
    pub const ALL: [Refusal; 4] =
        [Refusal::NoMessage, Refusal::OutOfTurn, Refusal::NotForThisTurn, Refusal::NotThisDay];

    pub fn number(self) -> u8 {
        match self {
            Refusal::NoMessage => 1,
            Refusal::OutOfTurn => 2,
            Refusal::NotForThisTurn => 3,
            Refusal::NotThisDay => 4,
        }
    }
}

/// Who is on turn, or who has won.
#[derive(Clone, Copy, Debug, PartialEq, Eq)]
pub enum Standing {
    Turn(Side),
    Won(Side),
}

impl fmt::Display for Standing {
    fn fmt(&self, f: &mut fmt::Formatter<'_>) -> fmt::Result {
        match self {
            Standing::Turn(side) => write!(f, "turn {side}"),
            Standing::Won(side) => write!(f, "won {side}"),
        }
    }
}

/// The steps in dispute, and what is said of the digests at both ends.
#[derive(Clone, Copy, Debug, PartialEq, Eq)]
pub struct Dispute {
    /// The number of steps before it.
    pub from: u64,
    pub steps: u64,
    pub start: Digest,
    pub end: Digest,
}

impl Dispute {
    /// The number of steps before its middle.
    pub fn middle(&self) -> u64 {
        self.from + self.steps / 2
    }

    fn first_half(self, middle: Digest) -> Dispute {
        Dispute { steps: self.steps / 2, end: middle, ..self }
    }

    fn second_half(self, middle: Digest) -> Dispute {
        Dispute { from: self.middle(), steps: self.steps / 2, start: middle, ..self }
    }
}

/// What is awaited.
#[derive(Clone, Copy, Debug, PartialEq, Eq)]
pub enum Phase {
    Claiming { start: Digest },
    Doubting(Dispute),
    Halving(Dispute),
    Answering(Dispute, Digest),
    Showing(Dispute),
    Over { winner: Side },
}

impl Phase {
    pub fn standing(&self) -> Standing {
        match self {
            Phase::Claiming { .. } | Phase::Halving(_) | Phase::Showing(_) => Standing::Turn(Side::Claimer),
            Phase::Doubting(_) | Phase::Answering(..) => Standing::Turn(Side::Doubter),
            Phase::Over { winner } => Standing::Won(*winner),
        }
    }

    /// What a message makes of it, if it is one for this turn. `accepts` decides a shown step.
    fn after(self, message: &Message, accepts: impl FnOnce(&Dispute, &Witness) -> bool) -> Option<Phase> {
        Some(match (self, message) {
            (Phase::Claiming { start }, Message::Claim { halvings, digest }) => {
                Phase::Doubting(Dispute { from: 0, steps: halvings.steps(), start, end: *digest })
            }
            (Phase::Doubting(dispute), Message::Doubt) => Phase::narrowed(dispute),
            (Phase::Halving(dispute), Message::Middle(middle)) => Phase::Answering(dispute, *middle),
            (Phase::Answering(dispute, middle), Message::Right) => Phase::narrowed(dispute.second_half(middle)),
            (Phase::Answering(dispute, middle), Message::Wrong) => Phase::narrowed(dispute.first_half(middle)),
            (Phase::Showing(dispute), Message::Step(witness)) => {
                let winner = if accepts(&dispute, witness) { Side::Claimer } else { Side::Doubter };
                Phase::Over { winner }
            }
            _ => return None,
        })
    }

    /// The claimer's next turn: to halve the steps, or to show the only one.
    fn narrowed(dispute: Dispute) -> Phase {
        if dispute.steps == 1 { Phase::Showing(dispute) } else { Phase::Halving(dispute) }
    }
}

#[derive(Clone, Debug, PartialEq, Eq)]
pub struct Case {
    day: u64,
    /// The day on which the turn began.
    since: u64,
    phase: Phase,
}

impl Case {
    /// A turn that began on day D ends when day D + 2 begins.
    const DAYS_OF_A_TURN: u64 = 2;

    /// A case about a run from the state with this digest.
    pub fn open(start: Digest) -> Case {
        Case { day: 0, since: 0, phase: Phase::Claiming { start } }
    }

    pub fn phase(&self) -> &Phase {
        &self.phase
    }

    pub fn standing(&self) -> Standing {
        self.phase.standing()
    }

    /// Takes what a party sends, or refuses it and stays as it is.
    pub fn receive(&mut self, sender: Side, bytes: &[u8]) -> Result<(), Refusal> {
        self.receive_and_decide(sender, bytes, |dispute, witness| witness.is_accepted(dispute.start, dispute.end))
    }

    /// The same, with another way to decide a shown step.
    pub fn receive_and_decide(
        &mut self,
        sender: Side,
        bytes: &[u8],
        accepts: impl FnOnce(&Dispute, &Witness) -> bool,
    ) -> Result<(), Refusal> {
        let message = Message::decode(bytes).ok_or(Refusal::NoMessage)?;
        if self.standing() != Standing::Turn(sender) {
            return Err(Refusal::OutOfTurn);
        }
        self.phase = self.phase.after(&message, accepts).ok_or(Refusal::NotForThisTurn)?;
        self.since = self.day;
        Ok(())
    }

    /// A day begins: the one that is on, or the next.
    pub fn begin_day(&mut self, day: u64) -> Result<(), Refusal> {
        if day != self.day && self.day.checked_add(1) != Some(day) {
            return Err(Refusal::NotThisDay);
        }
        self.day = day;
        if let Standing::Turn(late) = self.standing()
            && day - self.since >= Case::DAYS_OF_A_TURN
        {
            self.phase = Phase::Over { winner: late.other() };
        }
        Ok(())
    }
}

#[cfg(test)]
mod tests {
    use super::*;
    use crate::machine::{State, blank_memory};
    use crate::message::Halvings;
    use crate::sha256::digest;

    const CLAIMER: Standing = Standing::Turn(Side::Claimer);
    const DOUBTER: Standing = Standing::Turn(Side::Doubter);

    fn halted() -> State {
        State::start(blank_memory())
    }

    fn claim(n: u64) -> Vec<u8> {
        Message::Claim { halvings: Halvings::new(n).unwrap(), digest: halted().digest() }.encode()
    }

    fn middle() -> Vec<u8> {
        Message::Middle(halted().digest()).encode()
    }

    fn send(case: &mut Case, sender: Side, bytes: &[u8]) -> Standing {
        case.receive(sender, bytes).unwrap();
        case.standing()
    }

    #[test]
    fn a_whole_case() {
        for (answer, from) in [(&[4], 1), (&[5], 0)] {
            let mut case = Case::open(halted().digest());
            assert_eq!(send(&mut case, Side::Claimer, &claim(1)), DOUBTER);
            assert_eq!(send(&mut case, Side::Doubter, &[2]), CLAIMER);
            assert_eq!(send(&mut case, Side::Claimer, &middle()), DOUBTER);
            assert_eq!(send(&mut case, Side::Doubter, answer), CLAIMER);
            let Phase::Showing(dispute) = case.phase() else { panic!("one step is left") };
            assert_eq!((dispute.from, dispute.steps), (from, 1));
            let mut other = case.clone();

            let step = Message::Step(Box::new(Witness::of(&halted()))).encode();
            assert_eq!(send(&mut case, Side::Claimer, &step), Standing::Won(Side::Claimer));
            assert_eq!(case.receive(Side::Claimer, &step), Err(Refusal::OutOfTurn));
            assert_eq!(case.receive(Side::Claimer, &[6]), Err(Refusal::NoMessage));

            let step = [&[6][..], &[0; 1072]].concat();
            assert_eq!(send(&mut other, Side::Claimer, &step), Standing::Won(Side::Doubter));
        }
    }

    #[test]
    fn the_steps_in_dispute_are_halved() {
        let mut case = Case::open(halted().digest());
        send(&mut case, Side::Claimer, &claim(32));
        send(&mut case, Side::Doubter, &[2]);
        for n in (1..=32).rev() {
            let Phase::Halving(dispute) = *case.phase() else { panic!("more than one step is left") };
            assert_eq!((dispute.from, dispute.steps), ((1 << 32) - (1 << n), 1 << n));
            send(&mut case, Side::Claimer, &middle());
            send(&mut case, Side::Doubter, &[4]);
        }
        assert!(matches!(case.phase(), Phase::Showing(dispute) if dispute.from == u64::from(u32::MAX)));
    }

    #[test]
    fn a_refusal_changes_nothing() {
        let mut case = Case::open(halted().digest());
        let before = case.clone();
        assert_eq!(case.receive(Side::Doubter, &[]), Err(Refusal::NoMessage));
        assert_eq!(case.receive(Side::Doubter, &claim(1)), Err(Refusal::OutOfTurn));
        assert_eq!(case.receive(Side::Claimer, &middle()), Err(Refusal::NotForThisTurn));
        assert_eq!(case.begin_day(2), Err(Refusal::NotThisDay));
        assert_eq!(case, before);
    }

    #[test]
    fn a_turn_ends_when_the_second_day_after_begins() {
        let mut case = Case::open(digest(b""));
        for day in [0, 1, 1] {
            case.begin_day(day).unwrap();
            assert_eq!(case.standing(), CLAIMER);
        }
        let mut other = case.clone();
        case.begin_day(2).unwrap();
        assert_eq!(case.standing(), Standing::Won(Side::Doubter));

        send(&mut other, Side::Claimer, &claim(5));
        other.begin_day(2).unwrap();
        assert_eq!(other.standing(), DOUBTER);
        assert_eq!(other.begin_day(1), Err(Refusal::NotThisDay));
        other.begin_day(3).unwrap();
        assert_eq!(other.standing(), Standing::Won(Side::Claimer));
        other.begin_day(4).unwrap();
        assert_eq!(other.standing(), Standing::Won(Side::Claimer));
    }

    #[test]
    fn after_the_last_day_comes_none() {
        let mut case = Case { day: u64::MAX, ..Case::open(digest(b"")) };
        assert_eq!(case.begin_day(0), Err(Refusal::NotThisDay));
        case.begin_day(u64::MAX).unwrap();
    }
}
