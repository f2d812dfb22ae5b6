//! What an honest party says, going by the record of the case and by its own run.

use std::fmt;

use crate::history::History;
use crate::lines::{Answer, Entry, Line, opening};
use crate::machine::{Memory, State};
use crate::message::{Halvings, Message};
use crate::referee::{Case, Dispute, Phase, Refusal, Side, Standing};
use crate::sha256::Digest;
use crate::witness::{Difference, Witness};

/// Is told how long a run will be, and how many steps of it are gone.
pub trait Watch {
    fn begin(&mut self, steps: u64);
    fn gone(&mut self, steps: u64);
}

/// Tells nobody.
impl Watch for () {
    fn begin(&mut self, _: u64) {}
    fn gone(&mut self, _: u64) {}
}

/// What comes of a line of the record.
#[derive(Debug, PartialEq, Eq)]
pub enum Reply {
    Nothing,
    Say(Message),
    /// The case is about another start than the party's program has.
    OtherStart(Digest),
    /// The case is over. Who doubted and lost by a shown step has the strings in which that step differs from its own.
    Over(Option<Difference>),
}

/// Why a record cannot be.
#[derive(Clone, Copy, Debug, PartialEq, Eq)]
pub enum BadRecord {
    NoAnswer,
    NotTaken(Refusal),
    CaseTwice,
    OtherStanding(Standing),
}

impl fmt::Display for BadRecord {
    fn fmt(&self, f: &mut fmt::Formatter<'_>) -> fmt::Result {
        match self {
            BadRecord::NoAnswer => write!(f, "this is no answer of a referee"),
            BadRecord::NotTaken(refusal) => {
                write!(f, "the line is said to be taken, but must be refused by {}", refusal.number())
            }
            BadRecord::CaseTwice => write!(f, "the line is said to be taken, but only the first opens a case"),
            BadRecord::OtherStanding(standing) => write!(f, "after the line that was taken it must be: {standing}"),
        }
    }
}

/// A party in a case.
pub struct Party<W> {
    side: Side,
    history: History,
    watch: W,
    case: Case,
    /// Whether the next line is the first.
    at_first_line: bool,
}

impl<W: Watch> Party<W> {
    pub fn new(side: Side, program: Box<Memory>, watch: W) -> Party<W> {
        let history = History::new(program);
        // Where the record does not tell the start, it is the own.
        let case = Case::open(history.start().digest());
        Party { side, history, watch, case, at_first_line: true }
    }

    /// The claim about the own run.
    pub fn claim(&mut self, halvings: Halvings) -> Message {
        let digest = self.digest_after(halvings.steps());
        Message::Claim { halvings, digest }
    }

    /// Hears a line that was given to the referee, and the answer.
    pub fn hear(&mut self, line: &Line, answer: &Line) -> Result<Reply, BadRecord> {
        let Line::Whole(answer) = answer else { return Err(BadRecord::NoAnswer) };
        let answer = Answer::parse(answer).ok_or(BadRecord::NoAnswer)?;
        let is_first = std::mem::replace(&mut self.at_first_line, false);
        if answer.outcome.is_err() {
            return Ok(Reply::Nothing);
        }
        match opening(line) {
            Some(start) if is_first => self.open(start, answer),
            Some(_) => Err(BadRecord::CaseTwice),
            None => self.follow(&Entry::parse(line), answer),
        }
    }

    fn open(&mut self, start: Digest, answer: Answer) -> Result<Reply, BadRecord> {
        let own = std::mem::replace(&mut self.case, Case::open(start));
        self.must_stand(answer)?;
        Ok(if self.case == own { Reply::Nothing } else { Reply::OtherStart(start) })
    }

    /// Follows a line that was taken.
    fn follow(&mut self, entry: &Entry, answer: Answer) -> Result<Reply, BadRecord> {
        let mut shown = None;
        let outcome = match entry {
            Entry::Sent { sender, bytes } => self.case.receive_and_decide(*sender, bytes, |dispute, witness| {
                // The referee has decided it.
                shown = Some((*dispute, witness.clone()));
                answer.standing == Standing::Won(Side::Claimer)
            }),
            Entry::Day(Some(day)) => self.case.begin_day(*day),
            Entry::Day(None) => Err(Refusal::NotThisDay),
            Entry::Unreadable => Err(Refusal::NoMessage),
        };
        outcome.map_err(BadRecord::NotTaken)?;
        self.must_stand(answer)?;
        Ok(match (answer.standing, entry) {
            (Standing::Won(winner), _) => {
                let lost_by = shown.filter(|_| self.side == Side::Doubter && winner == Side::Claimer);
                Reply::Over(lost_by.and_then(|(dispute, witness)| self.difference(&dispute, &witness)))
            }
            (Standing::Turn(side), Entry::Sent { .. }) if side == self.side => self.turn(),
            (Standing::Turn(_), _) => Reply::Nothing,
        })
    }

    fn must_stand(&self, answer: Answer) -> Result<(), BadRecord> {
        let standing = self.case.standing();
        if answer.standing == standing { Ok(()) } else { Err(BadRecord::OtherStanding(standing)) }
    }

    /// What the party has to say in a turn that begins.
    fn turn(&mut self) -> Reply {
        match *self.case.phase() {
            Phase::Doubting(dispute) => {
                let agrees = self.digest_after(dispute.steps) == dispute.end;
                if agrees { Reply::Nothing } else { Reply::Say(Message::Doubt) }
            }
            Phase::Halving(dispute) => Reply::Say(Message::Middle(self.digest_after(dispute.middle()))),
            Phase::Answering(dispute, middle) => {
                let agrees = self.digest_after(dispute.middle()) == middle;
                Reply::Say(if agrees { Message::Right } else { Message::Wrong })
            }
            Phase::Showing(dispute) => Reply::Say(Message::Step(Box::new(self.witness(&dispute)))),
            // The claim is made without being asked for.
            Phase::Claiming { .. } | Phase::Over { .. } => Reply::Nothing,
        }
    }

    fn difference(&mut self, dispute: &Dispute, shown: &Witness) -> Option<Difference> {
        shown.difference(&self.witness(dispute))
    }

    fn witness(&mut self, dispute: &Dispute) -> Witness {
        Witness::of(&self.state_after(dispute.from))
    }

    fn digest_after(&mut self, steps: u64) -> Digest {
        self.state_after(steps).digest()
    }

    fn state_after(&mut self, steps: u64) -> State {
        self.watch.begin(steps);
        self.history.after(steps, &mut |gone| self.watch.gone(gone))
    }
}

#[cfg(test)]
mod tests {
    use super::*;
    use crate::lines::sent;
    use crate::program::load;

    /// Counts at place 100 by what stands at place 101, without end.
    fn counter(by: u32) -> Box<Memory> {
        let mut memory = load(&[]).unwrap();
        memory[..4].copy_from_slice(&[0x1_0064, 0x3_0065, 0x2_0064, 0x5_0000]);
        memory[101] = by;
        memory
    }

    fn start(memory: Box<Memory>) -> Digest {
        State::start(memory).digest()
    }

    fn claimer(program: Box<Memory>) -> Party<()> {
        Party::new(Side::Claimer, program, ())
    }

    fn doubter(program: Box<Memory>) -> Party<()> {
        Party::new(Side::Doubter, program, ())
    }

    fn hear(party: &mut Party<()>, line: &str, answer: &str) -> Result<Reply, BadRecord> {
        party.hear(&Line::Whole(line.into()), &Line::Whole(answer.into()))
    }

    /// A case between two parties in the ears of a referee.
    struct Table {
        referee: Case,
        claimer: Party<()>,
        doubter: Party<()>,
        day: u64,
        lines: usize,
    }

    impl Table {
        fn new(start: Digest, claimer: Party<()>, doubter: Party<()>) -> Table {
            Table { referee: Case::open(start), claimer, doubter, day: 0, lines: 0 }
        }

        /// Gives a line to the referee, and line and answer to both.
        fn enter(&mut self, line: &str) -> [Reply; 2] {
            self.lines += 1;
            let answer = Entry::parse(&Line::Whole(line.into())).enter(&mut self.referee).to_string();
            [&mut self.claimer, &mut self.doubter].map(|party| hear(party, line, &answer).unwrap())
        }

        /// Plays to the end: who has won, and what the doubter found.
        fn play(&mut self, first: &Message) -> (Side, Option<Difference>) {
            let mut line = sent(Side::Claimer, first);
            loop {
                let [from_claimer, from_doubter] = self.enter(&line);
                line = match (from_claimer, from_doubter) {
                    (Reply::Say(message), Reply::Nothing) => sent(Side::Claimer, &message),
                    (Reply::Nothing, Reply::Say(message)) => sent(Side::Doubter, &message),
                    (Reply::Nothing, Reply::Nothing) => {
                        self.day += 1;
                        format!("day {}", self.day)
                    }
                    (Reply::Over(None), Reply::Over(found)) => {
                        let Standing::Won(winner) = self.referee.standing() else { panic!("it is over") };
                        return (winner, found);
                    }
                    replies => panic!("two at once: {replies:?}"),
                };
            }
        }
    }

    fn halvings(n: u64) -> Halvings {
        Halvings::new(n).unwrap()
    }

    #[test]
    fn a_right_claim_stands() {
        let mut table = Table::new(start(counter(1)), claimer(counter(1)), doubter(counter(1)));
        let claim = table.claimer.claim(halvings(5));
        assert_eq!(table.play(&claim), (Side::Claimer, None));
        assert_eq!((table.day, table.lines), (2, 3));
    }

    #[test]
    fn who_claims_of_another_program_loses() {
        let mut table = Table::new(start(counter(1)), claimer(counter(2)), doubter(counter(1)));
        let claim = table.claimer.claim(halvings(5));
        assert_eq!(table.play(&claim), (Side::Doubter, None));
        assert_eq!((table.day, table.lines), (0, 13));
    }

    #[test]
    fn who_doubts_by_another_program_loses_and_shows_the_states() {
        let mut table = Table::new(start(counter(1)), claimer(counter(1)), doubter(counter(2)));
        let claim = table.claimer.claim(halvings(3));
        let (winner, found) = table.play(&claim);
        let own = |memory| Witness::of(&State::start(memory));
        assert_eq!(winner, Side::Claimer);
        assert_eq!(found, own(counter(1)).difference(&own(counter(2))));
        assert!(found.is_some_and(|found| found.shown[0] == 2 && found.own[0] == 2));
    }

    /// The run is right up to a step, and wrong from there on; whatever the step, the liar is found out.
    #[test]
    fn a_lie_at_any_step_is_found() {
        const N: u64 = 3;
        for lie in 1..=1 << N {
            let mut table = Table::new(start(counter(1)), claimer(counter(1)), doubter(counter(1)));
            let mut honest = History::new(counter(1));
            let told = |history: &mut History, steps| {
                let mut state = history.after(steps, &mut |_| ());
                if steps >= lie {
                    state.memory[100] += 77;
                }
                state
            };
            let claimed = told(&mut honest, 1 << N).digest();
            let mut line = sent(Side::Claimer, &Message::Claim { halvings: halvings(N), digest: claimed });
            while let Standing::Turn(_) = table.referee.standing() {
                let [_, reply] = table.enter(&line);
                line = match (*table.referee.phase(), reply) {
                    (Phase::Halving(dispute), _) => {
                        let middle = told(&mut honest, dispute.middle()).digest();
                        sent(Side::Claimer, &Message::Middle(middle))
                    }
                    (Phase::Showing(dispute), _) => {
                        assert_eq!(dispute.from, lie - 1);
                        let witness = Witness::of(&told(&mut honest, dispute.from));
                        sent(Side::Claimer, &Message::Step(Box::new(witness)))
                    }
                    (_, Reply::Say(message)) => sent(Side::Doubter, &message),
                    (phase, reply) => {
                        assert_eq!((phase, reply), (Phase::Over { winner: Side::Doubter }, Reply::Over(None)));
                        String::new()
                    }
                };
            }
            assert_eq!(table.referee.standing(), Standing::Won(Side::Doubter));
        }
    }

    #[test]
    fn what_was_turned_away_is_ignored() {
        let mut party = doubter(counter(1));
        for line in
            ["", "claimer 0101", "case 12", "taken turn doubter", "day 7", &sent(Side::Doubter, &Message::Doubt)]
        {
            for answer in ["1 turn claimer", "2 turn doubter", "3 won claimer", "4 turn claimer"] {
                assert_eq!(hear(&mut party, line, answer), Ok(Reply::Nothing));
            }
        }
        assert_eq!(party.hear(&Line::TooLong, &Line::Whole("1 turn claimer".into())), Ok(Reply::Nothing));
        let wrong = Message::Claim { halvings: halvings(1), digest: start(counter(1)) };
        let line = sent(Side::Claimer, &wrong);
        assert_eq!(hear(&mut party, &line, "taken turn doubter"), Ok(Reply::Say(Message::Doubt)));
        assert_eq!(hear(&mut party, "day 0", "taken turn doubter"), Ok(Reply::Nothing));
        assert_eq!(hear(&mut party, &line, "2 turn doubter"), Ok(Reply::Nothing));
    }

    #[test]
    fn the_first_line_may_open_the_case() {
        let case = |memory| format!("case {}", start(memory));
        let taken = "taken turn claimer";
        let mut party = doubter(counter(1));
        assert_eq!(hear(&mut party, &case(counter(1)), taken), Ok(Reply::Nothing));
        assert_eq!(hear(&mut party, &case(counter(1)), "1 turn claimer"), Ok(Reply::Nothing));
        assert_eq!(hear(&mut party, &case(counter(1)), taken), Err(BadRecord::CaseTwice));

        let mut party = claimer(counter(1));
        let other = Reply::OtherStart(start(counter(2)));
        assert_eq!(hear(&mut party, &case(counter(2)), taken), Ok(other));
        assert_eq!(hear(&mut party, "day 1", taken), Ok(Reply::Nothing));
        assert_eq!(hear(&mut party, "day 2", "taken won doubter"), Ok(Reply::Over(None)));
    }

    #[test]
    fn records_that_cannot_be() {
        let bad = |line: &str, answer: &str| hear(&mut doubter(counter(1)), line, answer).unwrap_err();
        assert_eq!(bad("day 0", "taken"), BadRecord::NoAnswer);
        assert_eq!(bad("day 0", "5 turn claimer"), BadRecord::NoAnswer);
        assert_eq!(bad("nonsense", "taken turn claimer"), BadRecord::NotTaken(Refusal::NoMessage));
        assert_eq!(bad("doubter 02", "taken turn claimer"), BadRecord::NotTaken(Refusal::OutOfTurn));
        assert_eq!(bad("claimer 02", "taken turn claimer"), BadRecord::NotTaken(Refusal::NotForThisTurn));
        assert_eq!(bad("day 2", "taken won doubter"), BadRecord::NotTaken(Refusal::NotThisDay));
        assert_eq!(bad("day ", "taken turn claimer"), BadRecord::NotTaken(Refusal::NotThisDay));
        let standing = Standing::Turn(Side::Claimer);
        assert_eq!(bad("day 1", "taken turn doubter"), BadRecord::OtherStanding(standing));
        let case = format!("case {}", start(counter(1)));
        assert_eq!(bad(&case, "taken won claimer"), BadRecord::OtherStanding(standing));
    }
}
