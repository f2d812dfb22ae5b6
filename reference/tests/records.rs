//! The records of cases: the referee answers each line alike, and an honest party says what it has to.

use std::fs;
use std::path::{Path, PathBuf};

use reference::lines::{self, Answer, Entry, Line, Lines};
use reference::message::Halvings;
use reference::party::{Party, Reply};
use reference::program;
use reference::referee::{Case, Side};

fn repository() -> PathBuf {
    Path::new(env!("CARGO_MANIFEST_DIR")).join("..")
}

/// The records by name, each as its lines.
fn records() -> Vec<(String, Vec<u8>)> {
    let files = fs::read_dir(repository().join("tests/records")).unwrap();
    let paths = files.map(|file| file.unwrap().path());
    let mut records: Vec<_> = paths
        .filter(|path| path.extension().is_some_and(|extension| extension == "record"))
        .map(|path| (path.file_stem().unwrap().to_string_lossy().into_owned(), fs::read(&path).unwrap()))
        .collect();
    records.sort();
    records
}

fn split(record: &[u8]) -> Vec<Line> {
    let mut lines = Lines::new(record);
    std::iter::from_fn(|| lines.next_line().unwrap()).collect()
}

#[test]
fn the_referee_answers_every_record_alike() {
    let records = records();
    assert!(!records.is_empty());
    for (name, record) in records {
        let lines = split(&record);
        let (pairs, rest) = lines.as_chunks::<2>();
        assert!(rest.is_empty(), "{name}");
        let mut case = None;
        for (number, [line, answer]) in pairs.iter().enumerate() {
            let given = match &mut case {
                None => {
                    let case = case.insert(Case::open(lines::opening(line).unwrap()));
                    Answer { outcome: Ok(()), standing: case.standing() }
                }
                Some(case) => Entry::parse(line).enter(case),
            };
            assert_eq!(Line::Whole(given.to_string().into()), *answer, "{name}, line {}", 2 * number + 1);
        }
    }
}

/// What a party of the small program says in a record.
fn said(side: Side, record: &[u8]) -> Vec<Reply> {
    let file = fs::read(repository().join("crates/run/data/store.bin")).unwrap();
    let mut party = Party::new(side, program::load(&file).unwrap(), ());
    let mut replies = Vec::new();
    if side == Side::Claimer {
        replies.push(Reply::Say(party.claim(Halvings::new(1).unwrap())));
    }
    for [line, answer] in split(record).as_chunks::<2>().0 {
        let reply = party.hear(line, answer).unwrap();
        let is_over = matches!(reply, Reply::Over(_));
        if reply != Reply::Nothing {
            replies.push(reply);
        }
        if is_over {
            break;
        }
    }
    replies
}

fn lines_said(side: Side, replies: &[Reply]) -> Vec<String> {
    let mut lines = Vec::new();
    for reply in replies {
        if let Reply::Say(message) = reply {
            lines.push(lines::sent(side, message));
        }
    }
    lines
}

fn record(name: &str) -> Vec<u8> {
    let path = repository().join("tests/records").join(name).with_extension("record");
    fs::read(path).unwrap()
}

#[test]
fn an_honest_claimer_says_what_the_records_of_right_claims_say() {
    for name in ["right_claim_first_step", "right_claim_second_step"] {
        let record = record(name);
        let text = String::from_utf8(record.clone()).unwrap();
        let expected: Vec<&str> = text.lines().filter(|line| line.starts_with("claimer ")).collect();
        let replies = said(Side::Claimer, &record);
        assert_eq!(lines_said(Side::Claimer, &replies), expected);
        assert_eq!(replies.last(), Some(&Reply::Over(None)));
    }
}

#[test]
fn an_honest_doubter_says_what_the_record_of_a_wrong_claim_says() {
    let replies = said(Side::Doubter, &record("wrong_claim"));
    assert_eq!(lines_said(Side::Doubter, &replies), ["doubter 02", "doubter 04"]);
    assert_eq!(replies.last(), Some(&Reply::Over(None)));
}

#[test]
fn an_honest_doubter_is_silent_about_a_right_claim() {
    assert_eq!(said(Side::Doubter, &record("no_doubt")), [Reply::Over(None)]);
}
