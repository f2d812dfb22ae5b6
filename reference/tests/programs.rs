//! The programs as a person calls them: what they print, and their status.

use std::fs;
use std::io::Write;
use std::path::{Path, PathBuf};
use std::process::{Command, Stdio};

const RUN: &str = env!("CARGO_BIN_EXE_run");
const REFEREE: &str = env!("CARGO_BIN_EXE_referee");
const PARTY: &str = env!("CARGO_BIN_EXE_party");

/// What a call did.
struct Call {
    output: String,
    errors: String,
    status: Option<i32>,
}

impl Call {
    fn new(program: &str, arguments: &[&str], input: &[u8]) -> Call {
        let mut child = Command::new(program)
            .args(arguments)
            .stdin(Stdio::piped())
            .stdout(Stdio::piped())
            .stderr(Stdio::piped())
            .spawn()
            .unwrap();
        // A program that is done does not read the rest.
        let _ = child.stdin.take().unwrap().write_all(input);
        let done = child.wait_with_output().unwrap();
        Call {
            output: String::from_utf8(done.stdout).unwrap(),
            errors: String::from_utf8(done.stderr).unwrap(),
            status: done.status.code(),
        }
    }

    #[track_caller]
    fn goes_well(&self, output: &str) {
        assert_eq!((self.output.as_str(), self.errors.as_str(), self.status), (output, "", Some(0)));
    }

    #[track_caller]
    fn fails(&self, output: &str, reason: &str) {
        assert_eq!((self.output.as_str(), self.status), (output, Some(1)));
        assert!(self.errors.contains(reason), "{}", self.errors);
    }
}

fn repository() -> PathBuf {
    Path::new(env!("CARGO_MANIFEST_DIR")).join("..")
}

fn store() -> String {
    repository().join("crates/run/data/store.bin").to_str().unwrap().into()
}

fn record(name: &str) -> String {
    fs::read_to_string(repository().join("tests/records").join(name).with_extension("record")).unwrap()
}

/// A file for a test, which removes it in the end.
struct File(PathBuf);

impl File {
    fn new(name: &str, bytes: &[u8]) -> File {
        let path = Path::new(env!("CARGO_TARGET_TMPDIR")).join(name);
        fs::write(&path, bytes).unwrap();
        File(path)
    }

    fn name(&self) -> &str {
        self.0.to_str().unwrap()
    }
}

impl Drop for File {
    fn drop(&mut self) {
        let _ = fs::remove_file(&self.0);
    }
}

const CLAIM: &str = "claimer 0101f8c757d36080c0aa0c84c5fbc47816871977ba0a8a7772355db020a9aa470e4e\n";

#[test]
fn run_prints_the_state() {
    let state = "0 7 fa7525a72555612f7532c2d2d0c833cca75f7f704563168351fd39d3296082bc\n";
    Call::new(RUN, &[&store(), "3"], b"").goes_well(state);
    Call::new(RUN, &[&store(), "0003"], b"").goes_well(state);
}

#[test]
fn wrong_calls() {
    let store = &*store();
    for arguments in [&[][..], &[store], &[store, "4294967297"], &[store, "+1"], &[store, "1", "2"], &["none", "1"]] {
        Call::new(RUN, arguments, b"").fails("", "usage: run");
    }
    Call::new(REFEREE, &["case"], b"").fails("", "usage: referee");
    Call::new(REFEREE, &[], b"").fails("", "usage: referee");
    for arguments in [
        &[][..],
        &[store],
        &[store, "judge"],
        &[store, "claimer"],
        &[store, "claimer", "0"],
        &[store, "claimer", "33"],
        &[store, "claimer", "x"],
        &[store, "claimer", "1", "2"],
        &[store, "doubter", "1"],
        &["none", "doubter"],
    ] {
        Call::new(PARTY, arguments, b"").fails("", "usage: party");
    }
}

#[test]
fn bad_programs() {
    let file = File::new("five.bin", &[0; 5]);
    Call::new(RUN, &[file.name(), "1"], b"").fails("5\n", "words");
    Call::new(PARTY, &[file.name(), "claimer", "1"], b"").fails("5\n", "words");
    Call::new(PARTY, &[file.name(), "doubter"], b"").fails("5\n", "words");
}

#[test]
fn a_claimer_claims_before_it_hears() {
    Call::new(PARTY, &[&store(), "claimer", "1"], b"").goes_well(CLAIM);
    Call::new(PARTY, &[&store(), "claimer", "1"], b"case").goes_well(CLAIM);
}

#[test]
fn a_claimer_plays_to_the_end() {
    for name in ["right_claim_first_step", "right_claim_second_step", "turns_begin_anew", "no_step", "no_answer"] {
        let record = record(name);
        let (opening, rest) = record.split_at(record.find("\nclaimer").unwrap() + 1);
        let mut expected: Vec<&str> = rest.split_inclusive('\n').filter(|line| line.starts_with("claimer")).collect();
        expected.dedup();
        let mut expected = expected.concat();
        let call = Call::new(PARTY, &[&store(), "claimer", "1"], record.as_bytes());
        if name == "no_step" {
            // This one has its step to show.
            assert!(call.output.starts_with(&format!("{expected}claimer 06")));
            expected.clone_from(&call.output);
        }
        call.goes_well(&expected);
        let without_case = [opening.splitn(3, '\n').nth(2).unwrap(), rest].concat();
        Call::new(PARTY, &[&store(), "claimer", "1"], without_case.as_bytes()).goes_well(&expected);
    }
}

#[test]
fn a_doubter_plays_to_the_end() {
    let doubter = |name: &str| Call::new(PARTY, &[&store(), "doubter"], record(name).as_bytes());
    doubter("wrong_claim").goes_well("doubter 02\ndoubter 04\n");
    doubter("no_doubt").goes_well("");
    doubter("no_claim").goes_well("");
    // The claim was right: others have doubted it, and the step that is shown is its own.
    doubter("right_claim_first_step").goes_well("doubter 04\n");
    for phase in ["claiming", "doubting", "bisecting", "answering", "proving", "over"] {
        let call = doubter(&format!("refusals_while_{phase}"));
        assert_eq!((call.status, call.errors.as_str()), (Some(0), ""));
    }
}

#[test]
fn a_doubter_of_another_program_has_no_collision() {
    let file = File::new("other.bin", &[0, 7, 0, 8]);
    let record = record("right_claim_first_step");
    let call = Call::new(PARTY, &[file.name(), "doubter"], record.as_bytes());
    assert_eq!(call.output, "doubter 02\ndoubter 05\n");
    assert_eq!(call.status, Some(0));
    assert!(call.errors.contains("not this program's start"));
}

#[test]
fn a_party_ends_with_its_record() {
    let doubter = |input: &[u8]| Call::new(PARTY, &[&store(), "doubter"], input);
    doubter(b"").goes_well("");
    doubter(b"day 0").goes_well("");
    doubter(b"day 0\n").goes_well("");
    doubter(b"day 0\n\n").goes_well("");
    doubter(b"day 1\ntaken turn claimer").goes_well("");
    doubter(b"day 1\ntaken turn claimer\nday 2\ntaken won doubter\nnonsense").goes_well("");
    let long = [&[b'0'; 100_000][..], b"\n1 turn claimer\n\xff\0\n1 turn claimer\n\n1 turn claimer\n"].concat();
    doubter(&long).goes_well("");
}

#[test]
fn records_that_cannot_be() {
    let doubter = |input: &[u8]| Call::new(PARTY, &[&store(), "doubter"], input);
    doubter(b"day 0\ntaken\n").fails("", "no answer");
    doubter(b"day 0\ntaken turn claimer\nday 0\nyes").fails("", "lines 3 and 4");
    doubter(b"day 2\ntaken turn claimer\n").fails("", "refused by 4");
    doubter(b"doubter 02\ntaken turn claimer\n").fails("", "refused by 2");
    doubter(&[&[b'0'; 9999][..], b"\ntaken turn claimer\n"].concat()).fails("", "refused by 1");
    doubter(&[b"day 0\n", &[b'0'; 9999][..]].concat()).fails("", "no answer");
}
