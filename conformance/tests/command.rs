//! What the programs say and how they end: few calls are too few to judge by, a difference fails however few they are, a
//! replay shows both sides call by call, and a number that doesn't fit is an error with its line.

use conformance::compare::{self, Counts};
use conformance::generate;
use conformance::many::{fixed_lists, missing, replay_line};
use conformance::mutants::{mistakes_about_shifts, Mistake, Mutant};
use conformance::reference::Reference;
use conformance::scenario::{Call, Machine, Scenario};
use conformance::shift;
use std::io::Write;
use std::process::{Command, Stdio};

/// What the program prints, and its exit status.
fn conformance(arguments: &[&str], input: &str) -> (String, i32) {
    let mut command = Command::new(env!("CARGO_BIN_EXE_conformance"));
    command.args(arguments).stdin(Stdio::piped()).stdout(Stdio::piped()).stderr(Stdio::null());
    let mut child = command.spawn().unwrap();
    child.stdin.take().unwrap().write_all(input.as_bytes()).unwrap();
    let output = child.wait_with_output().unwrap();
    (String::from_utf8(output.stdout).unwrap(), output.status.code().unwrap())
}

#[test]
fn few_calls_are_too_few() {
    let (said, status) = conformance(&["--seed", "1", "--calls", "100"], "");
    assert_eq!(status, 3);
    assert!(said.contains("Nothing differed, but too little came up"));
    assert!(!said.contains("FAILED") && !said.contains("\npassed"));
    // After the fixed lists, those of seed 1, which are more than 100 calls.
    let mut counts = Counts::default();
    for list in fixed_lists() {
        compare::drive(&Reference, &Reference, &list, &mut counts).unwrap();
    }
    shift::drive(&Reference, &Reference, &mut counts.shifts).unwrap();
    let fixed = counts.all_calls();
    for damaged in [false, true] {
        compare::drive(&Reference, &Reference, &generate::scenario(1, damaged), &mut counts).unwrap();
    }
    assert!(counts.all_calls() - fixed > 100);
    let lines: Vec<String> = missing(&counts).iter().map(|line| format!("  {line}")).collect();
    assert!(!lines.is_empty());
    assert!(said.ends_with(&format!("(of each call the refusals, by number):\n{}\n", lines.join("\n"))));
}

#[test]
fn enough_calls_pass() {
    let (said, status) = conformance(&["--seed", "1", "--calls", "200000"], "");
    assert_eq!(status, 0);
    assert!(said.ends_with("\npassed\n"));
}

#[test]
fn a_difference_fails_however_few_the_calls() {
    let (said, status) = conformance(&["--seed", "1", "--calls", "1", "--mistake", "TailBeforeDatum"], "");
    assert_eq!(status, 1);
    assert!(said.contains("FAILED: ") && !said.contains("Nothing differed, but"));
    let (said, status) = conformance(&["--seed", "1", "--calls", "1", "--mistake", "TwelveOneRule"], "");
    assert_eq!(status, 1);
    assert!(said.contains("FAILED: comparison of a fixed list") && said.contains("refused 7, place 12 0"), "{said}");
}

#[test]
fn a_shift_that_fails_is_replayed() {
    for mistake in mistakes_about_shifts() {
        let mistake = format!("{mistake:?}");
        let (said, status) = conformance(&["--seed", "1", "--calls", "1", "--mistake", &mistake], "");
        assert_eq!(status, 1);
        assert!(said.contains("\nFAILED: SHR ") && !said.contains("Nothing differed, but"), "{said}");
        let (_, list) = said.split_once("--replay - <<'END'\n").unwrap();
        let (list, _) = list.split_once("END\n").unwrap();
        let (said, status) = conformance(&["--mistake", &mistake, "--replay", "-"], list);
        assert_eq!(status, 1);
        assert!(said.contains("\nthe sides part here: the "), "{said}");
    }
}

const LIST: &str = "\
# boot, then an event whose tail is stored before its data
program C0B1 0001 0001 0002 0000 001A 000C 0005 0000 0016 0002 0000 0800 0000 0010 0001 0201 0000 0900 0000 0F00 0000 0900 0001 1000 0000
sizes 1 1
boot
run 4
post 0 77
step
set-totals 5 6 7
step
step
";

#[test]
fn a_replay_shows_both_sides_call_by_call() {
    let scenario = Scenario::from_text(LIST).unwrap();
    let mutant = Mutant(Mistake::TailBeforeDatum);
    let (mut left, mut right) = (Machine::new(&scenario), Machine::new(&scenario));
    let mut lines = Vec::new();
    let format = Call::Format { log_pairs: 1, queue_records: 1 };
    let before = [(None, Call::Check), (None, format)];
    let list = scenario.calls.iter().enumerate().map(|(index, call)| (Some(index), call.clone()));
    for (index, call) in before.into_iter().chain(list) {
        let outcomes = left.call(&Reference, &call).zip(right.call(&mutant, &call));
        lines.push(replay_line(index, &call, outcomes.as_ref().map(|(first, second)| [first, second])));
        if matches!(outcomes, Some((first, second)) if first != second) {
            break;
        }
    }
    // The second step of the handler; the step after it isn't made.
    assert_eq!(lines.len(), 2 + scenario.calls.len() - 1);
    let (said, status) = conformance(&["--mistake", "TailBeforeDatum", "--replay", "-"], LIST);
    assert_eq!(status, 1);
    let parting = "the sides part here: the answers differ: stored, word 22 and accepted, word 15";
    assert!(said.contains(&format!("\n{}\n{parting}\n", lines.join("\n"))), "{said}");
    let (said, status) = conformance(&["--replay", "-"], LIST);
    assert_eq!(status, 0);
    assert_eq!(said.lines().filter(|line| line.contains("step ")).count(), 3);
    assert!(!said.contains("part here"));
}

/// A line of each kind whose last number is the largest that it may be, and one more than it.
const LARGEST: [(&str, &str, &str); 21] = [
    ("program C0B1", "FFFF", "10000"),
    ("sizes", "65535 65535", "65536 1"),
    ("sizes 1", "65535", "65536"),
    ("totals 0 0", "4294967295", "4294967296"),
    ("format 1", "65535", "65536"),
    ("post 0", "65535", "65536"),
    ("post", "65535 0", "65536 0"),
    ("run", "4294967295", "4294967296"),
    ("lines-check", "65535", "65536"),
    ("lines-check 0 0 65535", "65535 15 0", "65536 15 0"),
    ("raise", "65535 0", "65536 0"),
    ("raise 0", "65535", "65536"),
    ("raise 65535 65535 0 0 65535", "65535", "65536"),
    ("set-program 0", "65535", "65536"),
    ("set-store 8", "65535", "65536"),
    ("store-length", "1000000", "1000001"),
    ("program-length", "1000000", "99999999999999999999999999"),
    ("set-totals 0 0", "4294967295", "4294967296"),
    ("set-device 1 0 0 0 0 0 0 0 0 0 0 0 0 0 0 0 0 0 0 0 0 0 0 0 0", "65535", "65536"),
    ("burst", "65535 0 0 0 0 0 0 0 0", "65536 0 0 0 0 0 0 0 0"),
    ("burst 1 0 0 0 0 0 0 0", "65535", "65536"),
];

#[test]
fn a_number_that_doesnt_fit_is_an_error() {
    for (name, largest, larger) in LARGEST {
        assert!(Scenario::from_text(&format!("# a list\n\n{name} {largest}\n")).is_ok(), "{name} {largest}");
        let error = Scenario::from_text(&format!("# a list\n\n{name} {larger}\n")).unwrap_err();
        let (kind, number) = (name.split(' ').next().unwrap(), larger.split(' ').next().unwrap());
        assert!(error.starts_with(&format!("line 3, {kind}: {number} is above ")), "{error}");
    }
    let bursts = ["burst", "burst 1 2 3", "burst 1 2 3 4 5 6 7 8 9 10"];
    let posts = ["post 1", "post 1 2 3", "raise", "raise 1", "lines-check 1 -1"];
    let others = ["step 1", "run x", "run -1", "walk", "program 12 G"];
    for line in bursts.into_iter().chain(posts).chain(others) {
        let error = Scenario::from_text(&format!("boot\n{line}\n")).unwrap_err();
        assert!(error.starts_with("line 2, "), "{error}");
    }
}

#[test]
fn a_list_that_cant_be_read_is_neither_passed_nor_failed() {
    let (said, status) = conformance(&["--replay", "-"], &LIST.replace("post 0 77", "post 0 65613"));
    assert_eq!((said.as_str(), status), ("line 6, post: 65613 is above 65535\n", 2));
    assert_eq!(conformance(&["--replay", "no such file"], "").1, 2);
}
