//! Exam sheets: cases with fixed sheets, and the comparison with another program, which finds every mistake, leaves what
//! repeats it, and passes what is right.

use conformance::cases::COUNTING;
use conformance::reference::Reference;
use conformance::sheet::counts::SITUATIONS;
use conformance::sheet::mutants::MISTAKES;
use conformance::sheet::sheet;
use std::fs::{create_dir, create_dir_all, read, remove_dir_all, write, Permissions};
use std::io::Write;
use std::os::unix::fs::PermissionsExt;
use std::path::{Path, PathBuf};
use std::process::{Command, Stdio};

/// A folder of its own, which goes in the end.
struct Folder(PathBuf);

impl Folder {
    fn new(name: &str) -> Folder {
        let path = std::env::temp_dir().join(format!("sheets-test-{}-{name}", std::process::id()));
        create_dir_all(&path).unwrap();
        Folder(path)
    }
}

impl Drop for Folder {
    fn drop(&mut self) {
        remove_dir_all(&self.0).unwrap();
    }
}

/// What `sheets` prints in a folder, and its exit status.
fn sheets(folder: &Path, arguments: &[&str], input: &[u8]) -> (Vec<u8>, i32) {
    let mut command = Command::new(env!("CARGO_BIN_EXE_sheets"));
    command.args(arguments).current_dir(folder).stdin(Stdio::piped()).stdout(Stdio::piped()).stderr(Stdio::null());
    let mut child = command.spawn().unwrap();
    // It may end before it has read its input.
    let _ = child.stdin.take().unwrap().write_all(input);
    let output = child.wait_with_output().unwrap();
    (output.stdout, output.status.code().unwrap())
}

/// What `sheets compare` says, and its exit status.
fn compare(arguments: &[&str]) -> (String, i32) {
    let (said, status) = sheets(&std::env::temp_dir(), &[&["compare"], arguments].concat(), b"");
    (String::from_utf8(said).unwrap(), status)
}

fn image(words: &[u16]) -> Vec<u8> {
    words.iter().flat_map(|word| word.to_le_bytes()).collect()
}

/// The counting program with some words changed.
fn with(changes: &[(usize, u16)]) -> Vec<u8> {
    let mut words = COUNTING;
    for (index, word) in changes {
        words[*index] = *word;
    }
    image(&words)
}

/// A sheet with these lines under the header, from the function and as printed.
#[track_caller]
fn prints(image: &[u8], schedule: &str, lines: &[&str]) {
    let text: String = lines.iter().map(|line| format!("{line}\n")).collect();
    let text = format!("call memory\n{text}");
    let made = sheet(&Reference, image, schedule.as_bytes());
    assert_eq!(String::from_utf8(made).unwrap(), text);
    let line = std::panic::Location::caller().line();
    let folder = Folder::new(&format!("prints-{line}-{}-{}", image.len(), schedule.len()));
    write(folder.0.join("program.img"), image).unwrap();
    assert_eq!(sheets(&folder.0, &["print"], schedule.as_bytes()), (text.into_bytes(), 0));
}

#[test]
fn the_example_of_n1() {
    let schedule = format!("b\n{}c\nb\n{}c\n", "s\n".repeat(9), "s\n".repeat(10));
    prints(&image(&COUNTING), &schedule, &["11 0000 0000", "23 0001 0000"]);
    prints(&image(&COUNTING), schedule.trim_end(), &["11 0000 0000", "23 0001 0000"]);
}

#[test]
fn programs_that_the_check_refuses() {
    for schedule in ["", "b\nc\n", "B\n"] {
        prints(&[], schedule, &["0 refused 1 0 0"]);
        prints(&with(&[(1, 33)]), schedule, &["0 refused 3 1 0"]);
        prints(&with(&[(24, 0x0200)]), schedule, &["0 refused 5 1 1"]);
        let odd = [image(&COUNTING), vec![0]].concat();
        prints(&odd, schedule, &["0 refused 1 0 0"]);
        prints(&odd[..odd.len() - 2], schedule, &["0 refused 1 0 0"]);
    }
}

#[test]
fn a_file_that_is_missing_or_cant_be_read_is_empty() {
    let folder = Folder::new("missing");
    let empty = sheet(&Reference, &[], b"c\n");
    assert_eq!(sheets(&folder.0, &["print"], b"c\n").0, empty);
    create_dir(folder.0.join("program.img")).unwrap();
    assert_eq!(sheets(&folder.0, &["print"], b"c\n").0, empty);
}

#[test]
fn calls_that_cant_be_read() {
    let counting = image(&COUNTING);
    prints(&counting, "", &[]);
    for line in ["", "B", "b\r", " b", "bb", "p", "p0123", "p012345", "p0 123", "p0+123", "p0g000", "P01234", "\0"] {
        prints(&counting, &format!("{line}\nc\n"), &["1 unread"]);
        prints(&counting, &format!("c\nc\n{line}\n"), &["1 0000 0000", "2 0000 0000", "3 unread"]);
    }
    prints(&counting, "c\n\n", &["1 0000 0000", "2 unread"]);
}

#[test]
fn calls_that_are_refused() {
    let counting = image(&COUNTING);
    let schedule = "s\np00000\nb\nb\np10000\np00001\ns\np00002\ns\ns\ns\np00003\nc\ns\nb\n";
    let lines = [
        "1 refused 22 0 0",
        "2 refused 22 0 0",
        "4 refused 26 0 0",
        "5 refused 8 0 0",
        "8 refused 20 0 0",
        "12 refused 21 0 0",
        "13 0000 0000",
        "14 refused 22 0 0",
    ];
    prints(&counting, schedule, &lines);
    // LOADX of word 1 + 1, and SAVE to words 1 and 0 with L 1.
    let outside = with(&[(16, 0x0A01), (17, 1)]);
    prints(&outside, &format!("b\n{}c\n", "s\n".repeat(5)), &["5 refused 23 0 0", "6 refused 23 0 0", "7 0000 0000"]);
    let two = with(&[(16, 0x0900), (17, 1)]);
    prints(&two, &format!("b\n{}c\n", "s\n".repeat(6)), &["7 refused 24 0 0", "8 0000 0000"]);
}

#[test]
fn dropped_records() {
    // Calls 2 to 5 accept an event; the second post drops it, and its fourth step says so.
    let schedule = "b\np0ABCD\ns\ns\ns\np01234\ns\ns\ns\ns\nc\n";
    prints(&image(&COUNTING), schedule, &["10 dropped 0 43981", "11 0000 0000"]);
    // Twice in a row, and the record that is left runs.
    let again = format!("{}b\np0FFFF\n{}c\n", schedule, "s\n".repeat(4 + 9));
    let lines = ["10 dropped 0 43981", "11 0000 0000", "17 dropped 0 4660", "27 0000 FFFF"];
    prints(&image(&COUNTING), &again, &lines);
    // A cut after the head store: both records are lost, and no line names them.
    let cut = format!("b\np0ABCD\ns\ns\ns\np01234\ns\nc\nb\n{}c\n", "s\n".repeat(10));
    prints(&image(&COUNTING), &cut, &["8 0000 0000", "20 0001 0000"]);
    // Once the event has begun nothing is dropped.
    let begun = "b\np0ABCD\ns\ns\ns\ns\np01234\nc\n";
    prints(&image(&COUNTING), begun, &["7 refused 21 0 0", "8 0000 0000"]);
    // Event 10 of 16.
    let mut many = vec![0xC0B1, 1, 16, 1, 0, 0, 57, 1, 0];
    many.extend((0..16).flat_map(|event| [59 + 2 * event, 1, 0]));
    many.extend([0x0F00, 0]);
    many.extend((0..16).flat_map(|_| [0x1000, 0]));
    many[5] = many.len() as u16;
    prints(&image(&many), "b\npa000B\ns\ns\ns\npc0000\ns\ns\ns\ns\n", &["10 dropped 10 11"]);
}

#[test]
fn data_digits_are_of_either_case() {
    let schedule = format!("b\np0aBcD\n{}c\n", "s\n".repeat(9));
    prints(&image(&COUNTING), &schedule, &["12 0000 ABCD"]);
}

/// The words behind a line of what was said.
fn behind<'a>(said: &'a str, line: &str) -> &'a str {
    said.split_once(line).unwrap_or_else(|| panic!("{line} isn't in {said}")).1.trim_start().lines().next().unwrap()
}

#[test]
fn every_mistake_is_found() {
    for mistake in MISTAKES {
        let name = format!("{mistake:?}");
        let (said, status) = compare(&["--mistake", &name, "--count", "1000"]);
        assert_eq!(status, 1, "{name}: {said}");
        println!("{name}: {}", behind(&said, "FAILED: the sheets differ, seed 1, "));
        // The files repeat the difference.
        let left = Folder(behind(&said, "the sheets right and printed:\n").into());
        let schedule = read(left.0.join("schedule")).unwrap();
        let [right, printed] = ["right", "printed"].map(|name| read(left.0.join(name)).unwrap());
        assert_ne!(right, printed);
        assert_eq!(sheets(&left.0, &["print"], &schedule).0, right);
        assert_eq!(sheets(&left.0, &["print", "--mistake", &name], &schedule).0, printed);
        // So does the command line.
        let again: Vec<&str> = behind(&said, "this case again:\n").split(' ').skip(2).collect();
        let (said, status) = compare(&again);
        assert_eq!(status, 1);
        drop(Folder(behind(&said, "the sheets right and printed:\n").into()));
    }
}

#[test]
fn the_right_sheets_pass() {
    let (said, status) = compare(&["--count", "2500"]);
    assert_eq!(status, 0, "{said}");
    assert!(said.ends_with("\npassed\n"));
    let (said, status) = compare(&["--case", "7"]);
    assert_eq!(status, 0);
    assert!(said.contains("case 7: the sheets are the same"));
}

/// An executable file with these lines of the shell.
fn script(folder: &Folder, lines: &str) -> String {
    let path = folder.0.join("script");
    write(&path, format!("#!/bin/sh\n{lines}\n")).unwrap();
    std::fs::set_permissions(&path, Permissions::from_mode(0o755)).unwrap();
    path.to_str().unwrap().into()
}

#[test]
fn another_program_in_few_cases() {
    let folder = Folder::new("another");
    let program = script(&folder, &format!("exec {} print", env!("CARGO_BIN_EXE_sheets")));
    let (said, status) = compare(&[&program, "--count", "3"]);
    assert_eq!(status, 3);
    let (_, missing) = said.split_once("Never came up:\n").unwrap();
    assert!(missing.lines().all(|line| SITUATIONS.contains(&line.trim())));
    assert!(missing.contains("  1000000 lines or more\n"));
}

#[test]
fn programs_that_dont_print_a_sheet() {
    let folder = Folder::new("none");
    let wrong = [("exec true", "\"\""), ("exec yes", "y\\n"), ("exec sleep 60", "doesn't end within 1 s")];
    for (line, expected) in wrong {
        let program = script(&folder, line);
        let (said, status) = compare(&[&program, "--count", "1", "--limit", "1"]);
        assert_eq!(status, 1, "{line}");
        assert!(said.contains(expected), "{said}");
        drop(Folder(behind(&said, "the sheets right and printed:\n").into()));
    }
    // Right bytes, and then a signal.
    let own = env!("CARGO_BIN_EXE_sheets");
    let (said, status) = compare(&[&script(&folder, &format!("{own} print; kill -9 $$")), "--count", "1"]);
    assert_eq!(status, 1);
    assert!(said.contains("the sheets are the same, but the program ends by signal: 9"), "{said}");
    drop(Folder(behind(&said, "the sheets right and printed:\n").into()));
}

#[test]
fn what_cant_be_read_or_run() {
    assert_eq!(compare(&["no such program"]).1, 2);
    assert_eq!(compare(&["--count", "many"]).1, 2);
    assert_eq!(compare(&["--mistake", "None"]).1, 2);
    assert_eq!(compare(&["--count"]).1, 2);
    let folder = Folder::new("unfit");
    write(folder.0.join("text"), "no program").unwrap();
    assert_eq!(compare(&[folder.0.join("text").to_str().unwrap()]).1, 2);
}
