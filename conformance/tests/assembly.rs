//! Programs as text: fixed texts with fixed words, fixed words with fixed texts, a text for each mistake with its line,
//! round trips, and the comparison with other programs, which finds every mutant and passes what is right.

use conformance::assembly::counts::situations;
use conformance::assembly::generate::{checked_program, limits, right_text, LIMITS};
use conformance::assembly::mutants::MUTATIONS;
use conformance::assembly::{assemble, disassemble, Kind, KINDS};
use conformance::cases::COUNTING;
use conformance::generate::Random;
use conformance::reference::Reference;
use conformance::runtime::{Answer, Refusal, Runtime};
use std::fs::{create_dir_all, read, remove_dir_all, write, Permissions};
use std::io::Write;
use std::os::unix::fs::PermissionsExt;
use std::path::PathBuf;
use std::process::{Command, Stdio};

// ---------------------------------------------------------------------------------------------------------
// Running the program

/// A folder of its own, which goes in the end.
struct Folder(PathBuf);

impl Folder {
    fn new(name: &str) -> Folder {
        let path = std::env::temp_dir().join(format!("assembly-test-{}-{name}", std::process::id()));
        create_dir_all(&path).unwrap();
        Folder(path)
    }

    /// A file's path in it.
    fn file(&self, name: &str) -> String {
        self.0.join(name).to_str().unwrap().into()
    }
}

impl Drop for Folder {
    fn drop(&mut self) {
        remove_dir_all(&self.0).unwrap();
    }
}

/// What `assembly` prints, what it tells, and its exit status.
fn assembly(arguments: &[&str], input: &[u8]) -> (Vec<u8>, String, i32) {
    let mut command = Command::new(env!("CARGO_BIN_EXE_assembly"));
    command.args(arguments).stdin(Stdio::piped()).stdout(Stdio::piped()).stderr(Stdio::piped());
    let mut child = command.spawn().unwrap();
    // It may end before it has read its input.
    let _ = child.stdin.take().unwrap().write_all(input);
    let output = child.wait_with_output().unwrap();
    (output.stdout, String::from_utf8(output.stderr).unwrap(), output.status.code().unwrap())
}

/// What `assembly compare` says, and its exit status.
fn compare(arguments: &[&str]) -> (String, i32) {
    let (said, _, status) = assembly(&[&["compare"], arguments].concat(), b"");
    (String::from_utf8(said).unwrap(), status)
}

fn image(words: &[u16]) -> Vec<u8> {
    words.iter().flat_map(|word| word.to_le_bytes()).collect()
}

/// The words of a text, by the function and by the program.
#[track_caller]
fn gives(text: &str, words: &[u16]) {
    assert_eq!(assemble(text.as_bytes()), Ok(words.to_vec()), "{text}");
    assert_eq!(assembly(&["assemble"], text.as_bytes()), (image(words), String::new(), 0));
}

/// What is told of a text, by the function and by the program.
#[track_caller]
fn tells(text: impl AsRef<[u8]>, told: &str) {
    let text = text.as_ref();
    let mistake = assemble(text).expect_err(told);
    assert_eq!(mistake.to_string(), told, "{}", text.escape_ascii());
    assert_eq!(assembly(&["assemble"], text), (Vec::new(), format!("{told}\n"), 1));
}

/// A text's words: those of one task, whose body is given.
#[track_caller]
fn body(text: &str) -> Vec<u16> {
    let text = format!("memory 8\nentry a\ntransaction one 1\ntask a\n{text}");
    assemble(text.as_bytes()).unwrap_or_else(|mistake| panic!("{mistake}: {text}"))[9..].to_vec()
}

// ---------------------------------------------------------------------------------------------------------
// Texts

/// As `docs/ASSEMBLY.md` has it.
const COUNTING_TEXT: &str = "\
; The task adds 1 to word 0. The event saves its data in word 1.
memory 2
entry count

task count
        LOAD 0 0
        SET 1 1
        ADD 0 1
        SAVE 0 0
        GO count

event sample
        SAVE 0 1
        DONE
";

#[test]
fn the_counting_program() {
    gives(COUNTING_TEXT, &COUNTING);
    gives(COUNTING_TEXT.trim_end(), &COUNTING);
    gives(&COUNTING_TEXT.replace('\n', "\r\n"), &COUNTING);
    gives(&COUNTING_TEXT.to_uppercase(), &COUNTING);
}

#[test]
fn the_worked_example_of_programs() {
    let text = "\
; The latest sample is shown in word 1, the sum is in word 2.
memory 3
entry show
transaction sum 1

task show sum
        LOAD 0 0
        SAVE 0 1
        GO add

task add sum
        LOAD 0 2
        LOAD 1 0
        ADD 0 1
        SAVE 0 2
        GO free

task free
        GO show

event sample
        SAVE 0 0
        DONE
";
    let words = [
        0xC0B1, 3, 1, 3, 0, 0x28, 0x12, 3, 1, 0x18, 5, 1, 0x22, 1, 0, 0x24, 2, 0, 0x0800, 0, 0x0900, 1, 0x0F00, 1,
        0x0800, 2, 0x0810, 0, 0x0201, 0, 0x0900, 2, 0x0F00, 2, 0x0F00, 0, 0x0900, 0, 0x1000, 0,
    ];
    gives(text, &words);
    gives(&text.replace("show sum", "show 1").replace("GO free", "GO 2").replace("entry show", "entry 0"), &words);
}

#[test]
fn every_opcode_and_its_fields() {
    let text = "SET 1 0xFFFF\nMOV 1 2\nADD 2 3\nSUB 3 4\nAND 4 5\nOR 5 6\nXOR 6 7\nSHR 7 15\nLOAD 6 7\nSAVE 5 6\n\
                LOADX 4 3 5\nSAVEX 3 2 4\nJUMP 12\nJZ 1 13\nJLT 1 2 14\nGO 0\n";
    let words = [
        0x0010, 0xFFFF, 0x0112, 0, 0x0223, 0, 0x0334, 0, 0x0445, 0, 0x0556, 0, 0x0667, 0, 0x0770, 15, 0x0860, 7,
        0x0950, 6, 0x0A43, 5, 0x0B32, 4, 0x0C00, 12, 0x0D10, 13, 0x0E12, 14, 0x0F00, 0,
    ];
    assert_eq!(body(text), words);
    let event = "memory 1\nentry 0\ntask a\nGO 0\nevent a\nDONE";
    assert_eq!(assemble(event.as_bytes()).unwrap()[12..], [0x0F00, 0, 0x1000, 0]);
}

#[test]
fn numbers() {
    let numbers = [("0", 0), ("00", 0), ("65535", 65535), ("0000065535", 65535), ("010", 10)];
    let hex = [("0x0", 0), ("0xfFfF", 65535), ("0X00001aB", 0x1AB), ("0x10", 16)];
    for (text, value) in numbers.into_iter().chain(hex) {
        assert_eq!(body(&format!("SET 0 {text}\nGO a"))[1], value, "{text}");
    }
}

#[test]
fn words_and_names() {
    let go = [0x0F00, 0];
    // What parts words, and where; a label's colon.
    for text in ["GO a", " GO\ta\r", ",,GO,a,", "GO\r\t, a ;GO b", "go A", "GO 0x0"] {
        assert_eq!(body(text), go, "{text}");
    }
    for text in ["x:GO a", "x :GO a", " x ,\t: Go a;", "x:\ny:\nGO a", "x:,GO a"] {
        assert_eq!(body(text), go, "{text}");
    }
    // Comments have any bytes but line feeds.
    let text = b"memory 1;\0\xFF: 99999\nentry a;\ntask a\nGO a;;;$".to_vec();
    assert_eq!(assemble(&text).unwrap()[9..], go);
    // Twelve characters; no name is reserved.
    let text = "memory 1\nentry abcdefghij_2\ntransaction task 7\ntask ABCDEFGHIJ_2 task\n\
                GO: GO abcdefGHIJ_2\nevent event\nevent: DONE";
    assert_eq!(assemble(text.as_bytes()).unwrap()[6..12], [12, 1, 7, 14, 1, 0]);
}

#[test]
fn labels_and_other_names() {
    // Before and behind the jump, at it, alone, several at one instruction.
    let text =
        "first:\nsecond: JZ 0 last\nJLT 1 2 SECOND\nJUMP first\nown: JUMP own\nlast:\n; none\n\nlast2: GO a\nbehind:";
    assert_eq!(body(text), [0x0D00, 4, 0x0E12, 0, 0x0C00, 0, 0x0C00, 3, 0x0F00, 0]);
    // Each body has its own; the same name for a task, an event, a transaction and a label.
    let text = "entry x\ntask y X\nx: JUMP x\ntask x\nGO x\nevent y\nJUMP x\nmemory 1\nx: DONE\n\
                event x\nDONE\ntransaction x 255";
    let words = assemble(text.as_bytes()).unwrap();
    assert_eq!(words[..6], [0xC0B1, 2, 2, 1, 1, 28]);
    assert_eq!(words[6..18], [18, 1, 255, 20, 1, 0, 22, 2, 0, 26, 1, 0]);
    assert_eq!(words[18..], [0x0C00, 0, 0x0F00, 1, 0x0C00, 1, 0x1000, 0, 0x1000, 0]);
    // A number that no task has is no mistake of a transaction, nor is 0.
    let text = "memory 1\nentry a\ntransaction t 65535\ntransaction none 0\ntask a none\nGO a";
    assert_eq!(assemble(text.as_bytes()).unwrap()[8], 0);
}

// ---------------------------------------------------------------------------------------------------------
// Mistakes

/// A right text with so many tasks and events.
fn many(tasks: usize, events: usize) -> String {
    let tasks: String = (0..tasks).map(|number| format!("task n{number}\nGO 0\n")).collect();
    let events: String = (0..events).map(|number| format!("event n{number}\nDONE\n")).collect();
    format!("memory 1\nentry 0\n{tasks}{events}")
}

/// A text for each mistake of lines, in the order of the tables, with its line.
const MISTAKES_OF_LINES: [(&str, usize); 19] = [
    ("memory 2\nentry a$\n", 2),
    ("\n\nmemory 65536", 3),
    ("memory 2\nentry 0x\n", 2),
    ("memory 2\r\nentry abcdefghijklm", 2),
    ("\nx: a b c d e", 2),
    ("memory 2\n5: DONE", 2),
    ("memory 2\nmemorys 2\n", 2),
    ("memory 2\n\n\nentry", 4),
    ("memory 2\nevent 5", 2),
    ("memory m", 1),
    ("memory 2\nx: entry a\n", 2),
    ("task a\nx:\ny:\nX: GO a", 4),
    ("memory 2\nDONE\ntask a", 2),
    ("event e\nDONE\ntask a", 3),
    ("task a\nGO a\ntask b\ntask A", 4),
    ("memory 2\n\nMEMORY 2", 3),
    ("memory 2\nentry a\n\ntask b", 2),
    ("task a\nx: GO a\ntask b\nJUMP x", 4),
    ("transaction s 1\ntask a t\nGO a", 2),
];

/// Likewise of the text, then of rules.
fn other_mistakes() -> Vec<(String, usize)> {
    let with = |text: &str| format!("memory 2\nentry a\ntask a\n{text}\nGO a\nevent e\nDONE");
    vec![
        ("\n".repeat(65_536), 1),
        ("entry a\ntask a\nGO a\n".to_string(), 4),
        ("memory 2\ntask a\nGO a".to_string(), 3),
        (with(&"MOV 0 0\n".repeat(32_760)), 32_767),
        (many(33, 17), 67),
        (many(32, 17), 99),
        (with("").replace("memory 2", "memory 1025"), 1),
        (with("").replace("entry a", "entry 1"), 2),
        (with(&"MOV 0 0\n".repeat(256)), 3),
        (with("").replace("task a", "task a t\ntransaction t 256"), 3),
        (with("MOV 0 8"), 4),
        (with("SHR 0 16"), 4),
        (with("SAVEX 0 0 2"), 4),
        (with("JZ 0 2"), 4),
        (with("").replace("DONE", "GO a\nDONE"), 7),
        (with("GO 1"), 4),
        (with("DONE"), 4),
        (with("").replace("DONE", "JZ 0 0"), 7),
    ]
}

#[test]
fn each_mistake_with_its_line() {
    let of_lines = MISTAKES_OF_LINES.iter().map(|(text, line)| (text.to_string(), *line));
    let mistakes: Vec<(String, usize)> = of_lines.chain(other_mistakes()).collect();
    assert_eq!(mistakes.len(), KINDS.len());
    for ((kind, words), (text, line)) in KINDS.iter().zip(mistakes) {
        assert_eq!(assemble(text.as_bytes()).map_err(|mistake| mistake.kind), Err(*kind), "{words}");
        tells(&text, &format!("line {line}: {words}"));
    }
}

fn page() -> String {
    let page = read(concat!(env!("CARGO_MANIFEST_DIR"), "/../docs/ASSEMBLY.md")).unwrap();
    String::from_utf8(page).unwrap()
}

/// The tables' first column, in the page's order.
#[test]
fn the_words_of_mistakes_are_those_of_the_page() {
    let page = page();
    let (_, mistakes) = page.split_once("## Mistakes").unwrap();
    let first_columns = mistakes.lines().filter_map(|line| line.strip_prefix("| ")?.split_once(" |"));
    let words: Vec<&str> = first_columns.map(|(first, _)| first).filter(|first| *first != "Mistake").collect();
    let in_tables = KINDS.iter().filter(|(kind, _)| *kind != Kind::TextTooLarge);
    assert_eq!(words, in_tables.map(|(_, words)| *words).collect::<Vec<&str>>());
    assert!(mistakes.replace('\n', " ").contains(Kind::TextTooLarge.words()));
}

/// The lines that the page sets off.
#[test]
fn what_the_page_shows() {
    let page = page();
    let mut blocks: Vec<String> = Vec::new();
    let mut inside = false;
    for line in page.lines() {
        let shown = if line.is_empty() && inside { Some("") } else { line.strip_prefix("    ") };
        if let Some(shown) = shown {
            if !inside {
                blocks.push(String::new());
            }
            blocks.last_mut().unwrap().push_str(&format!("{shown}\n"));
        }
        inside = shown.is_some();
    }
    let blocks: Vec<String> = blocks.iter().map(|block| format!("{}\n", block.trim_end())).collect();
    assert_eq!(blocks, [COUNTING_TEXT, USAGE, COUNTING_PRINTED]);
    for words in ["`26 words written`", "`26 words read`", "`refused 5 1 1`", "`line N: `"] {
        assert!(page.contains(words), "{words}");
    }
}

/// Lines, and the mistake of reading that shows first.
const READING: [(&str, Kind); 30] = [
    ("a$ 99999", Kind::Character),
    ("a\x0Bb", Kind::Character),
    ("-1", Kind::Character),
    ("\0", Kind::Character),
    ("99999a$", Kind::NumberTooLarge),
    ("0x10000g", Kind::NumberTooLarge),
    ("655350 $", Kind::NumberTooLarge),
    ("6553a6 $", Kind::NumberMalformed),
    ("0xg", Kind::NumberMalformed),
    ("00x1", Kind::NumberMalformed),
    ("1_", Kind::NumberMalformed),
    ("0X ;", Kind::NumberMalformed),
    ("0x:", Kind::NumberMalformed),
    ("0x$", Kind::Character),
    ("abcdefghijklm$", Kind::NameTooLong),
    ("abcdefghijkl$", Kind::Character),
    ("abcdefghijklm:", Kind::NameTooLong),
    ("a b c d e:", Kind::TooManyWords),
    ("a b c d 0x:", Kind::NumberMalformed),
    ("a b c d e$", Kind::Character),
    ("a b c d e;$", Kind::TooManyWords),
    ("a b c d abcdefghijklm", Kind::NameTooLong),
    ("l: a b c d e", Kind::TooManyWords),
    ("a b:", Kind::Colon),
    ("5:", Kind::Colon),
    (":", Kind::Colon),
    ("a::", Kind::Colon),
    ("a: b:", Kind::Colon),
    ("a: :", Kind::Colon),
    ("a b : $", Kind::Colon),
];

#[test]
fn where_reading_stops() {
    for (text, kind) in READING {
        tells(text, &format!("line 1: {}", kind.words()));
    }
    tells(b"\xC3\xA4", "line 1: this character can't stand here");
    tells("a: b c d e", "line 1: no statement begins so");
}

#[test]
fn statements_word_by_word() {
    let begins = "line 1: no statement begins so";
    let count = "line 1: this statement has another number of words";
    let name = "line 1: a name is due here";
    let number = "line 1: a number is due here";
    for (text, told) in [
        ("5", begins),
        ("x: 5 5", begins),
        ("NOP", begins),
        ("memory", count),
        ("memory a b", count),
        ("transaction 5", count),
        ("task 5 6 7", count),
        ("event e t", count),
        ("DONE 0", count),
        ("GO", count),
        ("LOADX 0 0", count),
        ("MOV x", count),
        ("transaction 5 x", name),
        ("task 5 t", name),
        ("event 0", name),
        ("transaction t x", number),
        ("SET x 0", number),
        ("SET 0 x", number),
        ("MOV 0 x", number),
        ("JZ x y", number),
        ("JLT 0 x y", number),
        ("SAVEX 0 0 x", number),
    ] {
        tells(text, told);
    }
}

#[test]
fn the_first_mistake_counts() {
    // Lines by themselves, line by line; only then among the others, line by line.
    tells("entry nowhere\n$", "line 2: this character can't stand here");
    tells("entry nowhere\n\nmemory", "line 3: this statement has another number of words");
    tells("memory\n$", "line 1: this statement has another number of words");
    tells("$\nmemory", "line 1: this character can't stand here");
    tells("GO nowhere\nGO nowhere\nNOP\n:", "line 3: no statement begins so");
    tells("entry nowhere\nx:", "line 1: no task has this name");
    tells("x:\nentry nowhere", "line 1: a label stands in a body, alone or before an instruction");
    tells("memory 1\nmemory $", "line 2: this character can't stand here");
    // On a line by the table's order.
    tells("x: GO nowhere", "line 1: a label stands in a body, alone or before an instruction");
    tells("GO nowhere", "line 1: an instruction stands in a body");
    tells("task a\nx: GO a\nx: memory 1", "line 3: a label stands in a body, alone or before an instruction");
    tells("task a\nx: GO a\nx: JUMP y", "line 3: this label is taken");
    tells("task a\nevent e\ntask a t", "line 3: tasks stand before events");
    tells("task a\ntask a t", "line 2: this name is taken");
    tells("entry 0\nentry a", "line 2: this is given above");
    // Then the text, then rules.
    tells("memory\n\n", "line 1: this statement has another number of words");
    tells("task a\nGO b", "line 2: no task has this name");
    tells("memory 0\nentry 5\ntask a 300\nMOV 9 9\ntask a", "line 5: this name is taken");
    tells("task a\nMOV 9 9", "line 2: memory isn't given");
    tells("memory 0\ntask a\nMOV 9 9\n\n", "line 5: entry isn't given");
    tells("", "line 1: memory isn't given");
    // Rules as the check has them, and of one place the table's first.
    let with = |text: &str| format!("memory 2\nentry 0\n{text}");
    tells(with(""), "line 3: a program has 1 to 32 tasks");
    tells("memory 0\nentry 5\nevent e", "line 3: a program has 1 to 32 tasks");
    tells("memory 0\nentry 5\ntask a 300\nMOV 9 9", "line 1: memory has 1 to 1024 words");
    tells("entry 1\nmemory 2\ntask a 300\nMOV 9 9", "line 1: no task has this number");
    tells(with("task a 300\nGO a\nevent e"), "line 3: a transaction's number is at most 255");
    tells(with("task a 300\ntask b 300"), "line 3: a body has 1 to 256 instructions");
    tells(with("task a\nMOV 9 9\ntask b"), "line 5: a body has 1 to 256 instructions");
    tells(with("task a\nJLT 0 16 9"), "line 4: a register is 0 to 7");
    tells(with("task a\nSET 65535 0\nGO a"), "line 4: a register is 0 to 7");
    tells(with("task a\nSHR 0 16"), "line 4: SHR shifts by 0 to 15");
    tells(with("task a\nLOAD 0 2"), "line 4: the address isn't below the number of memory words");
    tells(with("task a\nJZ 0 1"), "line 4: the target isn't an instruction of this body");
    tells(with("task a\nGO 0\nevent e\nGO 5"), "line 6: GO stands only in tasks");
    tells(with("task a\nJZ 0 0"), "line 4: a body ends with JUMP, GO or DONE");
    tells(with("task a\nx: ; here\nDONE"), "line 5: DONE stands only in events");
}

#[test]
fn what_a_line_with_a_mistake_gives() {
    // One that is wrong by itself comes before all that would follow from it.
    tells("entry a\n$\ntask a", "line 2: this character can't stand here");
    tells("task a\nJUMP x\nfoo\nx: GO a", "line 3: no statement begins so");
    tells("entry a\ntask a $", "line 2: this character can't stand here");
    tells("entry a\ntask a b c", "line 2: this statement has another number of words");
    tells("task a\nJUMP x\nx: foo", "line 3: no statement begins so");
    tells("task a t\ntransaction t", "line 2: this statement has another number of words");
    tells("GO a\ntask 5", "line 2: a name is due here");
    // One that is wrong among the others gives what it says.
    tells("entry b\nevent e\ntask b", "line 3: tasks stand before events");
    tells("entry b\nx: task b", "line 2: a label stands in a body, alone or before an instruction");
    tells("task a t\nx: transaction t 1", "line 2: a label stands in a body, alone or before an instruction");
    tells("task a\nJUMP x\nx: memory 1\nGO a", "line 3: a label stands in a body, alone or before an instruction");
    tells("task a\nJUMP x\nx: task b\nGO a", "line 2: no instruction of this body has this label");
    tells("event e\nJUMP x\ntask a\nx: DONE", "line 2: no instruction of this body has this label");
}

#[test]
fn labels_behind_the_last_instruction() {
    let target = "line 4: the target isn't an instruction of this body";
    let with = |text: &str| format!("memory 1\nentry a\ntask a\n{text}");
    tells(with("JUMP x\nx:"), target);
    tells(with("JUMP X\nGO a\nx:\ny: ; and nothing"), target);
    tells(with("JZ 0 x\nGO a\nx:\ntask b\nGO a"), target);
    tells(with("JLT 0 0 x\nGO a\ntransaction t 1\nx:\ntransaction u 1\nevent e\nx: DONE"), target);
    tells(with("GO a\nevent e\nJUMP x\nx:"), "line 6: the target isn't an instruction of this body");
    // As a number it is the same, and the table's order holds.
    tells(with("JUMP 1\nx:"), target);
    tells(with("JZ 0 x\nx:"), target);
    tells(with("JZ 8 x\nx:"), "line 4: a register is 0 to 7");
    // Rules in the check's order: rows, then instructions one after the other; and all other mistakes before them.
    tells(with("JUMP x\nx:\ntask b"), "line 6: a body has 1 to 256 instructions");
    tells(with("MOV 9 0\nJUMP x\nx:"), "line 4: a register is 0 to 7");
    tells(with("JUMP x\nx:\ntask b\nGO c"), "line 7: no task has this name");
    tells("task a\nJUMP x\nx:", "line 3: memory isn't given");
    // It is a label of its own body only, and no other stands for it.
    tells(with("JUMP y\nx:"), "line 4: no instruction of this body has this label");
    tells(with("JUMP x\ntask b\nGO a\nx:"), "line 4: no instruction of this body has this label");
    tells(with("x: GO a\nx:"), "line 5: this label is taken");
    // Without a jump it is no mistake.
    assert_eq!(body("GO a\nx:\ny:\n"), [0x0F00, 0]);
    assert_eq!(body("JUMP w\nw: GO a\nx:\n"), [0x0C00, 1, 0x0F00, 0]);
}

#[test]
fn texts_at_the_limits() {
    let told = "line 1: a text has at most 1048576 bytes and 65536 lines";
    let small = "memory 1\nentry a\ntask a\nGO a";
    let lines = |count: usize| format!("{small}{}", "\n".repeat(count - 4));
    let bytes = |count: usize| format!("{small};{}", " ".repeat(count - small.len() - 1));
    assert!(assemble(lines(65_536).as_bytes()).is_ok());
    tells(lines(65_537), told);
    assert!(assemble(bytes(1_048_576).as_bytes()).is_ok());
    tells(bytes(1_048_577), told);
    tells(format!("${}", lines(65_537)), told);
    tells(format!("{}$", lines(65_536)), "line 65536: this character can't stand here");
    // 65535 words, and one more.
    let words = |front: &str, count: usize| format!("memory 1\nentry 0\n{front}{}", "DONE\n".repeat(count));
    tells(words("task a\n", 32_763), "line 3: a body has 1 to 256 instructions");
    tells(words("task a\nGO a\nevent e\n", 32_761), "line 32767: a program has at most 65535 words");
    tells(words("task a\n", 32_764), "line 32768: a program has at most 65535 words");
    // The 33rd task and the 17th event, not the last.
    tells(many(40, 0), "line 67: a program has 1 to 32 tasks");
    tells(many(2, 20), "line 39: a program has at most 16 events");
    assert!(assemble(many(32, 16).as_bytes()).is_ok());
}

// ---------------------------------------------------------------------------------------------------------
// Disassemble

/// As the page has it.
const COUNTING_PRINTED: &str = "\
memory 2
entry task0

task task0
        LOAD 0 0
        SET 1 1
        ADD 0 1
        SAVE 0 0
        GO task0

event event0
        SAVE 0 1
        DONE
";

#[test]
fn the_counting_program_printed() {
    assert_eq!(disassemble(&COUNTING).unwrap(), COUNTING_PRINTED.as_bytes());
    assert_eq!(assembly(&["disassemble"], &image(&COUNTING)), (COUNTING_PRINTED.into(), String::new(), 0));
}

const TRANSACTIONS: &str = "\
memory 1024
entry b
task a 20
x: JUMP x
task b
GO b
task c 3
SET 0 65535
l: JZ 7 m
JLT 1 2 l
LOADX 3 4 1023
m: GO a
task d 20
GO c
";

/// The same, as it is printed.
const TRANSACTIONS_PRINTED: &str = "\
memory 1024
entry task1
transaction trans3 3
transaction trans20 20

task task0 trans20
at0:    JUMP at0

task task1
        GO task1

task task2 trans3
        SET 0 65535
at1:    JZ 7 at4
        JLT 1 2 at1
        LOADX 3 4 1023
at4:    GO task0

task task3 trans20
        GO task2
";

#[test]
fn transactions_and_labels_printed() {
    let words = assemble(TRANSACTIONS.as_bytes()).unwrap();
    assert_eq!(String::from_utf8(disassemble(&words).unwrap()).unwrap(), TRANSACTIONS_PRINTED);
    gives(TRANSACTIONS_PRINTED, &words);
    // Labels of two and three digits.
    let long = format!("memory 1\nentry 0\ntask a\n{}JZ 0 10\nJUMP 255", "MOV 0 0\n".repeat(254));
    let printed = disassemble(&assemble(long.as_bytes()).unwrap()).unwrap();
    let printed = String::from_utf8(printed).unwrap();
    assert!(printed.contains("\nat10:   MOV 0 0\n"));
    assert!(printed.ends_with("\n        JZ 0 at10\nat255:  JUMP at255\n"));
}

#[test]
fn programs_that_the_check_refuses() {
    let with = |index: usize, word: u16| {
        let mut words = COUNTING;
        words[index] = word;
        words.to_vec()
    };
    for (words, told) in [
        (Vec::new(), "refused 1 0 0"),
        (with(5, 27), "refused 1 0 0"),
        (with(0, 0), "refused 2 0 0"),
        (with(1, 33), "refused 3 1 0"),
        (with(9, 0), "refused 4 1 0"),
        (with(24, 0x0200), "refused 5 1 1"),
    ] {
        assert!(disassemble(&words).is_err());
        assert_eq!(assembly(&["disassemble"], &image(&words)), (Vec::new(), format!("{told}\n"), 1));
    }
    let odd = [image(&COUNTING), vec![0]].concat();
    assert_eq!(assembly(&["disassemble"], &odd), (Vec::new(), "refused 1 0 0\n".to_string(), 1));
    assert_eq!(disassemble(&with(24, 0x0200)), Err(Refusal { number: 5, place: (1, 1) }));
}

#[test]
fn round_trips() {
    for seed in 0..1500 {
        let mut random = Random::new(seed);
        let (text, words) = right_text(&mut random);
        assert_eq!(assemble(&text), Ok(words), "seed {seed}: {}", text.escape_ascii());
        let words = checked_program(&mut random);
        assert_eq!(Reference.check(&words), Answer::Done);
        let text = disassemble(&words).unwrap();
        assert_eq!(assemble(&text), Ok(words), "seed {seed}");
    }
}

// ---------------------------------------------------------------------------------------------------------
// The two programs

#[test]
fn files_and_options() {
    let folder = Folder::new("files");
    let [text, made, printed] = ["text", "image", "printed"].map(|name| folder.file(name));
    write(&text, COUNTING_TEXT).unwrap();
    let counting = image(&COUNTING);
    assert_eq!(assembly(&["assemble", &text], b""), (counting.clone(), String::new(), 0));
    assert_eq!(assembly(&["assemble", &text, "-"], b""), (counting.clone(), String::new(), 0));
    assert_eq!(assembly(&["assemble", "-"], COUNTING_TEXT.as_bytes()), (counting.clone(), String::new(), 0));
    assert_eq!(assembly(&["assemble", &text, &made], b""), (Vec::new(), String::new(), 0));
    assert_eq!(read(&made).unwrap(), counting);
    let verbose = assembly(&["assemble", "--verbose", "-", &made], COUNTING_TEXT.as_bytes());
    assert_eq!(verbose, (Vec::new(), "26 words written\n".to_string(), 0));
    let verbose = assembly(&["disassemble", "--verbose", &made, &printed], b"");
    assert_eq!(verbose, (Vec::new(), "26 words read\n".to_string(), 0));
    assert_eq!(read(&printed).unwrap(), disassemble(&COUNTING).unwrap());
    // A mistake leaves the output as it was.
    let mistake = assembly(&["assemble", "--verbose", "-", &made], b"memory");
    assert_eq!(mistake, (Vec::new(), "line 1: this statement has another number of words\n".to_string(), 1));
    assert_eq!(read(&made).unwrap(), counting);
    let refused = assembly(&["disassemble", &text, &folder.file("new")], b"");
    assert_eq!(refused, (Vec::new(), "refused 1 0 0\n".to_string(), 1));
    assert!(read(folder.file("new")).is_err());
}

/// As the page has it.
const USAGE: &str = "\
assemble [--verbose] [TEXT [IMAGE]]
disassemble [--verbose] [IMAGE [TEXT]]
";

#[test]
fn help_and_what_cant_be_called() {
    let folder = Folder::new("help");
    let [text, made] = ["text", "image"].map(|name| folder.file(name));
    write(&text, COUNTING_TEXT).unwrap();
    for program in ["assemble", "disassemble"] {
        for rest in [&["--help"][..], &["--help", "--verbose"], &["--help", &text, &made], &[&text, &made, "--help"]] {
            let said = assembly(&[&[program], rest].concat(), b"memory");
            assert_eq!(said, (USAGE.into(), String::new(), 0), "{program} {rest:?}");
        }
        let unfit: [&[&str]; 6] = [
            &["--loud"],
            &["-v"],
            &["--verbose", "--loud", &text, &made],
            &[&text, &made, "--loud"],
            &["-", "-", "-"],
            &["--verbose", &text, &made, &made],
        ];
        for rest in unfit {
            let said = assembly(&[&[program], rest].concat(), COUNTING_TEXT.as_bytes());
            assert_eq!(said, (Vec::new(), USAGE.into(), 2), "{program} {rest:?}");
        }
    }
    assert!(read(&made).is_err());
    assert_eq!(assembly(&[], b"").2, 2);
    assert_eq!(assembly(&["assembled"], b"").2, 2);
}

#[test]
fn files_that_cant_be_read_or_written() {
    let folder = Folder::new("unfit_files");
    let [text, made, nowhere] = ["text", "image", "no folder/image"].map(|name| folder.file(name));
    let place = folder.0.to_str().unwrap();
    write(&text, COUNTING_TEXT).unwrap();
    for rest in [[nowhere.as_str(), &made], [place, &made], [&text, &nowhere], [&text, place]] {
        let (printed, told, status) = assembly(&[&["assemble", "--verbose"], &rest[..]].concat(), b"");
        assert!(printed.is_empty() && told.ends_with('\n') && status == 2, "{rest:?}: {told}");
        assert!(rest.iter().any(|name| told.contains(name)), "{told}");
    }
    assert!(read(&made).is_err());
    // With a mistake nothing is to be written.
    let mistake = assembly(&["assemble", "-", &nowhere], b"memory");
    assert_eq!(mistake, (Vec::new(), "line 1: this statement has another number of words\n".to_string(), 1));
    let refused = assembly(&["disassemble", &text, place], b"");
    assert_eq!(refused, (Vec::new(), "refused 1 0 0\n".to_string(), 1));
}

// ---------------------------------------------------------------------------------------------------------
// The comparison

/// The words behind a line of what was said.
fn behind<'a>(said: &'a str, line: &str) -> &'a str {
    said.split_once(line).unwrap_or_else(|| panic!("{line} isn't in {said}")).1.trim_start().lines().next().unwrap()
}

/// The folder that a failure leaves.
fn left(said: &str) -> Folder {
    Folder(behind(said, "the input, and what each side left of it:\n").into())
}

#[test]
fn every_mutant_is_found() {
    for mutation in MUTATIONS {
        let name = format!("{mutation:?}");
        let (said, status) = compare(&["--mistake", &name, "--count", "3000"]);
        assert_eq!(status, 1, "{name}: {said}");
        println!("{name}: {}", behind(&said, "FAILED: the programs differ, seed 1, "));
        drop(left(&said));
        // The command line repeats the difference.
        let again: Vec<&str> = behind(&said, "this case again:\n").split(' ').skip(2).collect();
        let (said, status) = compare(&again);
        assert_eq!(status, 1, "{name}: {said}");
        drop(left(&said));
    }
}

#[test]
fn the_right_programs_pass() {
    let (said, status) = compare(&["--count", "4000"]);
    assert_eq!(status, 0, "{said}");
    assert!(said.ends_with("\npassed\n"));
    let (said, status) = compare(&["--case", "7"]);
    assert_eq!(status, 0);
    assert!(said.contains("case 7: the programs write the same"));
}

/// An executable file with these lines of the shell.
fn script(folder: &Folder, name: &str, lines: &str) -> String {
    let path = folder.0.join(name);
    write(&path, format!("#!/bin/sh\n{lines}\n")).unwrap();
    std::fs::set_permissions(&path, Permissions::from_mode(0o755)).unwrap();
    path.to_str().unwrap().into()
}

/// This side's own programs behind scripts.
fn own(folder: &Folder) -> [String; 2] {
    ["assemble", "disassemble"]
        .map(|name| script(folder, name, &format!("exec {} {name} \"$@\"", env!("CARGO_BIN_EXE_assembly"))))
}

#[test]
fn other_programs_in_few_cases() {
    let folder = Folder::new("others");
    let [one, two] = own(&folder);
    let (said, status) = compare(&[&one, &two, "--count", "120"]);
    assert_eq!(status, 3, "{said}");
    let (_, missing) = said.split_once("Never came up:\n").unwrap();
    let listed = situations();
    assert!(missing.lines().all(|line| listed.contains(&line.trim().to_string())));
    // The cases at the limits, one by one.
    for number in LIMITS..LIMITS + limits::COUNT {
        let (said, status) = compare(&[&one, &two, "--case", &number.to_string()]);
        assert_eq!(status, 0, "{said}");
    }
    // Without them too little comes up.
    let (said, _) = compare(&["--count", "20"]);
    assert!(said.contains(&format!("\n  told: {}\n", Kind::TextTooLarge.words())));
}

#[test]
fn other_programs_that_are_wrong() {
    let folder = Folder::new("wrong");
    let [one, two] = own(&folder);
    let wrong = [
        ("exec true", "standard"),
        ("exec yes", "standard"),
        ("exec sleep 60", "the program doesn't end in time"),
        (&format!("{} assemble \"$@\"; kill -9 $$", env!("CARGO_BIN_EXE_assembly")), "the program ends by a signal"),
        (&format!("{} assemble \"$@\"; echo more >&2", env!("CARGO_BIN_EXE_assembly")), "standard error"),
    ];
    for (line, expected) in wrong {
        let program = script(&folder, "wrong", line);
        let (said, status) = compare(&[&program, &two, "--case", "0", "--limit", "1"]);
        assert_eq!(status, 1, "{line}: {said}");
        assert!(said.contains(expected), "{said}");
        assert!(behind(&said, "this case again:\n").ends_with(" --seed 1 --case 0"));
        drop(left(&said));
    }
    // What disassemble prints counts, too, where a text is accepted.
    let (said, status) = compare(&[&one, &script(&folder, "wrong", "exec cat"), "--count", "20"]);
    assert_eq!(status, 1, "{said}");
    drop(left(&said));
}

#[test]
fn what_cant_be_read_or_run() {
    assert_eq!(compare(&["no such program", "nor this"]).1, 2);
    assert_eq!(compare(&["--count", "many"]).1, 2);
    assert_eq!(compare(&["--mistake", "None"]).1, 2);
    assert_eq!(compare(&["--count"]).1, 2);
    let folder = Folder::new("unfit");
    let [one, two] = own(&folder);
    assert_eq!(compare(&[&one, &two, "--mistake", "HighByteFirst"]).1, 2);
    write(folder.file("text"), "no program").unwrap();
    assert_eq!(compare(&[&folder.file("text"), &two, "--count", "1"]).1, 2);
}
