//! Texts and images as large as they may be, or larger.

use super::texts::{render, source};
use crate::assembly::clauses::{Clauses, Right};
use crate::assembly::programs::Program;
use crate::generate::{program, Random, Sizes};

/// The most bytes and lines of a text, and the most words of a program.
const BYTES: usize = 1_048_576;
const LINES: usize = 65_536;
const WORDS: usize = 65_535;

/// How many there are.
pub const COUNT: u64 = 22;

const SMALL: &str = "memory 1\nentry a\ntask a\nGO a\n";

/// A right text with so many lines: the last are empty.
fn with_lines(lines: usize) -> Vec<u8> {
    let here = SMALL.matches('\n').count() + 1;
    (SMALL.to_string() + &"\n".repeat(lines - here)).into_bytes()
}

/// A right text with so many bytes: the last line is a comment.
fn with_bytes(bytes: usize) -> Vec<u8> {
    (SMALL.to_string() + &";".repeat(bytes - SMALL.len())).into_bytes()
}

/// A text of one task, or of a task and an event, whose program has so many words.
fn with_words(words: usize) -> Vec<u8> {
    let (front, rows) = match words % 2 {
        1 => ("memory 1\nentry 0\ntask a\n", 9),
        _ => ("memory 1\nentry 0\ntask a\nGO a\nevent a\n", 14),
    };
    (front.to_string() + &"DONE\n".repeat((words - rows) / 2)).into_bytes()
}

/// A text of so many tasks or events without instructions.
fn with_bodies(kind: &str, count: usize) -> Vec<u8> {
    let bodies: String = (0..count).map(|number| format!("{kind} n{number}\n")).collect();
    format!("memory 1\nentry 0\n{bodies}").into_bytes()
}

/// A text with a very long line: blanks, a number's zeros, a name.
fn with_long_line(random: &mut Random) -> Vec<u8> {
    let length = random.pick(&[4096, 65_535, 65_536, 300_000]);
    let zeros = "0".repeat(length);
    match random.below(5) {
        0 => format!("memory {zeros}1\nentry a\ntask a\nGO 0x{zeros}"),
        1 => format!("memory{}1\nentry a\ntask a\nGO a", " ".repeat(length)),
        2 => format!("memory 0x{zeros}10000\n"),
        3 => format!("memory 1\nentry {}\n", "a".repeat(length)),
        _ => format!("memory 1\nentry 0{}", " 0".repeat(length)),
    }
    .into_bytes()
}

/// The largest program there is.
fn largest(random: &mut Random) -> Vec<u16> {
    let sizes = Sizes {
        tasks: 32,
        events: 16,
        memory: 1024,
        log_pairs: 64,
        queue_records: 32,
        body: 256,
        exact: true,
        fill: false,
    };
    program(random, sizes)
}

fn text(random: &mut Random, limit: u64) -> Vec<u8> {
    match limit {
        0 => with_lines(LINES),
        1 => with_lines(LINES + 1),
        2 => with_bytes(BYTES),
        3 => with_bytes(BYTES + 1),
        // Both, and with a mistake in line 1 and in the last.
        4 => [b"$", with_lines(LINES + 1).as_slice(), b"$"].concat(),
        5 => [b"$", with_bytes(BYTES).as_slice()].concat(),
        6 => with_words(WORDS),
        7 => with_words(WORDS + 1),
        8 => with_words(WORDS + 2),
        9 => with_bodies("task", (WORDS - 6) / 3),
        10 => with_bodies("task", (WORDS - 6) / 3 + 1),
        11 => with_bodies("event", (WORDS - 6) / 3 + 1),
        // Too long, and nothing given.
        12 => with_words(WORDS + 1)["memory 1\nentry 0\n".len()..].to_vec(),
        // Too many lines, the last of them without a line feed.
        13 => [with_lines(LINES).as_slice(), b"\nDONE"].concat(),
        14 => [with_lines(LINES).as_slice(), b"DONE"].concat(),
        15 | 16 => with_long_line(random),
        _ => {
            let words = largest(random);
            let lines = source(random, &words);
            render(random, &lines)
        }
    }
}

/// What a program reads.
pub fn input(random: &mut Random, limit: u64) -> (Program, Vec<u8>) {
    let words = match limit {
        18 => largest(random),
        // Longer than a word can say: word 5 is the length modulo 65536.
        19 => vec![0; WORDS + 1],
        20 => [vec![0xC0B1, 1, 0, 1, 0, 11, 9, 1, 0, 0x0F00, 0], vec![0; WORDS + 1]].concat(),
        21 => [vec![0xC0B1, 1, 0, 1, 0, 65535, 9, 1, 0, 0x0F00, 0], vec![0; WORDS - 11]].concat(),
        _ => return (Program::Assemble, text(random, limit)),
    };
    (Program::Disassemble, Right.image(&words))
}
