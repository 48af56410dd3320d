//! Random cases for the two programs, each from a seed and its number: texts, right and wrong, and images, of programs
//! that the check accepts and of others. Some numbers are kept for what is as large as it may be, or larger.

pub mod damage;
pub mod limits;
pub mod texts;

use super::clauses::{Clauses, Right};
use super::programs::Program;
use crate::generate::{program, sizes, Random, Sizes};
use crate::sheet::generate::{damage as damage_words, resize};
use damage::{chance_text, damage_line, damage_lines, damage_text};
use texts::{render, source};

/// A name on the command line.
#[derive(Clone, Copy, PartialEq, Eq, Debug)]
pub enum FileArgument {
    Missing,
    Dash,
    File,
    /// No file to read, or a file to write in a folder that isn't there.
    Absent,
    /// A folder's name.
    Folder,
}

impl FileArgument {
    /// Whether it is a file's name that can't be read or written.
    pub fn is_unfit(self) -> bool {
        matches!(self, FileArgument::Absent | FileArgument::Folder)
    }
}

/// Options that there aren't.
const OTHER_OPTIONS: [&str; 6] = ["--loud", "--verbos", "--verbosely", "--verbose=1", "--helpful", "--Verbose"];

/// How a program is called.
#[derive(Clone, Copy, PartialEq, Eq, Debug)]
pub struct Invocation {
    pub help: bool,
    pub verbose: bool,
    /// Another option, before everything else or behind it.
    pub before: Option<&'static str>,
    pub behind: Option<&'static str>,
    pub input: FileArgument,
    pub output: FileArgument,
    /// A name too many.
    pub third: FileArgument,
    /// Whether a file of the output's name stands there already.
    pub old: bool,
    /// Whether the standard input is a pipe, which may be read in parts, or a file.
    pub pipe: bool,
}

impl Invocation {
    /// From standard input to standard output.
    pub const PLAIN: Invocation = Invocation {
        help: false,
        verbose: false,
        before: None,
        behind: None,
        input: FileArgument::Missing,
        output: FileArgument::Missing,
        third: FileArgument::Missing,
        old: false,
        pipe: true,
    };

    /// Whether the input comes from standard input.
    pub fn reads_standard(&self) -> bool {
        matches!(self.input, FileArgument::Missing | FileArgument::Dash)
    }

    /// Whether a program can read its input and write its output.
    pub fn works(&self) -> bool {
        !self.tells_usage() && !self.input.is_unfit() && !self.output.is_unfit()
    }

    /// Whether how the programs are called is told, and nothing else is done.
    pub fn tells_usage(&self) -> bool {
        self.help || self.before.is_some() || self.behind.is_some() || self.third != FileArgument::Missing
    }
}

#[derive(Clone, PartialEq, Debug)]
pub struct Case {
    pub program: Program,
    pub input: Vec<u8>,
    pub invocation: Invocation,
}

/// The first number of the cases at the limits, and how many numbers follow to the next of them.
pub const LIMITS: u64 = 300;
pub const LIMITS_EVERY: u64 = 2000;

/// Sizes of programs for texts: mostly small, now and then with more bodies or instructions.
fn text_sizes(random: &mut Random) -> Sizes {
    let sizes = sizes(random);
    match random.below(10) {
        0 => sizes,
        1 => Sizes { memory: random.pick(&[1, 255, 256, 1023, 1024]), body: sizes.body.min(20), ..sizes },
        _ => Sizes { tasks: sizes.tasks.min(6), events: sizes.events.min(4), body: sizes.body.min(10), ..sizes },
    }
}

/// A program that the check accepts, of any size.
pub fn checked_program(random: &mut Random) -> Vec<u16> {
    let sizes = if random.percent(60) { text_sizes(random) } else { sizes(random) };
    program(random, sizes)
}

/// A right text, and the words that it stands for.
pub fn right_text(random: &mut Random) -> (Vec<u8>, Vec<u16>) {
    let sizes = text_sizes(random);
    let words = program(random, sizes);
    let lines = source(random, &words);
    (render(random, &lines), words)
}

/// A right text with something changed, mostly one thing: its lines among each other, lines by themselves, or its
/// characters and lines as they are written. So lines are wrong by themselves, or only among the others, or both.
fn damaged_text(random: &mut Random) -> Vec<u8> {
    let sizes = text_sizes(random);
    let words = program(random, sizes);
    let mut lines = source(random, &words);
    let changes = random.pick(&[1, 1, 1, 1, 2, 2, 3, 5]);
    let (among, by_themselves) = match random.below(20) {
        0..=9 => (changes, 0),
        10..=12 => (0, changes),
        13..=15 => (changes, 1),
        _ => (0, 0),
    };
    for _ in 0..among {
        damage_lines(random, &mut lines);
    }
    for _ in 0..by_themselves {
        damage_line(random, &mut lines);
    }
    let mut text = render(random, &lines);
    if among + by_themselves == 0 || random.percent(10) {
        for _ in 0..changes {
            damage_text(random, &mut text);
        }
    }
    text
}

/// A program with one wrong instruction, wherever it stands.
fn one_wrong(random: &mut Random) -> Vec<u16> {
    let (tasks, events, body) = (random.from(1, 20), random.from(0, 16), random.from(1, 40));
    let sizes = Sizes { tasks, events, body, ..sizes(random) };
    let mut words = program(random, sizes);
    let first = 6 + 3 * (words[1] + words[2]) as usize;
    let at = first + 2 * random.below((words.len() - first) / 2);
    words[at] = random.pick(&[17, 18, 128, 255]) << 8;
    words
}

/// An image that the check mostly refuses.
fn refused_image(random: &mut Random) -> Vec<u8> {
    let mut words = checked_program(random);
    match random.below(10) {
        0..=3 => damage_words(random, &mut words),
        4 => words = one_wrong(random),
        5 => words[random.from(1, 4)] = random.pick(&[0, 17, 33, 1025, 65535]),
        6 | 7 => resize(random, &mut words),
        8 => words[5] = words[5].wrapping_add(random.pick(&[1, 2, 0xFFFF])),
        _ => return (0..random.from(0, 300)).map(|_| random.next() as u8).collect(),
    }
    let mut image = Right.image(&words);
    if random.percent(10) {
        image.push(random.next() as u8);
    }
    image
}

/// A name's argument: mostly one that can be read or written.
fn file_argument(random: &mut Random) -> FileArgument {
    match random.below(32) {
        0 => FileArgument::Absent,
        1 => FileArgument::Folder,
        2..=11 => FileArgument::Missing,
        12..=21 => FileArgument::Dash,
        _ => FileArgument::File,
    }
}

/// A command line with names or without.
fn names(random: &mut Random) -> Invocation {
    let input = file_argument(random);
    let output = if input == FileArgument::Missing { FileArgument::Missing } else { file_argument(random) };
    let (verbose, old, pipe) = (random.percent(50), random.percent(50), random.percent(50));
    Invocation { verbose, input, output, old, pipe, ..Invocation::PLAIN }
}

/// A command line with an option that there isn't, or with a name too many.
fn unfit(random: &mut Random) -> Invocation {
    let called = names(random);
    let option = Some(random.pick(&OTHER_OPTIONS));
    let named = [FileArgument::Dash, FileArgument::File];
    match random.below(3) {
        0 => Invocation { before: option, ..called },
        1 => Invocation { behind: option, ..called },
        _ => {
            let [input, output, third] = [(); 3].map(|_| random.pick(&named));
            Invocation { input, output, third, ..called }
        }
    }
}

/// How a program is called: mostly without names.
fn invocation(random: &mut Random) -> Invocation {
    match random.below(100) {
        0..=57 => Invocation { pipe: random.percent(50), ..Invocation::PLAIN },
        58 | 59 => Invocation { help: true, ..names(random) },
        60 | 61 => unfit(random),
        _ => names(random),
    }
}

/// What a program reads, by chance.
fn input(random: &mut Random) -> (Program, Vec<u8>) {
    match random.below(100) {
        0..=26 => (Program::Assemble, right_text(random).0),
        27..=74 => (Program::Assemble, damaged_text(random)),
        75..=80 => (Program::Assemble, chance_text(random)),
        81..=90 => (Program::Disassemble, Right.image(&checked_program(random))),
        _ => (Program::Disassemble, refused_image(random)),
    }
}

/// The case of a number.
pub fn case(seed: u64, number: u64) -> Case {
    let mut random = Random::new(Random::new(seed).next() ^ number);
    let limit = (number % LIMITS_EVERY).checked_sub(LIMITS).filter(|limit| *limit < limits::COUNT);
    let (program, input) = match limit {
        Some(limit) => limits::input(&mut random, limit),
        None => input(&mut random),
    };
    let mut invocation = invocation(&mut random);
    // What is at the limits is read and answered.
    if limit.is_some() && !invocation.works() {
        invocation = Invocation::PLAIN;
    }
    Case { program, input, invocation }
}
