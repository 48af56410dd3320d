//! Random cases for sheets, each from a seed and its number: program.img as a file, valid or spoilt, or as none; and a
//! schedule, aimed at cuts, with lines that can't be read. Some numbers are kept for long schedules.

use super::{machine, memory, Clauses, Right};
use crate::cases::COUNTING;
use crate::generate::{calls_with_cuts, code, program, sizes, Random, Sizes};
use crate::reference::*;
use crate::scenario::Call;

/// What stands in the folder under the name program.img.
#[derive(Clone, PartialEq, Debug)]
pub enum Image {
    File(Vec<u8>),
    Missing,
    Folder,
}

#[derive(Clone, PartialEq, Debug)]
pub struct Case {
    pub image: Image,
    pub schedule: Vec<u8>,
    /// Whether the standard input is a pipe, which may be read in parts, or a file.
    pub pipe: bool,
}

impl Case {
    /// The bytes that are read from program.img.
    pub fn image_bytes(&self) -> &[u8] {
        match &self.image {
            Image::File(bytes) => bytes,
            Image::Missing | Image::Folder => &[],
        }
    }
}

/// The first number whose schedule is long, and how many numbers follow to the next.
const LONG: u64 = 25;
const LONG_EVERY: u64 = 2000;

/// The number whose schedule has millions of lines.
const MILLIONS: u64 = 1000;

/// The most words of a program whose length fits a word.
const LONGEST: usize = 65535;

// ---------------------------------------------------------------------------------------------------------
// program.img

/// A body that adds to a word of memory: a task some number, an event its data.
fn adding(random: &mut Random, sizes: Sizes, task: bool) -> Vec<u16> {
    let k = random.below(sizes.memory);
    let (set, end) = match task {
        true => (code(SET, 0, 0, random.word() as usize), code(GO, 0, 0, random.below(sizes.tasks))),
        false => (code(MOV, 0, 0, 0), code(DONE, 0, 0, 0)),
    };
    [set, code(LOAD, 1, 0, k), code(ADD, 1, 0, 0), code(SAVE, 1, 0, k), end].concat()
}

/// A program of such bodies: each commit mostly changes the memory.
fn changing(random: &mut Random) -> (Sizes, Vec<u16>) {
    let memory = if random.percent(5) { 1024 } else { random.from(1, 6) };
    let (tasks, events) = (random.from(1, 4), random.from(0, 3));
    let sizes = Sizes { tasks, events, memory, log_pairs: 1, queue_records: 1, body: 5, exact: true, fill: false };
    let number = random.from(1, 255);
    let mut rows = Vec::new();
    let mut bodies = Vec::new();
    for body in 0..tasks + events {
        let transaction = if body < tasks { random.pick(&[0, number, number]) } else { 0 };
        rows.extend([6 + 3 * (tasks + events) + 10 * body, 5, transaction]);
        bodies.extend(adding(random, sizes, body < tasks));
    }
    let contents = [PROGRAM_MARK as usize, tasks, events, memory, random.below(tasks), 6 + rows.len() + bodies.len()];
    let front = contents.iter().chain(&rows).map(|word| *word as u16);
    (sizes, front.chain(bodies).collect())
}

/// Whether a run without cuts soon commits some bodies and changes the memory.
fn commits(words: &[u16]) -> bool {
    let mut machine = machine(&Right, &Reference, words.to_vec());
    machine.call(&Reference, &Call::Boot);
    machine.call(&Reference, &Call::Run { budget: 150 });
    machine.totals.committed >= 3 && memory(&machine).iter().any(|word| *word != 0)
}

/// A valid program for L and Q of 1, mostly one that commits.
fn valid(random: &mut Random) -> (Sizes, Vec<u16>) {
    if random.percent(35) {
        return changing(random);
    }
    loop {
        let sizes = Sizes { log_pairs: 1, queue_records: 1, ..sizes(random) };
        let words = program(random, sizes);
        if commits(&words) || random.percent(15) {
            return (sizes, words);
        }
    }
}

/// Some words of a valid program changed, those of contents and rows as often as those of bodies.
pub fn damage(random: &mut Random, words: &mut [u16]) {
    let rows_end = 6 + 3 * (words[1] + words[2]) as usize;
    for _ in 0..random.pick(&[1, 1, 1, 2, 3]) {
        let index = match random.below(4) {
            0 => random.below(6),
            1 => random.from(6, rows_end - 1),
            _ => random.from(rows_end, words.len() - 1),
        };
        let old = words[index];
        words[index] = match random.below(7) {
            0 => old.wrapping_add(1),
            1 => old.wrapping_sub(1),
            2 => old ^ (1 << random.below(16)),
            3 => random.pick(&[0, 16, 17, 32, 33, 255, 256, 257, 1024, 1025, STORE_MARK]),
            4 => random.below(8) as u16,
            // An opcode that isn't one.
            5 => random.pick(&[17, 18, 128, 255]) << 8,
            _ => random.word(),
        };
    }
}

/// Another number of words; word 5 says so, or doesn't.
pub fn resize(random: &mut Random, words: &mut Vec<u16>) {
    let rows_end = 6 + 3 * (words[1] + words[2]) as usize;
    let length = match random.below(8) {
        0 => random.below(8),
        1 => random.below(rows_end + 1),
        2 => random.below(words.len()),
        3 => words.len() - random.from(1, 3),
        4 => words.len() + random.from(1, 3),
        5 => LONGEST,
        6 => LONGEST + 1,
        // A length of 16 bits would be the old one.
        _ => LONGEST + 1 + words.len(),
    };
    let fits = length != LONGEST + 1 + words.len() && random.percent(70);
    words.resize(length, 0);
    if fits && length > 5 {
        words[5] = length as u16;
    }
}

fn bytes(words: &[u16]) -> Vec<u8> {
    words.iter().flat_map(|word| word.to_le_bytes()).collect()
}

/// program.img from a valid program, mostly as it is.
fn image(random: &mut Random, mut words: Vec<u16>) -> Image {
    let kind = random.below(100);
    match kind {
        0..=14 => damage(random, &mut words),
        15..=19 => resize(random, &mut words),
        _ => {}
    }
    let mut bytes = bytes(&words);
    match kind {
        20 => return Image::Missing,
        21 => return Image::Folder,
        22 | 23 => bytes.push(random.next() as u8),
        24 => bytes.truncate(random.below(bytes.len())),
        _ => {}
    }
    Image::File(bytes)
}

// ---------------------------------------------------------------------------------------------------------
// Schedules

/// A post's line, the digits in one case, or each in any.
fn post(random: &mut Random, event: u16, datum: u16) -> Vec<u8> {
    let way = random.below(3);
    let mut line = format!("p{event:x}{datum:04x}\n").into_bytes();
    for digit in &mut line[1..] {
        if way == 1 || way == 2 && random.percent(50) {
            digit.make_ascii_uppercase();
        }
    }
    line
}

/// A call's line. What a schedule has no line for is left out: a check, which changes nothing, and a post of an event
/// without a digit, which is refused.
fn line(random: &mut Random, call: &Call) -> Vec<u8> {
    match *call {
        Call::Boot => b"b\n".to_vec(),
        Call::Step => b"s\n".to_vec(),
        Call::Cut => b"c\n".to_vec(),
        Call::Post { event, datum } if event < 16 => post(random, event, datum),
        _ => Vec::new(),
    }
}

/// A schedule of readable lines for a program. A run has more than one.
fn readable(random: &mut Random, sizes: Sizes, words: &[u16], count: usize) -> Vec<u8> {
    let machine = machine(&Right, &Reference, words.to_vec());
    let calls = calls_with_cuts(Random::new(random.next()), sizes, machine, count);
    calls.iter().flat_map(|call| line(random, call)).collect()
}

/// A line that can't be read, without its line feed.
fn unread(random: &mut Random) -> Vec<u8> {
    let call = random.pick(&[&b"b"[..], b"s", b"c", b"p01234", b"p0aBcD"]);
    let at = random.below(call.len());
    let digit = random.from(1, 5);
    let long = random.pick(&[2, 3, 1000, 100_000]);
    let replaced = |byte: u8| [&b"p01234"[..digit], &[byte], &b"p01234"[digit + 1..]].concat();
    let inserted = |byte: u8| [&call[..at], &[byte], &call[at..]].concat();
    match random.below(15) {
        0 => Vec::new(),
        1 => [call, b"\r"].concat(),
        2 => inserted(b' '),
        3 => [call, b" "].concat(),
        4 => [&[call[0].to_ascii_uppercase()], &call[1..]].concat(),
        5 => call.repeat(long),
        6 => [&b"p01234"[..], &b"0".repeat(long)].concat(),
        7 => b"p01234"[..random.pick(&[1, 2, 3, 4, 5, 5])].to_vec(),
        8 => replaced(random.pick(b"/:@G`g_xX ")),
        9 => replaced(random.pick(&[0, 0x80, 0xC3, 255])),
        // A sign before the digits.
        10 => [&b"p0"[..], &[random.pick(b"+-")], b"123"].concat(),
        11 => [call, &[random.pick(&[0, 255])]].concat(),
        12 => inserted(random.pick(b"\t\r\0+0,;#")),
        13 => vec![random.pick(b"\r \0xpBSCP0")],
        _ => (0..random.from(1, 8)).map(|_| random.below(256) as u8).filter(|byte| *byte != b'\n').collect(),
    }
}

/// A line that can't be read put before a line of the schedule, or in the end; now and then nothing follows it.
fn spoil(random: &mut Random, schedule: &mut Vec<u8>) {
    let line = unread(random);
    if Right.call(&line).is_some() {
        return;
    }
    let feeds = schedule.iter().enumerate().filter(|(_, byte)| **byte == b'\n').map(|(at, _)| at + 1);
    let places: Vec<usize> = std::iter::once(0).chain(feeds).collect();
    let at = if random.percent(20) { 0 } else { random.pick(&places) };
    if random.percent(20) {
        schedule.truncate(at);
    }
    schedule.splice(at..at, [line, b"\n".to_vec()].concat());
}

/// Readable lines, spoilt or not, with or without the last line feed; or hardly any.
fn schedule(random: &mut Random, sizes: Sizes, words: &[u16]) -> Vec<u8> {
    match random.below(100) {
        0..=2 => return Vec::new(),
        3 => return b"\n".to_vec(),
        _ => {}
    }
    // Large programs get short lists.
    let count = random.from(1, if words.len() > 2000 { 60 } else { 500 });
    let mut schedule = readable(random, sizes, words, count);
    if random.percent(40) {
        spoil(random, &mut schedule);
    }
    if random.percent(30) && schedule.ends_with(b"\n") {
        schedule.pop();
    }
    schedule
}

/// At least so many lines: some readable ones again and again.
fn long(random: &mut Random, sizes: Sizes, words: &[u16], least: usize) -> Vec<u8> {
    let count = random.from(1000, 2000);
    let part = readable(random, sizes, words, count);
    let lines = part.iter().filter(|byte| **byte == b'\n').count();
    part.repeat(least / lines + 1)
}

// ---------------------------------------------------------------------------------------------------------
// Cases

/// The sizes of the counting program, L and Q.
const COUNTING_SIZES: Sizes =
    Sizes { tasks: 1, events: 1, memory: 2, log_pairs: 1, queue_records: 1, body: 5, exact: false, fill: false };

/// A program of little memory, so that the sheet isn't large, and a long schedule.
fn long_case(random: &mut Random, number: u64) -> Case {
    let (sizes, words) = match number {
        MILLIONS => (COUNTING_SIZES, COUNTING.to_vec()),
        _ => loop {
            let (sizes, words) = valid(random);
            if sizes.memory <= 8 {
                break (sizes, words);
            }
        },
    };
    let least = match number {
        MILLIONS => 2_500_000,
        LONG => 70_000,
        _ => random.from(10_000, 100_000),
    };
    let schedule = long(random, sizes, &words, least);
    Case { image: Image::File(bytes(&words)), schedule, pipe: random.percent(50) }
}

/// The case of a number.
pub fn case(seed: u64, number: u64) -> Case {
    let mut random = Random::new(Random::new(seed).next() ^ number);
    if number == MILLIONS || number % LONG_EVERY == LONG {
        return long_case(&mut random, number);
    }
    let (sizes, words) = valid(&mut random);
    let schedule = schedule(&mut random, sizes, &words);
    Case { image: image(&mut random, words), schedule, pipe: random.percent(50) }
}
