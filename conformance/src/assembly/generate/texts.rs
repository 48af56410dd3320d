//! Right texts: a program's words written with names, labels, comments and whatever parts words.

use crate::assembly::among::is_jump;
use crate::assembly::printing::{instruction, rows, Row};
use crate::assembly::statements::{Field, OPCODES};
use crate::generate::Random;
use crate::reference::GO;

/// A line without what parts its words, and without its comment.
#[derive(Clone, PartialEq, Debug, Default)]
pub struct SourceLine {
    pub label: Option<String>,
    pub words: Vec<String>,
}

impl SourceLine {
    pub fn new(words: Vec<String>) -> SourceLine {
        SourceLine { label: None, words }
    }
}

// ---------------------------------------------------------------------------------------------------------
// Words

/// Names that stand for something else, or look like it.
const TELLING_NAMES: [&str; 24] = [
    "task",
    "event",
    "memory",
    "entry",
    "transaction",
    "SET",
    "GO",
    "JUMP",
    "DONE",
    "load",
    "JLT",
    "at0",
    "at1",
    "task0",
    "event0",
    "trans1",
    "_",
    "__",
    "x",
    "x10",
    "a",
    "F",
    "e5",
    "label",
];

const LETTERS: &[u8] = b"abcdefghijklmnopqrstuvwxyzABCDEFGHIJKLMNOPQRSTUVWXYZ_";
const NAME_CHARACTERS: &[u8] = b"abcdefghijklmnopqrstuvwxyzABCDEFGHIJKLMNOPQRSTUVWXYZ_0123456789";

fn characters(random: &mut Random, from: &[u8], count: usize) -> String {
    (0..count).map(|_| char::from(random.pick(from))).collect()
}

/// A name of one to twelve characters.
pub fn name(random: &mut Random) -> String {
    match random.below(10) {
        0 | 1 => random.pick(&TELLING_NAMES).to_string(),
        2 => {
            let more = random.from(0, 4);
            random.pick(&["counting", "sample_o"]).to_string() + &characters(random, NAME_CHARACTERS, more)
        }
        _ => {
            let more = random.from(0, 11);
            characters(random, LETTERS, 1) + &characters(random, NAME_CHARACTERS, more)
        }
    }
}

/// A name that none of these is; now and then it differs from one in its last character only.
pub fn fresh(random: &mut Random, taken: &[String]) -> String {
    loop {
        let mut made = name(random);
        if !taken.is_empty() && random.percent(20) {
            made = random.pick(taken);
            if made.len() > 1 {
                made.pop();
            }
            if made.len() < 12 {
                made.push(char::from(random.pick(NAME_CHARACTERS)));
            }
        }
        if taken.iter().all(|other| !other.eq_ignore_ascii_case(&made)) {
            return made;
        }
    }
}

/// A name as it is, or with capital and small letters changed.
pub fn spelled(random: &mut Random, name: &str) -> String {
    match random.below(6) {
        0 => name.to_ascii_uppercase(),
        1 => name.to_ascii_lowercase(),
        2 => {
            let mut turned = |letter: char| match random.percent(50) {
                true => letter.to_ascii_uppercase(),
                false => letter.to_ascii_lowercase(),
            };
            name.chars().map(&mut turned).collect()
        }
        _ => name.to_string(),
    }
}

/// A number in decimal or hex, now and then with zeros before it.
pub fn number(random: &mut Random, value: usize) -> String {
    let zeros = if random.percent(10) { "0".repeat(random.from(1, 6)) } else { String::new() };
    match random.below(6) {
        0 => format!("0x{zeros}{value:x}"),
        1 => {
            let digits = format!("{value:x}");
            format!("{}{zeros}{}", random.pick(&["0x", "0X"]), spelled(random, &digits))
        }
        2 => format!("0X{zeros}{value:X}"),
        _ => format!("{zeros}{value}"),
    }
}

// ---------------------------------------------------------------------------------------------------------
// Lines

/// The names of a text.
struct Names {
    tasks: Vec<String>,
    events: Vec<String>,
    /// With their numbers.
    transactions: Vec<(String, u16)>,
}

/// So many names that differ; now and then some of other things' names.
fn some_names(random: &mut Random, count: usize, others: &[String]) -> Vec<String> {
    let mut names: Vec<String> = Vec::new();
    for _ in 0..count {
        let borrowed = (!others.is_empty() && random.percent(15)).then(|| random.pick(others));
        let is_free = |name: &String| names.iter().all(|other| !other.eq_ignore_ascii_case(name));
        let name = borrowed.filter(is_free).unwrap_or_else(|| fresh(random, &names));
        names.push(name);
    }
    names
}

fn names(random: &mut Random, rows: &[Row]) -> Names {
    let tasks = some_names(random, rows.iter().filter(|row| row.task).count(), &[]);
    let events = some_names(random, rows.len() - tasks.len(), &tasks);
    let mut numbers: Vec<u16> = rows.iter().map(|row| row.transaction).filter(|number| *number != 0).collect();
    // Numbers that no task has, whatever they are, and a number again.
    if random.percent(20) {
        numbers.push(random.pick(&[0, 1, 255, 256, 65535]));
    }
    numbers.sort();
    if random.percent(80) {
        numbers.dedup();
    }
    let names = some_names(random, numbers.len(), &tasks);
    Names { tasks, events, transactions: names.into_iter().zip(numbers).collect() }
}

/// One of these names, or the number.
fn reference(random: &mut Random, name: Option<&String>, value: usize) -> String {
    match name {
        Some(name) if random.percent(65) => spelled(random, name),
        _ => number(random, value),
    }
}

/// A task's or an event's line.
fn heading(random: &mut Random, names: &Names, row: &Row) -> SourceLine {
    let (kind, name) = match row.task {
        true => ("task", &names.tasks[row.number as usize]),
        false => ("event", &names.events[row.number as usize]),
    };
    let mut words = vec![spelled(random, kind), spelled(random, name)];
    let transactions: Vec<&String> =
        names.transactions.iter().filter(|(_, number)| *number == row.transaction).map(|(name, _)| name).collect();
    if row.task && (row.transaction != 0 || random.percent(10)) {
        let name = if transactions.is_empty() { None } else { Some(random.pick(&transactions)) };
        words.push(reference(random, name, row.transaction as usize));
    }
    SourceLine::new(words)
}

/// Each instruction's labels, and those behind the last. A jump that has one here goes by it.
struct Labels {
    of: Vec<Vec<String>>,
    jumps: Vec<Option<String>>,
}

fn labels(random: &mut Random, tasks: &[String], words: &[u16], row: &Row) -> Labels {
    let mut all: Vec<String> = Vec::new();
    let mut labels = Labels { of: vec![Vec::new(); row.count + 1], jumps: vec![None; row.count] };
    let mut new = |random: &mut Random, at: &mut Vec<String>| {
        let borrowed = random.percent(15).then(|| random.pick(tasks));
        let is_free = |name: &String| all.iter().all(|other| !other.eq_ignore_ascii_case(name));
        let label = borrowed.filter(is_free).unwrap_or_else(|| fresh(random, &all));
        all.push(label.clone());
        at.push(label);
    };
    for index in 0..row.count {
        let [opcode, _, _, k] = instruction(words, row, index);
        if is_jump(opcode) && random.percent(70) {
            let target = &mut labels.of[k as usize];
            if target.is_empty() || random.percent(30) {
                new(random, target);
            }
            labels.jumps[index] = Some(random.pick(target));
        }
    }
    for index in 0..row.count {
        if random.percent(5) {
            new(random, &mut labels.of[index]);
        }
    }
    if random.percent(6) {
        new(random, &mut labels.of[row.count]);
    }
    labels
}

/// An instruction's words.
fn instruction_words(random: &mut Random, names: &Names, code: [u16; 4], label: Option<&String>) -> Vec<String> {
    let [opcode, a, b, k] = code;
    let (opcode_name, fields) = OPCODES[opcode as usize];
    let mut words = vec![spelled(random, opcode_name)];
    for field in fields {
        words.push(match (field, label) {
            (Field::A, _) => number(random, a as usize),
            (Field::B, _) => number(random, b as usize),
            (Field::K, Some(label)) => spelled(random, label),
            (Field::K, None) if opcode == GO => reference(random, names.tasks.get(k as usize), k as usize),
            (Field::K, None) => number(random, k as usize),
        });
    }
    words
}

/// A body's lines.
fn body(random: &mut Random, names: &Names, words: &[u16], row: &Row) -> Vec<SourceLine> {
    let labels = labels(random, &names.tasks, words, row);
    let mut lines = vec![heading(random, names, row)];
    for index in 0..=row.count {
        let mut own = labels.of[index].clone();
        let before = if index < row.count && random.percent(70) { own.pop() } else { None };
        for label in own {
            lines.push(SourceLine { label: Some(spelled(random, &label)), words: Vec::new() });
        }
        if index < row.count {
            let code = instruction(words, row, index);
            let label = before.map(|label| spelled(random, &label));
            lines.push(SourceLine {
                label,
                words: instruction_words(random, names, code, labels.jumps[index].as_ref()),
            });
        }
    }
    lines
}

/// The lines of a text for these words.
pub fn source(random: &mut Random, words: &[u16]) -> Vec<SourceLine> {
    let rows = rows(words);
    let names = names(random, &rows);
    let mut lines: Vec<SourceLine> = rows.iter().flat_map(|row| body(random, &names, words, row)).collect();
    let memory = vec![spelled(random, "memory"), number(random, words[3] as usize)];
    let entry = reference(random, names.tasks.get(words[4] as usize), words[4] as usize);
    let mut front = vec![memory, vec![spelled(random, "entry"), entry]];
    for (name, value) in &names.transactions {
        let number = number(random, *value as usize);
        front.push(vec![spelled(random, "transaction"), spelled(random, name), number]);
    }
    // Before all else, or anywhere.
    let anywhere = random.percent(40);
    for words in front {
        let at = if anywhere { random.from(0, lines.len()) } else { random.below(2) };
        lines.insert(at.min(lines.len()), SourceLine::new(words));
    }
    lines
}

// ---------------------------------------------------------------------------------------------------------
// Characters

/// How a text looks.
struct Style {
    separators: &'static [&'static str],
    comments: usize,
    empty_lines: usize,
    line_end: &'static str,
}

fn style(random: &mut Random) -> Style {
    let separators: &[&[&str]] = &[
        &[" "],
        &[" ", "  ", "        "],
        &[" ", "\t", "\t\t"],
        &[" ", ", ", ","],
        &[" ", "\t", ",", "\r", " ,\t\r ", ", "],
    ];
    Style {
        separators: random.pick(separators),
        comments: random.pick(&[0, 5, 30]),
        empty_lines: random.pick(&[0, 5, 20]),
        line_end: random.pick(&["\n", "\n", "\n", "\r\n", " \r\r\n"]),
    }
}

/// A comment, with its semicolon, of any bytes but a line feed.
fn comment(random: &mut Random) -> Vec<u8> {
    let told: &[&[u8]] =
        &[b"", b" what it does", b"; ;", b": x:", b" memory 5", b"\tGO nowhere", b" 99999", b"\xC3\xA4", b"\0\xFF"];
    match random.percent(70) {
        true => [&b";"[..], random.pick(told)].concat(),
        false => {
            let bytes = (0..random.below(30)).map(|_| random.next() as u8).filter(|byte| *byte != b'\n');
            [b';'].into_iter().chain(bytes).collect()
        }
    }
}

/// A line's characters without its end.
fn line_text(random: &mut Random, style: &Style, line: &SourceLine) -> Vec<u8> {
    let mut text = Vec::new();
    let maybe = |random: &mut Random, chance: usize| match random.percent(chance) {
        true => random.pick(style.separators),
        false => "",
    };
    if let Some(label) = &line.label {
        text.extend(maybe(random, 10).bytes().chain(label.bytes()));
        text.extend(maybe(random, 20).bytes().chain(b":".iter().copied()));
        text.extend(maybe(random, 80).bytes());
    } else {
        text.extend(maybe(random, 60).bytes());
    }
    for (index, word) in line.words.iter().enumerate() {
        if index > 0 {
            text.extend(random.pick(style.separators).bytes());
        }
        text.extend(word.bytes());
    }
    if random.percent(style.comments) {
        text.extend(maybe(random, 60).bytes());
        text.extend(comment(random));
    } else {
        text.extend(maybe(random, 10).bytes());
    }
    text
}

/// The text of these lines, with empty ones between, and with or without a last line feed.
pub fn render(random: &mut Random, lines: &[SourceLine]) -> Vec<u8> {
    let style = style(random);
    let mut text = Vec::new();
    let nothing = SourceLine::default();
    for line in lines {
        while random.percent(style.empty_lines) {
            if random.percent(40) {
                text.extend(line_text(random, &style, &nothing));
            }
            text.extend(style.line_end.bytes());
        }
        text.extend(line_text(random, &style, line));
        text.extend(style.line_end.bytes());
    }
    match random.below(10) {
        0..=2 => text.truncate(text.len().saturating_sub(style.line_end.len())),
        3 => text.extend(b"\n\n"),
        4 => text.extend(line_text(random, &style, &nothing)),
        _ => {}
    }
    text
}
