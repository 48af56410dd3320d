//! Wrong texts: a right one with words, characters or lines changed, aimed at every mistake of the page; and texts of
//! words or bytes by chance.

use super::texts::{fresh, name, number, spelled, SourceLine};
use crate::assembly::clauses::{Clauses, Right};
use crate::assembly::statements::{Field, Keyword, OPCODES};
use crate::generate::Random;
use crate::reference::*;
use std::ops::Range;

// ---------------------------------------------------------------------------------------------------------
// What lines are

fn keyword(line: &SourceLine) -> Option<Keyword> {
    line.words.first().and_then(|word| Right.keyword(word))
}

fn opcode(line: &SourceLine) -> Option<u16> {
    match keyword(line)? {
        Keyword::Opcode(opcode) => Some(opcode),
        _ => None,
    }
}

fn is_body(line: &SourceLine) -> bool {
    matches!(keyword(line), Some(Keyword::Task | Keyword::Event))
}

/// One of the lines that are so.
fn pick_line(random: &mut Random, lines: &[SourceLine], is: impl Fn(&SourceLine) -> bool) -> Option<usize> {
    let indices: Vec<usize> = (0..lines.len()).filter(|index| is(&lines[*index])).collect();
    (!indices.is_empty()).then(|| random.pick(&indices))
}

/// The lines of the body that a line stands in, behind its first.
fn body_of(lines: &[SourceLine], index: usize) -> Range<usize> {
    let start = lines[..=index].iter().rposition(is_body).map_or(0, |start| start + 1);
    let end = lines[start..].iter().position(is_body).map_or(lines.len(), |end| start + end);
    start..end
}

fn instructions(lines: &[SourceLine]) -> usize {
    lines.iter().filter(|line| opcode(line).is_some()).count()
}

fn count_of(lines: &[SourceLine], first: Keyword) -> usize {
    lines.iter().filter(|line| keyword(line) == Some(first)).count()
}

/// Where all of a kind's names stand: the word behind the first.
fn names_of(lines: &[SourceLine], first: Keyword) -> Vec<String> {
    let of = lines.iter().filter(|line| keyword(line) == Some(first));
    of.filter_map(|line| line.words.get(1).cloned()).collect()
}

// ---------------------------------------------------------------------------------------------------------
// Words changed

/// Numbers at the ends of what is allowed.
const TELLING_NUMBERS: [usize; 22] =
    [0, 1, 2, 7, 8, 9, 15, 16, 17, 31, 32, 33, 255, 256, 257, 1023, 1024, 1025, 32767, 32768, 65534, 65535];

/// What is no number, or none that is small enough.
const WRONG_NUMBERS: [&str; 20] = [
    "0x",
    "0X",
    "0xg",
    "0x1g",
    "0x_",
    "1a",
    "12_",
    "0b1",
    "1x1",
    "00x1",
    "65536",
    "65536a",
    "99999",
    "0x10000",
    "0xFFFFF",
    "0x10000g",
    "065536",
    "655350",
    "6553g",
    "4294967296",
];

/// A word behind a line's first, if it has one.
fn pick_word(random: &mut Random, lines: &[SourceLine]) -> Option<(usize, usize)> {
    let line = pick_line(random, lines, |line| line.words.len() > 1)?;
    Some((line, random.from(1, lines[line].words.len() - 1)))
}

fn word_changed(random: &mut Random, lines: &mut [SourceLine]) -> Option<()> {
    let (line, word) = pick_word(random, lines)?;
    let telling = random.pick(&TELLING_NUMBERS);
    lines[line].words[word] = match random.below(5) {
        0 => name(random),
        1 => random.pick(&WRONG_NUMBERS).to_string(),
        2 => lines[line].words[random.below(lines[line].words.len())].clone(),
        _ => number(random, telling),
    };
    Some(())
}

fn register_changed(random: &mut Random, lines: &mut [SourceLine]) -> Option<()> {
    let used = |line: &SourceLine| opcode(line).map_or(&[][..], |opcode| OPCODES[opcode as usize].1);
    let line = pick_line(random, lines, |line| used(line).contains(&Field::A))?;
    let b = used(&lines[line]).contains(&Field::B) && random.percent(50);
    let register = random.pick(&[7, 8, 8, 9, 15, 16, 17, 255, 256, 65535]);
    *lines[line].words.get_mut(if b { 2 } else { 1 })? = number(random, register);
    Some(())
}

/// The words of an instruction with this k, and with a register that may not be one.
fn with_k(random: &mut Random, opcode: u16, k: usize) -> Vec<String> {
    let (name, fields) = OPCODES[opcode as usize];
    let mut words = vec![spelled(random, name)];
    for field in fields {
        let register = if random.percent(10) { random.from(8, 20) } else { random.below(8) };
        words.push(number(random, if *field == Field::K { k } else { register }));
    }
    words
}

/// An instruction whose k is at the end of what its opcode allows, or past it.
fn k_changed(random: &mut Random, lines: &mut [SourceLine]) -> Option<()> {
    let line = pick_line(random, lines, |line| opcode(line).is_some_and(|opcode| opcode < GO))?;
    let wanted = random.pick(&[SHR, SHR, LOAD, SAVE, LOADX, SAVEX, JUMP, JZ, JLT, GO]);
    let memory = pick_line(random, lines, |line| keyword(line) == Some(Keyword::Memory));
    let memory = memory.and_then(|line| lines[line].words.get(1)?.parse::<usize>().ok()).unwrap_or(8);
    let end = match wanted {
        SHR => 16,
        JUMP | JZ | JLT => instructions(&lines[body_of(lines, line)]),
        GO => count_of(lines, Keyword::Task),
        _ => memory,
    };
    let k = random.pick(&[end.saturating_sub(1), end, end, end + 1, 256, 1024, 65535]);
    lines[line].words = with_k(random, wanted, k.min(65535));
    Some(())
}

/// Several rules broken by one instruction, or by one body's row.
fn rules_broken(random: &mut Random, lines: &mut Vec<SourceLine>) -> Option<()> {
    if random.percent(20) {
        let line = pick_line(random, lines, |line| keyword(line) == Some(Keyword::Task))?;
        lines[line].words.truncate(2);
        lines[line].words.push(number(random, 256));
        let body = body_of(lines, line);
        lines.drain(body);
        return Some(());
    }
    let line = pick_line(random, lines, |line| opcode(line).is_some())?;
    let wrong =
        ["SHR 8 16", "LOAD 9 65535", "SAVEX 1 300 1024", "JLT 8 8 999", "JZ 0 256", "GO 32", "GO 65535", "MOV 8 0"];
    let last = body_of(lines, line).end - 1;
    let at = if random.percent(50) { last } else { line };
    lines[at].words = random.pick(&wrong).split(' ').map(str::to_string).collect();
    Some(())
}

/// A transaction's number, or a task's.
fn transaction_changed(random: &mut Random, lines: &mut [SourceLine]) -> Option<()> {
    let value = random.pick(&[0, 1, 255, 256, 256, 257, 512, 65535]);
    let named = |line: &SourceLine| keyword(line) == Some(Keyword::Transaction) && line.words.len() == 3;
    if let (Some(line), true) = (pick_line(random, lines, named), random.percent(50)) {
        lines[line].words[2] = number(random, value);
        return Some(());
    }
    let line = pick_line(random, lines, |line| keyword(line) == Some(Keyword::Task))?;
    lines[line].words.truncate(2);
    let word = if random.percent(30) { name(random) } else { number(random, value) };
    lines[line].words.push(word);
    Some(())
}

/// `memory` and `entry` with another word.
fn front_changed(random: &mut Random, lines: &mut [SourceLine]) -> Option<()> {
    let (wanted, tasks) = (random.pick(&[Keyword::Memory, Keyword::Entry]), count_of(lines, Keyword::Task));
    let line = pick_line(random, lines, |line| keyword(line) == Some(wanted))?;
    let value = match wanted {
        Keyword::Memory => random.pick(&[0, 0, 1, 1024, 1025, 1025, 65535]),
        _ => random.pick(&[tasks - tasks.min(1), tasks, tasks + 1, 32, 65535]),
    };
    *lines[line].words.get_mut(1)? = if random.percent(20) { name(random) } else { number(random, value) };
    Some(())
}

/// A reference by a name that nothing has, or that something else has.
fn reference_changed(random: &mut Random, lines: &mut [SourceLine]) -> Option<()> {
    let is_reference = |line: &SourceLine| match keyword(line) {
        Some(Keyword::Entry) => line.words.len() == 2,
        Some(Keyword::Task) => line.words.len() == 3,
        Some(Keyword::Opcode(JUMP | JZ | JLT | GO)) => line.words.len() > 1,
        _ => false,
    };
    let line = pick_line(random, lines, is_reference)?;
    let space = random.pick(&[Keyword::Task, Keyword::Event, Keyword::Transaction]);
    let mut known = names_of(lines, space);
    known.extend(lines.iter().filter_map(|line| line.label.clone()));
    let word = if known.is_empty() || random.percent(50) { name(random) } else { random.pick(&known) };
    *lines[line].words.last_mut()? = spelled(random, &word);
    Some(())
}

/// A name with a character changed or more characters, up to 14.
fn name_changed(random: &mut Random, lines: &mut [SourceLine]) -> Option<()> {
    let (line, word) = pick_word(random, lines)?;
    let labelled = pick_line(random, lines, |line| line.label.is_some());
    let name = match labelled {
        Some(line) if random.percent(40) => lines[line].label.as_mut()?,
        _ => &mut lines[line].words[word],
    };
    match random.below(4) {
        0 => {
            name.pop();
            name.push(char::from(random.pick(b"aZ_09")));
        }
        1 => name.push(char::from(random.pick(b"aZ_09"))),
        _ => {
            let length = random.pick(&[12, 12, 13, 13, 14]);
            while name.len() < length {
                name.push(char::from(random.pick(b"aZ_09")));
            }
        }
    }
    Some(())
}

/// The name of another task, event or transaction.
fn name_taken(random: &mut Random, lines: &mut [SourceLine]) -> Option<()> {
    let first = random.pick(&[Keyword::Task, Keyword::Event, Keyword::Transaction]);
    let names = names_of(lines, first);
    let line = pick_line(random, lines, |line| keyword(line) == Some(first) && line.words.len() > 1)?;
    let name = random.pick(&names);
    lines[line].words[1] = spelled(random, &name);
    Some(())
}

/// A number where only a name can stand.
fn number_for_name(random: &mut Random, lines: &mut [SourceLine]) -> Option<()> {
    let is_named =
        |line: &SourceLine| matches!(keyword(line), Some(Keyword::Task | Keyword::Event | Keyword::Transaction));
    let line = pick_line(random, lines, is_named)?;
    let value = random.below(40);
    *lines[line].words.get_mut(1)? = number(random, value);
    Some(())
}

/// A name, now and then a label's, where only a number can stand.
fn name_for_number(random: &mut Random, lines: &mut [SourceLine]) -> Option<()> {
    let is_number = |word: &String| word.starts_with(|first: char| first.is_ascii_digit());
    let line = pick_line(random, lines, |line| line.words.last().is_some_and(is_number))?;
    let labels: Vec<String> = lines[body_of(lines, line)].iter().filter_map(|line| line.label.clone()).collect();
    let word = if labels.is_empty() || random.percent(30) { name(random) } else { random.pick(&labels) };
    *lines[line].words.last_mut()? = word;
    Some(())
}

fn words_added(random: &mut Random, lines: &mut [SourceLine]) -> Option<()> {
    let line = pick_line(random, lines, |line| !line.words.is_empty())?;
    for _ in 0..random.pick(&[1, 1, 2, 3, 4]) {
        let at = random.from(1, lines[line].words.len());
        let word = if random.percent(50) { name(random) } else { random.below(300).to_string() };
        lines[line].words.insert(at, word);
    }
    Some(())
}

fn word_removed(random: &mut Random, lines: &mut [SourceLine]) -> Option<()> {
    let line = pick_line(random, lines, |line| !line.words.is_empty())?;
    let at = random.below(lines[line].words.len());
    lines[line].words.remove(at);
    Some(())
}

/// Another first word: another statement's, or none's.
fn first_word_changed(random: &mut Random, lines: &mut [SourceLine]) -> Option<()> {
    let line = pick_line(random, lines, |line| !line.words.is_empty())?;
    let opcode = random.pick(&OPCODES).0;
    let statement = random.pick(&["memory", "entry", "transaction", "task", "event"]);
    lines[line].words[0] = match random.below(5) {
        0 => name(random),
        1 => number(random, 5),
        2 => statement.to_string(),
        3 => random.pick(&["LOADY", "NOP", "ADDS", "SETS", "tasks", "J", "GOTO", "HALT", "OR_"]).to_string(),
        _ => opcode.to_string(),
    };
    Some(())
}

/// Five words, the last of them such that several mistakes show where it ends, or before.
fn fifth_word(random: &mut Random, lines: &mut [SourceLine]) -> Option<()> {
    let line = pick_line(random, lines, |line| !line.words.is_empty())?;
    while lines[line].words.len() < 4 {
        lines[line].words.push(random.below(8).to_string());
    }
    lines[line].words.truncate(4);
    let fifth = [
        "5",
        "a",
        "0x",
        "0x:",
        "a:",
        "5:",
        "e$",
        "0x$",
        "abcdefghijklm",
        "abcdefghijkl",
        "65536",
        "1a",
        ":",
        "0x;",
        "a;:",
    ];
    lines[line].words.push(random.pick(&fifth).to_string());
    Some(())
}

/// A colon where it can't stand, or can.
fn colon_added(random: &mut Random, lines: &mut [SourceLine]) -> Option<()> {
    let line = pick_line(random, lines, |line| !line.words.is_empty())?;
    let at = random.below(lines[line].words.len());
    let before = ["5:", "0x:", "0x5:", "5 :", "a::", "a b:", "a:b:", "a: b:", "a : b :", "a:5:"];
    match random.below(6) {
        0 => lines[line].words[at].push(':'),
        1 => lines[line].words[at].insert(0, ':'),
        2 => lines[line].words.insert(at, ":".to_string()),
        3 => lines[line].words.insert(0, name(random) + ":"),
        _ => lines[line].words.insert(0, random.pick(&before).to_string()),
    }
    Some(())
}

fn stray_added(random: &mut Random, lines: &mut [SourceLine]) -> Option<()> {
    let line = pick_line(random, lines, |line| !line.words.is_empty())?;
    let word = random.below(lines[line].words.len());
    let at = random.from(0, lines[line].words[word].len());
    if lines[line].words[word].is_char_boundary(at) {
        let stray = random.pick(&[
            '$', '-', '+', '.', '"', '\'', '#', '/', '(', '@', '[', '`', '{', '\0', '\u{B}', '\u{C}', '\u{7F}', 'ä',
        ]);
        lines[line].words[word].insert(at, stray);
    }
    Some(())
}

// ---------------------------------------------------------------------------------------------------------
// Labels changed

/// A label before a line, in a body or not, that another line may have.
fn label_added(random: &mut Random, lines: &mut [SourceLine]) -> Option<()> {
    let known: Vec<String> = lines.iter().filter_map(|line| line.label.clone()).collect();
    let line = random.below(lines.len());
    let label = if known.is_empty() || random.percent(50) { name(random) } else { random.pick(&known) };
    lines[line].label = Some(spelled(random, &label));
    Some(())
}

/// A label that its jumps no longer find.
fn label_lost(random: &mut Random, lines: &mut [SourceLine]) -> Option<()> {
    let line = pick_line(random, lines, |line| line.label.is_some())?;
    lines[line].label = None;
    Some(())
}

/// A label twice in a body.
fn label_twice(random: &mut Random, lines: &mut Vec<SourceLine>) -> Option<()> {
    let line = pick_line(random, lines, |line| line.label.is_some())?;
    let label = spelled(random, lines[line].label.clone()?.as_str());
    let body = body_of(lines, line);
    let at = random.from(body.start, body.end);
    lines.insert(at, SourceLine { label: Some(label), words: Vec::new() });
    Some(())
}

/// A jump to a label behind the body's last instruction, or of another body.
fn label_elsewhere(random: &mut Random, lines: &mut Vec<SourceLine>) -> Option<()> {
    let line = pick_line(random, lines, |line| matches!(opcode(line), Some(JUMP | JZ | JLT)))?;
    let here = body_of(lines, line);
    let labels: Vec<String> = lines.iter().filter_map(|line| line.label.clone()).collect();
    let label = fresh(random, &labels);
    *lines[line].words.last_mut()? = spelled(random, &label);
    let at = if random.percent(60) { here.end } else { random.from(0, lines.len()) };
    lines.insert(at, SourceLine { label: Some(label), words: Vec::new() });
    Some(())
}

// ---------------------------------------------------------------------------------------------------------
// Lines changed

fn line_moved(random: &mut Random, lines: &mut Vec<SourceLine>) -> Option<()> {
    let (from, to) = (random.below(lines.len()), random.below(lines.len()));
    match random.below(4) {
        0 => {
            lines.remove(from);
        }
        1 => lines.insert(to, lines[from].clone()),
        2 => lines.swap(from, to),
        _ => {
            let line = lines.remove(from);
            lines.insert(to, line);
        }
    }
    Some(())
}

/// An instruction again and again, so that its body has 255 to 258 of them.
fn line_repeated(random: &mut Random, lines: &mut Vec<SourceLine>) -> Option<()> {
    let line = pick_line(random, lines, |line| opcode(line).is_some() && line.label.is_none())?;
    let wanted = random.pick(&[255, 256, 256, 257, 257, 258]);
    let more = wanted - instructions(&lines[body_of(lines, line)]).min(wanted);
    let copies = vec![lines[line].clone(); more];
    lines.splice(line..line, copies);
    Some(())
}

/// More tasks or events: as many as may be, or more.
fn bodies_added(random: &mut Random, lines: &mut Vec<SourceLine>) -> Option<()> {
    let task = random.percent(50);
    let (first, statement, end) = match task {
        true => (Keyword::Task, "task", vec!["GO".to_string(), "0".to_string()]),
        false => (Keyword::Event, "event", vec!["DONE".to_string()]),
    };
    let wanted = random.pick(if task { &[32, 33, 34, 40] } else { &[16, 17, 17, 18, 30] });
    let at = match task {
        true => lines.iter().position(|line| keyword(line) == Some(Keyword::Event)).unwrap_or(lines.len()),
        false => lines.len(),
    };
    let mut names = names_of(lines, first);
    for _ in names.len()..wanted {
        let name = fresh(random, &names);
        let body = [vec![statement.to_string(), name.clone()], end.clone()].map(SourceLine::new);
        lines.splice(at..at, body);
        names.push(name);
    }
    Some(())
}

/// `memory` or `entry`, or both, not given.
fn front_lost(random: &mut Random, lines: &mut Vec<SourceLine>) -> Option<()> {
    let lost = random.pick(&[&[Keyword::Memory][..], &[Keyword::Entry], &[Keyword::Memory, Keyword::Entry]]);
    lines.retain(|line| keyword(line).is_none_or(|first| !lost.contains(&first)));
    Some(())
}

/// `memory` or `entry` given again.
fn front_again(random: &mut Random, lines: &mut Vec<SourceLine>) -> Option<()> {
    let line = pick_line(random, lines, |line| matches!(keyword(line), Some(Keyword::Memory | Keyword::Entry)))?;
    let at = random.from(0, lines.len());
    lines.insert(at, lines[line].clone());
    Some(())
}

/// A body without instructions.
fn body_emptied(random: &mut Random, lines: &mut Vec<SourceLine>) -> Option<()> {
    let body = pick_line(random, lines, is_body)?;
    let range = body_of(lines, body);
    let kept: Vec<SourceLine> =
        lines[range.clone()].iter().filter(|line| opcode(line).is_none() && line.label.is_none()).cloned().collect();
    lines.splice(range, kept);
    Some(())
}

/// A body whose last instruction is another one, or is missing.
fn end_changed(random: &mut Random, lines: &mut Vec<SourceLine>) -> Option<()> {
    let line = pick_line(random, lines, |line| matches!(opcode(line), Some(GO | DONE)))?;
    match random.below(4) {
        0 => {
            lines.remove(line);
        }
        1 => lines[line].words = vec!["MOV".to_string(), "0".to_string(), "1".to_string()],
        2 => lines[line].words = vec!["DONE".to_string()],
        _ => lines[line].words = vec!["GO".to_string(), random.below(40).to_string()],
    }
    Some(())
}

/// GO among an event's instructions, or DONE among a task's.
fn end_added(random: &mut Random, lines: &mut Vec<SourceLine>) -> Option<()> {
    let line = pick_line(random, lines, |line| opcode(line).is_some())?;
    let words = match random.percent(50) {
        true => vec!["GO".to_string(), random.pick(&[0, 0, 1, 32, 65535]).to_string()],
        false => vec!["DONE".to_string()],
    };
    lines.insert(line, SourceLine::new(words));
    Some(())
}

/// A task below the events, or an instruction or a label above all bodies.
fn misplaced(random: &mut Random, lines: &mut Vec<SourceLine>) -> Option<()> {
    match random.below(3) {
        0 => {
            let names = names_of(lines, Keyword::Task);
            let name = fresh(random, &names);
            let at = random.from(0, lines.len());
            lines.insert(at, SourceLine::new(vec!["task".to_string(), name]));
        }
        1 => {
            let line = pick_line(random, lines, |line| opcode(line).is_some())?;
            lines.insert(0, lines[line].clone());
        }
        _ => {
            let label = Some(name(random));
            lines.insert(0, SourceLine { label, words: Vec::new() });
        }
    }
    Some(())
}

/// A line with several mistakes among the others.
fn several_among(random: &mut Random, lines: &mut Vec<SourceLine>) -> Option<()> {
    let task = names_of(lines, Keyword::Task).first()?.clone();
    let wrong: [&[&str]; 8] = [
        &["GO", "nowhere"],
        &["JUMP", "nowhere"],
        &["entry", "nowhere"],
        &["memory", "1"],
        &["task", &task, "nothing"],
        &["task", &task],
        &["event", "e5"],
        &["transaction", "x", "1"],
    ];
    let words: Vec<String> = random.pick(&wrong).iter().map(|word| word.to_string()).collect();
    let labels: Vec<String> = lines.iter().filter_map(|line| line.label.clone()).collect();
    let label = if labels.is_empty() || random.percent(50) { name(random) } else { random.pick(&labels) };
    let anywhere = random.from(0, lines.len());
    let at = random.pick(&[0, lines.len(), anywhere]);
    lines.insert(at, SourceLine { label: random.percent(60).then_some(label), words });
    Some(())
}

/// No tasks.
fn tasks_lost(random: &mut Random, lines: &mut Vec<SourceLine>) -> Option<()> {
    let mut in_task = false;
    lines.retain(|line| {
        in_task = if is_body(line) { keyword(line) == Some(Keyword::Task) } else { in_task };
        let front = matches!(keyword(line), Some(Keyword::Memory | Keyword::Entry | Keyword::Transaction));
        !in_task || front
    });
    let entry = pick_line(random, lines, |line| keyword(line) == Some(Keyword::Entry))?;
    lines[entry].words = vec!["entry".to_string(), random.below(3).to_string()];
    Some(())
}

/// One change of a text's lines that makes one of them wrong by itself, mostly.
pub fn damage_line(random: &mut Random, lines: &mut [SourceLine]) {
    if lines.is_empty() {
        return;
    }
    let _ = match random.below(16) {
        0 => word_changed(random, lines),
        1 => words_added(random, lines),
        2 => word_removed(random, lines),
        3 => first_word_changed(random, lines),
        4 | 5 => name_changed(random, lines),
        6 => fifth_word(random, lines),
        7..=10 => colon_added(random, lines),
        11 => stray_added(random, lines),
        12 | 13 => number_for_name(random, lines),
        _ => name_for_number(random, lines),
    };
}

/// One change of a text's lines that leaves them right by themselves, mostly.
pub fn damage_lines(random: &mut Random, lines: &mut Vec<SourceLine>) {
    if lines.is_empty() {
        return;
    }
    let _ = match random.below(40) {
        0 | 1 => register_changed(random, lines),
        2..=6 => k_changed(random, lines),
        7 | 8 => transaction_changed(random, lines),
        9..=11 => front_changed(random, lines),
        12 | 13 => reference_changed(random, lines),
        14 => name_taken(random, lines),
        15 => label_added(random, lines),
        16 => label_lost(random, lines),
        17 => label_twice(random, lines),
        18..=21 => label_elsewhere(random, lines),
        22 => line_moved(random, lines),
        23 => line_repeated(random, lines),
        24..=26 => bodies_added(random, lines),
        27 | 28 => front_lost(random, lines),
        29 => front_again(random, lines),
        30 => body_emptied(random, lines),
        31 => end_changed(random, lines),
        32 => end_added(random, lines),
        33 => misplaced(random, lines),
        34 | 35 => rules_broken(random, lines),
        36..=38 => several_among(random, lines),
        _ => tasks_lost(random, lines),
    };
}

// ---------------------------------------------------------------------------------------------------------
// Characters and lines of a text changed

/// Characters that matter, and some that can't stand.
const TELLING_BYTES: &[u8] = b"abxXfFgG_0189:;,, \t\r\n$-+.\0\x0B\x0C\x7F\x80\xA0\xC3\xFF";

fn change_character(random: &mut Random, text: &mut Vec<u8>) {
    let at = random.below(text.len());
    let byte = if random.percent(70) { random.pick(TELLING_BYTES) } else { random.next() as u8 };
    match random.below(4) {
        0 => text[at] = byte,
        1 => {
            text.remove(at);
        }
        2 => text.insert(at, byte),
        _ => text.insert(at, text[at]),
    }
}

fn change_lines(random: &mut Random, text: &mut Vec<u8>) {
    let mut lines: Vec<Vec<u8>> = text.split(|byte| *byte == b'\n').map(<[u8]>::to_vec).collect();
    let (at, other) = (random.below(lines.len()), random.below(lines.len()));
    match random.below(3) {
        0 => {
            lines.remove(at);
        }
        1 => lines.insert(other, lines[at].clone()),
        _ => lines.swap(at, other),
    }
    *text = lines.join(&b'\n');
}

/// One change of a text: a character changed, removed, inserted or doubled, or a line removed, doubled or swapped.
pub fn damage_text(random: &mut Random, text: &mut Vec<u8>) {
    if text.is_empty() {
        return;
    }
    match random.percent(70) {
        true => change_character(random, text),
        false => change_lines(random, text),
    }
}

// ---------------------------------------------------------------------------------------------------------
// By chance

/// A line of words by chance.
fn chance_line(random: &mut Random) -> Vec<u8> {
    let mut line = String::new();
    for _ in 0..random.pick(&[0, 1, 2, 2, 3, 3, 4, 4, 5, 6]) {
        let statements = ["memory", "entry", "transaction", "task", "event"];
        let opcode = random.pick(&OPCODES).0;
        line.push_str(&match random.below(9) {
            0 | 1 => random.pick(&["a", "b", "_", "a1", "abcdefghijkl", "abcdefghijklm"]).to_string(),
            2 | 3 => random.below(10).to_string(),
            4 => random.pick(&WRONG_NUMBERS).to_string(),
            5 => random.pick(&statements).to_string(),
            6 => random.pick(&["a:", "b :", ":", "5:", "$", "0x:", ";", "a:b"]).to_string(),
            _ => opcode.to_string(),
        });
        line.push_str(random.pick(&[" ", " ", "\t", ",", ""]));
    }
    line.into_bytes()
}

/// A text of words by chance, or of bytes.
pub fn chance_text(random: &mut Random) -> Vec<u8> {
    match random.below(10) {
        0 => Vec::new(),
        1 | 2 => (0..random.below(200)).map(|_| random.next() as u8).collect(),
        3 | 4 => (0..random.below(60)).map(|_| random.pick(TELLING_BYTES)).collect(),
        _ => {
            let lines: Vec<Vec<u8>> = (0..random.from(1, 12)).map(|_| chance_line(random)).collect();
            lines.join(&b'\n')
        }
    }
}
