//! The program's words, and the rules that the check finds broken, each with the line of its statement.

use super::among::{found, is_jump, space_of_k, Body, FirstPass, Namespace};
use super::clauses::Clauses;
use super::reading::Word;
use super::statements::{Field, Instruction};
use super::{Kind, Mistake};
use crate::reference::*;
use crate::runtime::{Answer, Refusal, Runtime};

/// A number, or what a name stands for; 0 for a name that isn't there, which is a mistake of its line.
fn resolved(clauses: &dyn Clauses, pass: &FirstPass, space: Namespace, word: &Word, line: usize) -> u16 {
    match word {
        Word::Number(number) => *number,
        Word::Name(name) => found(clauses, pass, space, name, line).unwrap_or(0) as u16,
    }
}

/// k of an instruction of this body.
fn k_of(clauses: &dyn Clauses, pass: &FirstPass, body: usize, line: usize, instruction: &Instruction) -> u16 {
    resolved(clauses, pass, space_of_k(instruction.opcode, body), &instruction.k, line)
}

/// A body's transaction number, 0 where it has none.
fn transaction_of(clauses: &dyn Clauses, pass: &FirstPass, body: &Body) -> u16 {
    let number = |word| resolved(clauses, pass, Namespace::Transactions, word, body.line);
    body.transaction.as_ref().map_or(0, number)
}

/// The words of a text: what isn't given is 0.
pub fn words(clauses: &dyn Clauses, pass: &FirstPass) -> Vec<u16> {
    let memory = pass.memory.map_or(0, |(_, number)| number);
    let entry = |(line, task): &(usize, Word)| resolved(clauses, pass, Namespace::Tasks, task, *line);
    let (tasks, events) = (pass.count(true), pass.count(false));
    let mut words = vec![PROGRAM_MARK, tasks as u16, events as u16, memory];
    words.push(pass.entry.as_ref().map_or(0, entry));
    words.push(pass.word_count() as u16);
    let mut start = 6 + 3 * pass.bodies.len();
    for body in &pass.bodies {
        let count = body.instructions.len();
        words.extend([start as u16, count as u16, transaction_of(clauses, pass, body)]);
        start += 2 * count;
    }
    for (number, body) in pass.bodies.iter().enumerate() {
        for (line, instruction) in &body.instructions {
            let k = k_of(clauses, pass, number, *line, instruction);
            words.extend(clauses.code(instruction, k));
        }
    }
    words
}

/// What the check says of the words.
pub fn refusal(words: &[u16]) -> Option<Refusal> {
    match Reference.check(words) {
        Answer::Refused(refusal) => Some(refusal),
        _ => None,
    }
}

/// The rule that the check finds broken first.
pub fn broken(clauses: &dyn Clauses, pass: &FirstPass, words: &[u16]) -> Option<Mistake> {
    let Refusal { number, place: (first, second) } = refusal(words)?;
    match number {
        3 => Some(broken_front(clauses, pass, first)),
        4 => broken_row(clauses, pass, first as usize, words),
        5 => broken_instruction(clauses, pass, first as usize, second as usize),
        // The mark and the length are right.
        _ => None,
    }
}

/// "3 at word 1", to "3 at word 4"
fn broken_front(clauses: &dyn Clauses, pass: &FirstPass, word: u16) -> Mistake {
    let nth = |tasks: bool, number: usize| {
        let lines: Vec<usize> = pass.bodies.iter().filter(|body| body.task == tasks).map(|body| body.line).collect();
        let named = lines.get(number - 1).copied().unwrap_or(pass.last);
        (named, lines.last().copied().unwrap_or(1))
    };
    let (kind, (named, near)) = match word {
        1 => (Kind::TaskCount, nth(true, 33)),
        2 => (Kind::EventCount, nth(false, 17)),
        3 => (Kind::MemorySize, (pass.memory.map_or(pass.last, |(line, _)| line), pass.last)),
        _ => (Kind::EntryNumber, (pass.entry.as_ref().map_or(pass.last, |(line, _)| *line), pass.last)),
    };
    Mistake { line: clauses.line(kind, named, near), kind }
}

/// "4, by the count", "4, otherwise"
fn broken_row(clauses: &dyn Clauses, pass: &FirstPass, number: usize, words: &[u16]) -> Option<Mistake> {
    let body = pass.bodies.get(number)?;
    let mut shown = Vec::new();
    if !(1..=256).contains(&body.instructions.len()) {
        shown.push(Kind::BodyCount);
    }
    if words[6 + 3 * number + 2] > 255 {
        shown.push(Kind::TransactionNumber);
    }
    let kind = clauses.first(&shown)?;
    let near = body.instructions.last().map_or(pass.last, |(line, _)| *line);
    Some(Mistake { line: clauses.line(kind, body.line, near), kind })
}

/// The rules of 5 that an instruction breaks, in the order of the table.
fn broken_rules(clauses: &dyn Clauses, pass: &FirstPass, number: usize, index: usize) -> Vec<Kind> {
    let body = &pass.bodies[number];
    let (line, instruction) = &body.instructions[index];
    let (opcode, count) = (instruction.opcode, body.instructions.len());
    let k = k_of(clauses, pass, number, *line, instruction) as usize;
    let memory = pass.memory.map_or(0, |(_, words)| words) as usize;
    let fields = clauses.fields(opcode);
    let above_7 = |field, value| fields.contains(&field) && value > 7;
    let rules = [
        (Kind::Register, above_7(Field::A, instruction.a) || above_7(Field::B, instruction.b)),
        (Kind::Shift, opcode == SHR && k > 15),
        (Kind::Address, matches!(opcode, LOAD | SAVE | LOADX | SAVEX) && k >= memory),
        (Kind::Target, is_jump(opcode) && k >= count),
        (Kind::GoInEvent, opcode == GO && !body.task),
        (Kind::TaskNumber, opcode == GO && body.task && k >= pass.count(true)),
        (Kind::DoneInTask, opcode == DONE && body.task),
        (Kind::BodyEnd, index + 1 == count && !matches!(opcode, JUMP | GO | DONE)),
    ];
    rules.into_iter().filter(|(_, broken)| *broken).map(|(kind, _)| kind).collect()
}

fn broken_instruction(clauses: &dyn Clauses, pass: &FirstPass, number: usize, index: usize) -> Option<Mistake> {
    let kind = clauses.first(&broken_rules(clauses, pass, number, index))?;
    let body = &pass.bodies[number];
    Some(Mistake { line: clauses.line(kind, body.instructions[index].0, body.line), kind })
}
