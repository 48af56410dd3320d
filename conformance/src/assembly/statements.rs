//! A line's statement: its words from left to right.

use super::clauses::Clauses;
use super::reading::Word;
use super::Kind;

/// The fields of an instruction.
#[derive(Clone, Copy, PartialEq, Eq, Debug)]
pub enum Field {
    A,
    B,
    K,
}

use Field::{A, B, K};

/// Each opcode's name, by its number, with those of a, b and k that it uses.
pub const OPCODES: [(&str, &[Field]); 17] = [
    ("SET", &[A, K]),
    ("MOV", &[A, B]),
    ("ADD", &[A, B]),
    ("SUB", &[A, B]),
    ("AND", &[A, B]),
    ("OR", &[A, B]),
    ("XOR", &[A, B]),
    ("SHR", &[A, K]),
    ("LOAD", &[A, K]),
    ("SAVE", &[A, K]),
    ("LOADX", &[A, B, K]),
    ("SAVEX", &[A, B, K]),
    ("JUMP", &[K]),
    ("JZ", &[A, K]),
    ("JLT", &[A, B, K]),
    ("GO", &[K]),
    ("DONE", &[]),
];

/// What a statement's first word says.
#[derive(Clone, Copy, PartialEq, Eq, Debug)]
pub enum Keyword {
    Memory,
    Entry,
    Transaction,
    Task,
    Event,
    Opcode(u16),
}

/// What may stand at a place behind the first word.
#[derive(Clone, Copy, PartialEq, Eq, Debug)]
pub enum Due {
    Name,
    Number,
    Either,
}

#[derive(Clone, PartialEq, Eq, Debug)]
pub struct Instruction {
    pub opcode: u16,
    pub a: u16,
    pub b: u16,
    pub k: Word,
}

#[derive(Clone, PartialEq, Eq, Debug)]
pub enum Statement {
    Memory(u16),
    Entry(Word),
    Transaction(String, u16),
    Task(String, Option<Word>),
    Event(String),
    Instruction(Instruction),
}

fn number_at(words: &[Word], index: usize) -> u16 {
    match words.get(index) {
        Some(Word::Number(number)) => *number,
        _ => 0,
    }
}

fn name_at(words: &[Word], index: usize) -> String {
    match words.get(index) {
        Some(Word::Name(name)) => name.clone(),
        _ => String::new(),
    }
}

fn word_at(words: &[Word], index: usize) -> Word {
    words.get(index).cloned().unwrap_or(Word::Number(0))
}

/// An instruction of the words behind its opcode; a field that isn't used is 0.
fn instruction(fields: &[Field], opcode: u16, behind: &[Word]) -> Instruction {
    let mut made = Instruction { opcode, a: 0, b: 0, k: Word::Number(0) };
    for (index, field) in fields.iter().enumerate() {
        match field {
            A => made.a = number_at(behind, index),
            B => made.b = number_at(behind, index),
            K => made.k = word_at(behind, index),
        }
    }
    made
}

/// The statement of a right first word and right words behind it.
fn made(clauses: &dyn Clauses, first: Keyword, behind: &[Word]) -> Statement {
    match first {
        Keyword::Memory => Statement::Memory(number_at(behind, 0)),
        Keyword::Entry => Statement::Entry(word_at(behind, 0)),
        Keyword::Transaction => Statement::Transaction(name_at(behind, 0), number_at(behind, 1)),
        Keyword::Task => Statement::Task(name_at(behind, 0), behind.get(1).cloned()),
        Keyword::Event => Statement::Event(name_at(behind, 0)),
        Keyword::Opcode(opcode) => Statement::Instruction(instruction(clauses.fields(opcode), opcode, behind)),
    }
}

/// The statement of a line's words, none if there are none; or its mistake.
pub fn statement(clauses: &dyn Clauses, words: &[Word]) -> Result<Option<Statement>, Kind> {
    let Some((first, behind)) = words.split_first() else { return Ok(None) };
    let first = match first {
        Word::Name(name) => clauses.keyword(name),
        Word::Number(_) => None,
    };
    let first = first.ok_or(Kind::NoStatement)?;
    let mut shown = Vec::new();
    if !clauses.word_count(first).contains(&behind.len()) {
        shown.push(Kind::WordCount);
    }
    for (word, due) in behind.iter().zip(clauses.due(first)) {
        match (word, due) {
            (Word::Number(_), Due::Name) => shown.push(Kind::NameDue),
            (Word::Name(_), Due::Number) => shown.push(Kind::NumberDue),
            _ => {}
        }
    }
    match clauses.first(&shown) {
        Some(kind) => Err(kind),
        None => Ok(Some(made(clauses, first, behind))),
    }
}
