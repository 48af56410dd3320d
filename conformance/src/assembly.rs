//! Programs as text, by `docs/ASSEMBLY.md`: `assemble` turns a text into program words, `disassemble` program words
//! into a text. The parts stand in the page's order: `reading`, `statements`, `among` (a line among the others),
//! `rules`, `programs`, `printing`. What the page fixes is a method of `Clauses` under the words that it renders; a
//! version with a mistake (`mutants`) is the right one with a clause changed.

pub mod among;
pub mod clauses;
pub mod compare;
pub mod counts;
pub mod generate;
pub mod mutants;
pub mod others;
pub mod printing;
pub mod programs;
pub mod reading;
pub mod rules;
pub mod statements;

use crate::runtime::Refusal;
use among::{first_pass, mistakes_of_lines, FirstPass, Parsed, ParsedLine};
use clauses::{Clauses, Right};
use std::fmt;

/// The tables of mistakes.
#[derive(Clone, Copy, PartialEq, Eq, PartialOrd, Ord, Debug)]
pub enum Table {
    Reading,
    Statement,
    Among,
    Text,
    Rules,
}

/// The mistakes of the page, in the order of its tables.
#[derive(Clone, Copy, PartialEq, Eq, PartialOrd, Ord, Debug)]
pub enum Kind {
    // Reading a line.
    Character,
    NumberTooLarge,
    NumberMalformed,
    NameTooLong,
    TooManyWords,
    Colon,
    // A statement.
    NoStatement,
    WordCount,
    NameDue,
    NumberDue,
    // A line among the others.
    LabelPlace,
    LabelTaken,
    InstructionPlace,
    TaskBehindEvent,
    NameTaken,
    GivenAbove,
    UnknownTask,
    UnknownLabel,
    UnknownTransaction,
    // The text.
    TextTooLarge,
    MemoryMissing,
    EntryMissing,
    ProgramTooLong,
    // Rules.
    TaskCount,
    EventCount,
    MemorySize,
    EntryNumber,
    BodyCount,
    TransactionNumber,
    Register,
    Shift,
    Address,
    Target,
    GoInEvent,
    TaskNumber,
    DoneInTask,
    BodyEnd,
}

/// Each mistake with its words.
pub const KINDS: [(Kind, &str); 37] = [
    (Kind::Character, "this character can't stand here"),
    (Kind::NumberTooLarge, "a number is at most 65535"),
    (Kind::NumberMalformed, "a number is decimal digits, or 0x and hex digits"),
    (Kind::NameTooLong, "a name has at most 12 characters"),
    (Kind::TooManyWords, "a line has at most four words behind its label"),
    (Kind::Colon, "a colon stands behind the line's first word, a name"),
    (Kind::NoStatement, "no statement begins so"),
    (Kind::WordCount, "this statement has another number of words"),
    (Kind::NameDue, "a name is due here"),
    (Kind::NumberDue, "a number is due here"),
    (Kind::LabelPlace, "a label stands in a body, alone or before an instruction"),
    (Kind::LabelTaken, "this label is taken"),
    (Kind::InstructionPlace, "an instruction stands in a body"),
    (Kind::TaskBehindEvent, "tasks stand before events"),
    (Kind::NameTaken, "this name is taken"),
    (Kind::GivenAbove, "this is given above"),
    (Kind::UnknownTask, "no task has this name"),
    (Kind::UnknownLabel, "no instruction of this body has this label"),
    (Kind::UnknownTransaction, "no transaction has this name"),
    (Kind::TextTooLarge, "a text has at most 1048576 bytes and 65536 lines"),
    (Kind::MemoryMissing, "memory isn't given"),
    (Kind::EntryMissing, "entry isn't given"),
    (Kind::ProgramTooLong, "a program has at most 65535 words"),
    (Kind::TaskCount, "a program has 1 to 32 tasks"),
    (Kind::EventCount, "a program has at most 16 events"),
    (Kind::MemorySize, "memory has 1 to 1024 words"),
    (Kind::EntryNumber, "no task has this number"),
    (Kind::BodyCount, "a body has 1 to 256 instructions"),
    (Kind::TransactionNumber, "a transaction's number is at most 255"),
    (Kind::Register, "a register is 0 to 7"),
    (Kind::Shift, "SHR shifts by 0 to 15"),
    (Kind::Address, "the address isn't below the number of memory words"),
    (Kind::Target, "the target isn't an instruction of this body"),
    (Kind::GoInEvent, "GO stands only in tasks"),
    (Kind::TaskNumber, "no task has this number"),
    (Kind::DoneInTask, "DONE stands only in events"),
    (Kind::BodyEnd, "a body ends with JUMP, GO or DONE"),
];

impl Kind {
    pub fn words(self) -> &'static str {
        KINDS[self as usize].1
    }

    pub fn table(self) -> Table {
        match self {
            _ if self <= Kind::Colon => Table::Reading,
            _ if self <= Kind::NumberDue => Table::Statement,
            _ if self <= Kind::UnknownTransaction => Table::Among,
            _ if self <= Kind::ProgramTooLong => Table::Text,
            _ => Table::Rules,
        }
    }
}

/// A mistake of a text, and its line.
#[derive(Clone, Copy, PartialEq, Eq, Debug)]
pub struct Mistake {
    pub line: usize,
    pub kind: Kind,
}

/// "`line N: `, its words"
impl fmt::Display for Mistake {
    fn fmt(&self, formatter: &mut fmt::Formatter) -> fmt::Result {
        write!(formatter, "line {}: {}", self.line, self.kind.words())
    }
}

/// A line by itself: its label and its statement, or its mistake.
pub fn parse_line(clauses: &dyn Clauses, line: &[u8]) -> Parsed {
    let reading::Line { label, words } = reading::read(clauses, line)?;
    Ok(ParsedLine { label, statement: statements::statement(clauses, &words)? })
}

/// "**The text**; its line is the text's last"
fn mistake_of_text(clauses: &dyn Clauses, lines: &[&[u8]], pass: &FirstPass) -> Option<Mistake> {
    let missing = [
        (Kind::MemoryMissing, pass.memory.is_none()),
        (Kind::EntryMissing, pass.entry.is_none()),
        (Kind::ProgramTooLong, !clauses.fits(pass.word_count())),
    ];
    let shown: Vec<Kind> = missing.into_iter().filter(|(_, met)| *met).map(|(kind, _)| kind).collect();
    let kind = clauses.first(&shown)?;
    // The last line that isn't empty is near.
    let near = lines.iter().rposition(|line| !line.is_empty()).map_or(1, |index| index + 1);
    Some(Mistake { line: clauses.line(kind, pass.last, near), kind })
}

/// The words of a text, or its mistake, by these clauses.
pub fn assemble_by(clauses: &dyn Clauses, text: &[u8]) -> Result<Vec<u16>, Mistake> {
    if clauses.too_large(text) {
        let last = text.iter().filter(|byte| **byte == b'\n').count() + 1;
        return Err(Mistake { line: clauses.line(Kind::TextTooLarge, 1, last), kind: Kind::TextTooLarge });
    }
    let lines = clauses.lines(text);
    let parsed: Vec<Parsed> = lines.iter().map(|line| parse_line(clauses, line)).collect();
    let pass = first_pass(clauses, &parsed);
    let words = rules::words(clauses, &pass);
    let of_lines = mistakes_of_lines(clauses, &parsed, &pass);
    for tables in clauses.order() {
        let of_these = of_lines.iter().filter(|mistake| tables.contains(&mistake.kind.table()));
        let mut mistakes: Vec<Mistake> = of_these.copied().collect();
        if tables.contains(&Table::Text) {
            mistakes.extend(mistake_of_text(clauses, &lines, &pass));
        }
        if tables.contains(&Table::Rules) {
            mistakes.extend(rules::broken(clauses, &pass, &words));
        }
        if let Some(mistake) = clauses.first_line(&mistakes) {
            return Err(mistake);
        }
    }
    Ok(words)
}

/// The text for program words, or the check's refusal, by these clauses.
pub fn disassemble_by(clauses: &dyn Clauses, words: &[u16]) -> Result<Vec<u8>, Refusal> {
    match clauses.refused(words) {
        Some(refusal) => Err(refusal),
        None => Ok(printing::text(clauses, words).into_bytes()),
    }
}

/// The words of a text, which the check accepts, or its mistake.
pub fn assemble(text: &[u8]) -> Result<Vec<u16>, Mistake> {
    assemble_by(&Right, text)
}

/// The text for program words, or the check's refusal.
pub fn disassemble(words: &[u16]) -> Result<Vec<u8>, Refusal> {
    disassemble_by(&Right, words)
}
