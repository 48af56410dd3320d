//! The clauses of the page, each under its words; "[..]" stands for words that are left out.

use super::among::{is_jump, Namespace};
use super::printing::{instruction, Row};
use super::programs::{Answer, Program};
use super::reading::{with_digit, ByteClass, Line, PartialWord, Word};
use super::rules::refusal;
use super::statements::{Due, Field, Instruction, Keyword, OPCODES};
use super::{Kind, Mistake, Table};
use crate::reference::{GO, JLT, JUMP, JZ, LOAD, LOADX, SAVE, SAVEX, SET, SHR};
use crate::runtime::Refusal;
use std::collections::BTreeSet;
use std::io;
use std::ops::RangeInclusive;

/// The page's clauses.
pub trait Clauses {
    // -----------------------------------------------------------------------------------------------------
    // Lines

    /// "A text has at most 1,048,576 bytes and 65,536 lines"
    fn too_large(&self, text: &[u8]) -> bool {
        text.len() > 1_048_576 || text.iter().filter(|byte| **byte == b'\n').count() + 1 > 65_536
    }

    /// "A line ends with a line feed or with the text, so there is a line behind the last line feed, too"
    fn lines<'a>(&self, text: &'a [u8]) -> Vec<&'a [u8]> {
        text.split(|byte| *byte == b'\n').collect()
    }

    /// "a **comment** (a semicolon and what follows it)"
    fn without_comment<'a>(&self, line: &'a [u8]) -> &'a [u8] {
        line.split(|byte| *byte == b';').next().unwrap_or(line)
    }

    /// "Words are parted by spaces, tabs, carriage returns and commas"; "letters, digits and underscores"
    fn byte_class(&self, byte: u8) -> ByteClass {
        match byte {
            b' ' | b'\t' | b'\r' | b',' => ByteClass::Separator,
            b':' => ByteClass::Colon,
            b'a'..=b'z' | b'A'..=b'Z' | b'0'..=b'9' | b'_' => ByteClass::Word,
            _ => ByteClass::Invalid,
        }
    }

    /// "A **name** is a letter [..] or an underscore, then letters, digits and underscores; 12 characters at most."
    /// "A **number** is decimal digits, or `0x` (or `0X`) and hex digits of either case; 65535 at most."
    fn extended(&self, part: PartialWord, byte: u8) -> Result<PartialWord, Kind> {
        match part {
            PartialWord::Nothing if byte == b'0' => Ok(PartialWord::Zero),
            PartialWord::Nothing if byte.is_ascii_digit() => Ok(PartialWord::Decimal(u16::from(byte - b'0'))),
            PartialWord::Nothing => Ok(PartialWord::Name(char::from(byte).to_string())),
            PartialWord::Name(name) if name.len() == 12 => Err(Kind::NameTooLong),
            PartialWord::Name(name) => Ok(PartialWord::Name(name + char::from(byte).encode_utf8(&mut [0; 4]))),
            PartialWord::Zero if byte == b'x' || byte == b'X' => Ok(PartialWord::Prefix),
            PartialWord::Zero => with_digit(0, 10, byte).map(PartialWord::Decimal),
            PartialWord::Decimal(value) => with_digit(value, 10, byte).map(PartialWord::Decimal),
            PartialWord::Prefix => with_digit(0, 16, byte).map(PartialWord::Hex),
            PartialWord::Hex(value) => with_digit(value, 16, byte).map(PartialWord::Hex),
        }
    }

    /// A word that ends, if there is one; "where a word ends that is only `0x`"
    fn finished(&self, part: PartialWord) -> Result<Option<Word>, Kind> {
        match part {
            PartialWord::Nothing => Ok(None),
            PartialWord::Name(name) => Ok(Some(Word::Name(name))),
            PartialWord::Zero => Ok(Some(Word::Number(0))),
            PartialWord::Decimal(value) | PartialWord::Hex(value) => Ok(Some(Word::Number(value))),
            PartialWord::Prefix => Err(Kind::NumberMalformed),
        }
    }

    /// "a line has at most four words behind its label", "where the fifth ends"
    fn too_many(&self, words: usize, _label: bool, ended: bool) -> bool {
        ended && words == 5
    }

    /// "a colon stands behind the line's first word, a name", not "behind a second word, a number, no word, or a
    /// label". What parts words may stand before the colon.
    fn label_stands(&self, line: &Line, part: &PartialWord) -> bool {
        let words = (line.words.as_slice(), part);
        let first = matches!(words, ([], PartialWord::Name(_)) | ([Word::Name(_)], PartialWord::Nothing));
        first && line.label.is_none()
    }

    // -----------------------------------------------------------------------------------------------------
    // Statements

    /// The first words of statements; "Capital and small letters are the same."
    fn keyword(&self, name: &str) -> Option<Keyword> {
        let opcode = OPCODES.iter().position(|(opcode, _)| name.eq_ignore_ascii_case(opcode));
        match name.to_ascii_lowercase().as_str() {
            "memory" => Some(Keyword::Memory),
            "entry" => Some(Keyword::Entry),
            "transaction" => Some(Keyword::Transaction),
            "task" => Some(Keyword::Task),
            "event" => Some(Keyword::Event),
            _ => opcode.map(|opcode| Keyword::Opcode(opcode as u16)),
        }
    }

    /// "those of a, b and k that it uses, in this order"
    fn fields(&self, opcode: u16) -> &'static [Field] {
        OPCODES[opcode as usize].1
    }

    /// How many words stand behind the first: the table of statements.
    fn word_count(&self, first: Keyword) -> RangeInclusive<usize> {
        match first {
            Keyword::Memory | Keyword::Entry | Keyword::Event => 1..=1,
            Keyword::Transaction => 2..=2,
            Keyword::Task => 1..=2,
            Keyword::Opcode(opcode) => self.fields(opcode).len()..=self.fields(opcode).len(),
        }
    }

    /// "as k of `SET SHR LOAD SAVE LOADX SAVEX`"; "of `JUMP`, `JZ` and `JLT` it may also be a label of the same body,
    /// of `GO` a task's name"
    fn k_due(&self, opcode: u16) -> Due {
        match opcode {
            SET | SHR | LOAD | SAVE | LOADX | SAVEX => Due::Number,
            _ => Due::Either,
        }
    }

    /// "the first word behind `transaction`, `task` and `event`"; "behind `memory`, second behind `transaction`, as a,
    /// as b"
    fn due(&self, first: Keyword) -> Vec<Due> {
        let field_due = |opcode, field| if field == Field::K { self.k_due(opcode) } else { Due::Number };
        match first {
            Keyword::Memory => vec![Due::Number],
            Keyword::Entry => vec![Due::Either],
            Keyword::Transaction => vec![Due::Name, Due::Number],
            Keyword::Task => vec![Due::Name, Due::Either],
            Keyword::Event => vec![Due::Name],
            Keyword::Opcode(opcode) => self.fields(opcode).iter().map(|field| field_due(opcode, *field)).collect(),
        }
    }

    // -----------------------------------------------------------------------------------------------------
    // A line among the others

    /// "Tasks, events and transactions, and each body's labels, have names of their own"; "Capital and small letters
    /// are the same."
    fn key(&self, space: Namespace, name: &str) -> (Namespace, String) {
        (space, name.to_ascii_lowercase())
    }

    /// "it is the number of the body's next instruction, on this line or below"
    fn label_number(&self, next: usize, _alone: bool) -> usize {
        next
    }

    /// Whether a name that stands on one line is known on another: it is on all, above and below.
    fn known(&self, _space: Namespace, _name: &str, _stands: usize, _used: usize) -> bool {
        true
    }

    /// "behind the last instruction it is their count, where no jump may go": that is for the check to find.
    fn label_target(&self, number: usize, _count: usize) -> Option<usize> {
        Some(number)
    }

    // -----------------------------------------------------------------------------------------------------
    // Which mistake is told, and with which line

    /// Of the mistakes that show in one place, in the order of their table: "the table's first counts"
    fn first(&self, shown: &[Kind]) -> Option<Kind> {
        shown.first().copied()
    }

    /// "what is wrong in a line by itself, reading it and as a statement, line by line; then what is wrong with a line
    /// among the others, line by line; then the mistakes of the text; then those of rules"
    fn order(&self) -> &'static [&'static [Table]] {
        &[&[Table::Reading, Table::Statement], &[Table::Among], &[Table::Text], &[Table::Rules]]
    }

    /// Of the mistakes of tables that come together, "line by line": "the first counts"
    fn first_line(&self, mistakes: &[Mistake]) -> Option<Mistake> {
        mistakes.first().copied()
    }

    /// The line of a mistake: as the page names it, not another one that is near.
    fn line(&self, _kind: Kind, named: usize, _near: usize) -> usize {
        named
    }

    /// "a program has at most 65535 words"
    fn fits(&self, words: usize) -> bool {
        words <= 65535
    }

    // -----------------------------------------------------------------------------------------------------
    // Words

    /// opcode × 256 + a × 16 + b, then k. "A register above 15 is checked as 15."
    fn code(&self, instruction: &Instruction, k: u16) -> [u16; 2] {
        let Instruction { opcode, a, b, .. } = instruction;
        [opcode * 256 + a.min(&15) * 16 + b.min(&15), k]
    }

    // -----------------------------------------------------------------------------------------------------
    // The programs

    /// "the words, low byte first"
    fn image(&self, words: &[u16]) -> Vec<u8> {
        words.iter().flat_map(|word| word.to_le_bytes()).collect()
    }

    /// The words of an image. "An odd byte count is refusal 1."
    fn image_words(&self, image: &[u8]) -> Result<Vec<u16>, Refusal> {
        match image.len() % 2 {
            0 => Ok(image.chunks_exact(2).map(|pair| u16::from_le_bytes([pair[0], pair[1]])).collect()),
            _ => Err(Refusal { number: 1, place: (0, 0) }),
        }
    }

    /// "A program that the check refuses isn't printed"
    fn refused(&self, words: &[u16]) -> Option<Refusal> {
        refusal(words)
    }

    /// "A mistake is told as `line N: `, its words and a line feed."
    fn mistake_text(&self, mistake: Mistake) -> String {
        format!("{mistake}\n")
    }

    /// "as `refused 5 1 1`, its number and its two place words in decimal with a line feed"
    fn refusal_text(&self, Refusal { number, place: (first, second) }: Refusal) -> String {
        format!("refused {number} {first} {second}\n")
    }

    /// "`26 words written` of assemble, `26 words read` of disassemble"
    fn count_text(&self, count: usize, program: Program) -> String {
        match program {
            Program::Assemble => format!("{count} words written\n"),
            Program::Disassemble => format!("{count} words read\n"),
        }
    }

    /// "A mistake, or a refusal [..], goes to standard error; then nothing is written to the output [..]. Otherwise
    /// standard error stays empty, but for `--verbose`"
    fn answer(&self, made: Result<(Vec<u8>, String), String>, verbose: bool) -> Answer {
        match made {
            Ok((output, count)) => {
                let errors = if verbose { count } else { String::new() };
                Answer { output: Some(output), errors, status: 0 }
            }
            Err(errors) => Answer { output: None, errors, status: 1 },
        }
    }

    /// "`-` as a name means the same": the standard input or output.
    fn is_standard(&self, name: &str, _output: bool) -> bool {
        name == "-"
    }

    /// Whether an argument is an option: `-` is a name.
    fn is_option(&self, argument: &str) -> bool {
        argument.starts_with('-') && argument != "-"
    }

    /// "another option", besides `--help` and `--verbose`, "or [..] too many names"
    fn is_unfit(&self, other_options: usize, names: usize) -> bool {
        other_options > 0 || names > 2
    }

    /// "how they are called, the lines above"
    fn usage_text(&self, _program: Program) -> String {
        format!("{}\n{}\n", Program::Assemble.usage(), Program::Disassemble.usage())
    }

    /// Of `--help` "on standard output"; otherwise "the same on standard error".
    fn usage_to_errors(&self, help: bool) -> bool {
        !help
    }

    /// "does nothing else"
    fn goes_on(&self, _help: bool) -> bool {
        false
    }

    /// "A file that can't be read or written is told on standard error."
    fn file_text(&self, program: Program, name: &str, error: &io::Error, _writing: bool) -> String {
        format!("{}: {name}: {error}\n", program.name())
    }

    // -----------------------------------------------------------------------------------------------------
    // What disassemble prints

    /// "in decimal, as all numbers are, without leading zeros"
    fn printed_number(&self, number: u16) -> String {
        number.to_string()
    }

    /// "Task number i is `taskI`, an event `eventI`, the transaction number N `transN`, and `atJ` is the label of
    /// instruction J"
    fn printed_name(&self, what: &str, number: u16) -> String {
        format!("{what}{number}")
    }

    /// "the entry task's name"
    fn entry_name(&self) -> Option<&'static str> {
        Some("task")
    }

    /// "a line `transaction transN N` for each number N, from 1 on, that a task has"
    fn printed_transactions(&self, rows: &[Row]) -> Vec<u16> {
        let numbers: BTreeSet<u16> = rows.iter().map(|row| row.transaction).collect();
        numbers.into_iter().filter(|number| *number != 0).collect()
    }

    /// "then each body behind an empty line"
    fn printed_between(&self) -> &'static str {
        "\n"
    }

    /// What a body's line is printed of: its kind, "A task of a transaction has `transN` behind its name."
    fn printed_row(&self, row: Row, _tasks: u16) -> Row {
        row
    }

    /// "which stands where a jump of this body goes there"
    fn printed_labels(&self, words: &[u16], row: &Row) -> BTreeSet<u16> {
        let instructions = (0..row.count).map(|index| instruction(words, row, index));
        instructions.filter(|[opcode, ..]| is_jump(*opcode)).map(|[.., k]| k).collect()
    }

    /// "An instruction has eight characters before it, spaces or the label with its colon and spaces"
    fn printed_before(&self, label: Option<String>) -> String {
        let label = label.map_or(String::new(), |label| label + ":");
        format!("{label:8}")
    }

    /// "the opcode's name in capitals"
    fn printed_opcode(&self, opcode: u16) -> String {
        OPCODES[opcode as usize].0.to_string()
    }

    /// "those of a, b and k that it uses, parted by single spaces"
    fn printed_fields(&self, opcode: u16) -> &'static [Field] {
        OPCODES[opcode as usize].1
    }

    /// k of a jump is a label, that of GO a task's name, any other a number.
    fn k_name(&self, opcode: u16) -> Option<&'static str> {
        match opcode {
            JUMP | JZ | JLT => Some("at"),
            GO => Some("task"),
            _ => None,
        }
    }

    /// The text as a whole. "Every line ends with a line feed."
    fn printed(&self, text: String) -> String {
        text
    }
}

/// The clauses as they are.
pub struct Right;

impl Clauses for Right {}
