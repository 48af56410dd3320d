//! Versions with one mistake each: the right clauses with one of them changed. The tests hold that the comparison finds
//! every one; so it is known to be able to fail.

use super::among::{is_jump, Namespace};
use super::clauses::{Clauses, Right};
use super::printing::{instruction, rows, Row};
use super::programs::{Answer, Program};
use super::reading::{ByteClass, Line, PartialWord, Word};
use super::statements::{Due, Field, Instruction, Keyword};
use super::{Kind, Mistake, Table};
use crate::reference::{AND, GO, JUMP, OR};
use crate::runtime::Refusal;
use std::collections::BTreeSet;
use std::io;
use std::ops::RangeInclusive;

macro_rules! mutations {
    ($($(#[$comment:meta])* $name:ident,)*) => {
        /// What is changed.
        #[derive(Clone, Copy, PartialEq, Eq, Debug)]
        pub enum Mutation {
            $($(#[$comment])* $name,)*
        }

        pub const MUTATIONS: &[Mutation] = &[$(Mutation::$name,)*];
    };
}

mutations! {
    // A text and its lines.
    BytesUnlimited,
    LinesUnlimited,
    ByteLimitOneShort,
    LineLimitOneShort,
    /// The last line, if it has no line feed.
    LastLineLost,
    EmptyLinesNotCounted,
    CarriageReturnEndsLine,
    // Comments and characters.
    SemicolonKept,
    CommentFromLastSemicolon,
    TabInvalid,
    CommaInvalid,
    CarriageReturnInvalid,
    FormFeedSeparates,
    HighBytesRead,
    UnderscoreInvalid,
    // Numbers.
    HexAsDecimal,
    CapitalPrefixUnread,
    SmallHexDigitsOnly,
    CapitalHexDigitsOnly,
    LeadingZeroUnread,
    NumberWraps,
    PrefixAloneIsZero,
    // Names.
    NameBeginsWithLetter,
    NamesOfEleven,
    NamesOfThirteen,
    LongNamesCut,
    CaseMatters,
    EightCharacters,
    // Words and labels of a line.
    FifthWordAtItsStart,
    LabelCountsAsWord,
    ColonTouchesName,
    SecondLabelStands,
    NumberAsLabel,
    // Statements.
    CapitalOpcodesOnly,
    SmallStatementsOnly,
    ExtraWordsPassed,
    MissingWordsZero,
    KBeforeB,
    BBeforeA,
    LabelAsAnyK,
    // Opcodes and fields.
    OrTakenForAnd,
    GoTakenForJump,
    RegisterWraps,
    // Names and what they stand for.
    TasksAndEventsShareNames,
    BodiesShareLabels,
    ReservedNames,
    LabelOneOff,
    LabelAloneIsAbove,
    /// A label behind the last instruction is the last instruction's number.
    LabelBehindIsLast,
    /// No instruction has it, so it isn't found.
    LabelBehindUnknown,
    TasksAboveOnly,
    LabelsAboveOnly,
    TransactionsAboveOnly,
    // Which mistake is told.
    ReadingOrder,
    StatementOrder,
    AmongOrder,
    TextOrder,
    RulesOrder,
    /// All mistakes of lines, line by line.
    LineByLine,
    /// All of reading, then all of statements, then all of lines among the others.
    TableByTable,
    /// All of reading; then those of statements and of lines among the others, line by line.
    ReadingBeforeAll,
    AmongBeforeItself,
    LastMistake,
    TextBeforeLines,
    TextBeforeAmong,
    RulesBeforeText,
    RulesUntold,
    NameDueUntold,
    LabelPlaceUntold,
    LabelTakenUntold,
    NameTakenUntold,
    GivenAboveUntold,
    // With which line.
    ReadingLine,
    StatementLine,
    AmongLine,
    TextLine,
    RulesLine,
    TooLargeLine,
    // The image.
    ProgramLimitOneMore,
    ProgramLimitOneShort,
    CountShort,
    EntryZero,
    HighByteFirst,
    OddByteDropped,
    // The programs.
    PrintsRefused,
    RefusalPlaceSwapped,
    RefusalWithoutPlace,
    RefusalInHex,
    RefusalWithoutLineFeed,
    MistakeWithoutLineFeed,
    MistakeToOutput,
    EmptyOutputOnMistake,
    VerboseSilent,
    VerboseAlways,
    VerboseOnMistake,
    VerboseOtherWords,
    VerboseAlikeInBoth,
    VerboseWithoutLineFeed,
    DashIsFile,
    OptionPassed,
    OptionIsName,
    ThirdNamePassed,
    UsageOfOneOnly,
    UsageTurned,
    HelpToErrors,
    UnfitToOutput,
    HelpGoesOn,
    UnfitGoesOn,
    UnreadUntold,
    UnwrittenUntold,
    // What disassemble prints.
    HexPrinted,
    LeadingZeroPrinted,
    EntryAsNumber,
    JumpAsNumber,
    GoAsNumber,
    TransactionsInTaskOrder,
    TransactionZeroPrinted,
    TransactionsLeftOut,
    TaskWithoutTransaction,
    EmptyLineLeftOut,
    EmptyLineInTheEnd,
    LastLineFeedMissing,
    LabelEverywhere,
    LabelsOfAllBodies,
    LabelWhereGoSays,
    LabelsFromOne,
    LabelNotPadded,
    TabBeforeInstruction,
    UnusedFieldPrinted,
    SmallOpcodesPrinted,
    EventsNumberedOn,
}

/// The right clauses with a mistake.
pub struct Mutant(pub Mutation);

/// A text's bytes and lines, as the limits have them.
fn bytes_and_lines(text: &[u8]) -> (usize, usize) {
    (text.len(), text.iter().filter(|byte| **byte == b'\n').count() + 1)
}

/// The words with a change.
fn changed(words: &[u16], change: impl Fn(&mut [u16])) -> Vec<u16> {
    let mut words = words.to_vec();
    change(&mut words);
    words
}

impl Mutant {
    /// A number's next character, by the mistakes about numbers.
    fn number_extended(&self, part: &PartialWord, byte: u8) -> Option<Result<PartialWord, Kind>> {
        let hex = matches!(part, PartialWord::Prefix | PartialWord::Hex(_));
        let value = if let PartialWord::Decimal(value) | PartialWord::Hex(value) = *part { value } else { 0 };
        match self.0 {
            Mutation::HexAsDecimal if hex => Some(Right.extended(PartialWord::Decimal(value), byte)),
            Mutation::CapitalPrefixUnread if *part == PartialWord::Zero && byte == b'X' => {
                Some(Err(Kind::NumberMalformed))
            }
            Mutation::SmallHexDigitsOnly if hex && byte.is_ascii_uppercase() => Some(Err(Kind::NumberMalformed)),
            Mutation::CapitalHexDigitsOnly if hex && byte.is_ascii_lowercase() => Some(Err(Kind::NumberMalformed)),
            Mutation::LeadingZeroUnread if *part == PartialWord::Zero && byte.is_ascii_digit() => {
                Some(Err(Kind::NumberMalformed))
            }
            Mutation::NumberWraps if byte.is_ascii_hexdigit() => {
                let digit = char::from(byte).to_digit(16).unwrap_or(0) as u16;
                match part {
                    PartialWord::Decimal(_) if digit < 10 => {
                        Some(Ok(PartialWord::Decimal(value.wrapping_mul(10).wrapping_add(digit))))
                    }
                    PartialWord::Hex(_) => Some(Ok(PartialWord::Hex(value.wrapping_mul(16).wrapping_add(digit)))),
                    _ => None,
                }
            }
            _ => None,
        }
    }

    /// A name's next character, by the mistakes about names.
    fn name_extended(&self, part: &PartialWord, byte: u8) -> Option<Result<PartialWord, Kind>> {
        if self.0 == Mutation::NameBeginsWithLetter && *part == PartialWord::Nothing && byte == b'_' {
            return Some(Err(Kind::Character));
        }
        let PartialWord::Name(name) = part else { return None };
        match (self.0, name.len()) {
            (Mutation::NamesOfEleven, 11) => Some(Err(Kind::NameTooLong)),
            (Mutation::NamesOfThirteen, 12) => Some(Ok(PartialWord::Name(format!("{name}{}", char::from(byte))))),
            (Mutation::LongNamesCut, 12) => Some(Ok(part.clone())),
            _ => None,
        }
    }

    /// The mistakes of a table that is told in a wrong order.
    fn turned(&self) -> Option<Table> {
        match self.0 {
            Mutation::ReadingOrder => Some(Table::Reading),
            Mutation::StatementOrder => Some(Table::Statement),
            Mutation::AmongOrder => Some(Table::Among),
            Mutation::TextOrder => Some(Table::Text),
            Mutation::RulesOrder => Some(Table::Rules),
            _ => None,
        }
    }

    /// A mistake that isn't told.
    fn untold(&self) -> Option<Kind> {
        match self.0 {
            Mutation::NameDueUntold => Some(Kind::NameDue),
            Mutation::LabelPlaceUntold => Some(Kind::LabelPlace),
            Mutation::LabelTakenUntold => Some(Kind::LabelTaken),
            Mutation::NameTakenUntold => Some(Kind::NameTaken),
            Mutation::GivenAboveUntold => Some(Kind::GivenAbove),
            _ => None,
        }
    }
}

impl Clauses for Mutant {
    fn too_large(&self, text: &[u8]) -> bool {
        let (bytes, lines) = bytes_and_lines(text);
        match self.0 {
            Mutation::BytesUnlimited => lines > 65_536,
            Mutation::LinesUnlimited => bytes > 1_048_576,
            Mutation::ByteLimitOneShort => bytes > 1_048_575 || lines > 65_536,
            Mutation::LineLimitOneShort => bytes > 1_048_576 || lines > 65_535,
            _ => Right.too_large(text),
        }
    }

    fn lines<'a>(&self, text: &'a [u8]) -> Vec<&'a [u8]> {
        let mut lines = Right.lines(text);
        match self.0 {
            Mutation::LastLineLost if lines.last().is_some_and(|line| !line.is_empty()) => {
                lines.pop();
            }
            Mutation::EmptyLinesNotCounted => lines.retain(|line| !line.is_empty()),
            Mutation::CarriageReturnEndsLine => lines = text.split(|byte| b"\r\n".contains(byte)).collect(),
            _ => {}
        }
        lines
    }

    fn without_comment<'a>(&self, line: &'a [u8]) -> &'a [u8] {
        let right = Right.without_comment(line);
        match self.0 {
            Mutation::SemicolonKept => &line[..line.len().min(right.len() + 1)],
            Mutation::CommentFromLastSemicolon => {
                &line[..line.iter().rposition(|byte| *byte == b';').unwrap_or(line.len())]
            }
            _ => right,
        }
    }

    fn byte_class(&self, byte: u8) -> ByteClass {
        match (self.0, byte) {
            (Mutation::TabInvalid, b'\t') => ByteClass::Invalid,
            (Mutation::CommaInvalid, b',') => ByteClass::Invalid,
            (Mutation::CarriageReturnInvalid, b'\r') => ByteClass::Invalid,
            (Mutation::UnderscoreInvalid, b'_') => ByteClass::Invalid,
            (Mutation::FormFeedSeparates, 0x0B | 0x0C) => ByteClass::Separator,
            (Mutation::HighBytesRead, 0x80..) => ByteClass::Word,
            _ => Right.byte_class(byte),
        }
    }

    fn extended(&self, part: PartialWord, byte: u8) -> Result<PartialWord, Kind> {
        let changed = self.number_extended(&part, byte).or_else(|| self.name_extended(&part, byte));
        changed.unwrap_or_else(|| Right.extended(part, byte))
    }

    fn finished(&self, part: PartialWord) -> Result<Option<Word>, Kind> {
        match (self.0, part) {
            (Mutation::PrefixAloneIsZero, PartialWord::Prefix) => Ok(Some(Word::Number(0))),
            (_, part) => Right.finished(part),
        }
    }

    fn too_many(&self, words: usize, label: bool, ended: bool) -> bool {
        match self.0 {
            Mutation::FifthWordAtItsStart => words == 5,
            Mutation::LabelCountsAsWord => Right.too_many(words + usize::from(label), label, ended),
            _ => Right.too_many(words, label, ended),
        }
    }

    fn label_stands(&self, line: &Line, part: &PartialWord) -> bool {
        match (self.0, line.words.as_slice(), part) {
            (Mutation::ColonTouchesName, [Word::Name(_)], PartialWord::Nothing) => false,
            (Mutation::SecondLabelStands, [], PartialWord::Name(_)) => true,
            (Mutation::NumberAsLabel, [], PartialWord::Zero | PartialWord::Decimal(_) | PartialWord::Hex(_)) => true,
            _ => Right.label_stands(line, part),
        }
    }

    fn keyword(&self, name: &str) -> Option<Keyword> {
        let right = Right.keyword(name);
        match (self.0, right) {
            (Mutation::CapitalOpcodesOnly, Some(Keyword::Opcode(_))) => right.filter(|_| name == name.to_uppercase()),
            (Mutation::SmallStatementsOnly, Some(Keyword::Opcode(_))) => right,
            (Mutation::SmallStatementsOnly, _) => right.filter(|_| name == name.to_lowercase()),
            (Mutation::OrTakenForAnd, Some(Keyword::Opcode(OR))) => Some(Keyword::Opcode(AND)),
            _ => right,
        }
    }

    fn fields(&self, opcode: u16) -> &'static [Field] {
        let right = Right.fields(opcode);
        match (self.0, right) {
            (Mutation::KBeforeB, [Field::A, Field::B, Field::K]) => &[Field::A, Field::K, Field::B],
            (Mutation::BBeforeA, [Field::A, Field::B]) => &[Field::B, Field::A],
            _ => right,
        }
    }

    fn word_count(&self, first: Keyword) -> RangeInclusive<usize> {
        let right = Right.word_count(first);
        match self.0 {
            Mutation::ExtraWordsPassed => *right.start()..=4,
            Mutation::MissingWordsZero if matches!(first, Keyword::Opcode(_)) => 0..=*right.end(),
            _ => right,
        }
    }

    fn k_due(&self, opcode: u16) -> Due {
        match self.0 {
            Mutation::LabelAsAnyK => Due::Either,
            _ => Right.k_due(opcode),
        }
    }

    fn key(&self, space: Namespace, name: &str) -> (Namespace, String) {
        match (self.0, space) {
            (Mutation::CaseMatters, _) => (space, name.to_string()),
            (Mutation::EightCharacters, _) => Right.key(space, &name[..name.len().min(8)]),
            (Mutation::TasksAndEventsShareNames, Namespace::Events) => Right.key(Namespace::Tasks, name),
            (Mutation::BodiesShareLabels, Namespace::Labels(_)) => Right.key(Namespace::Labels(0), name),
            _ => Right.key(space, name),
        }
    }

    fn label_number(&self, next: usize, alone: bool) -> usize {
        match self.0 {
            Mutation::LabelOneOff => next + 1,
            Mutation::LabelAloneIsAbove if alone => next.saturating_sub(1),
            _ => next,
        }
    }

    fn known(&self, space: Namespace, name: &str, stands: usize, used: usize) -> bool {
        let above_only = match space {
            Namespace::Tasks => self.0 == Mutation::TasksAboveOnly,
            Namespace::Transactions => self.0 == Mutation::TransactionsAboveOnly,
            Namespace::Labels(_) => self.0 == Mutation::LabelsAboveOnly,
            Namespace::Events => false,
        };
        let reserved = self.0 == Mutation::ReservedNames && Right.keyword(name).is_some();
        !(above_only && stands > used || reserved)
    }

    fn label_target(&self, number: usize, count: usize) -> Option<usize> {
        match self.0 {
            Mutation::LabelBehindIsLast => Some(number.min(count.saturating_sub(1))),
            Mutation::LabelBehindUnknown => Some(number).filter(|number| *number < count),
            _ => Right.label_target(number, count),
        }
    }

    fn first(&self, shown: &[Kind]) -> Option<Kind> {
        let told: Vec<Kind> = shown.iter().copied().filter(|kind| self.untold() != Some(*kind)).collect();
        let first = *told.first()?;
        match self.turned() == Some(first.table()) {
            true => told.last().copied(),
            false => Some(first),
        }
    }

    fn order(&self) -> &'static [&'static [Table]] {
        use Table::{Among, Reading, Rules, Statement, Text};
        match self.0 {
            Mutation::LineByLine => &[&[Reading, Statement, Among], &[Text], &[Rules]],
            Mutation::TableByTable => &[&[Reading], &[Statement], &[Among], &[Text], &[Rules]],
            Mutation::ReadingBeforeAll => &[&[Reading], &[Statement, Among], &[Text], &[Rules]],
            Mutation::AmongBeforeItself => &[&[Among], &[Reading, Statement], &[Text], &[Rules]],
            Mutation::TextBeforeLines => &[&[Text], &[Reading, Statement], &[Among], &[Rules]],
            Mutation::TextBeforeAmong => &[&[Reading, Statement], &[Text], &[Among], &[Rules]],
            Mutation::RulesBeforeText => &[&[Reading, Statement], &[Among], &[Rules], &[Text]],
            Mutation::RulesUntold => &[&[Reading, Statement], &[Among], &[Text]],
            _ => Right.order(),
        }
    }

    fn first_line(&self, mistakes: &[Mistake]) -> Option<Mistake> {
        match self.0 {
            Mutation::LastMistake => mistakes.last().copied(),
            _ => Right.first_line(mistakes),
        }
    }

    fn line(&self, kind: Kind, named: usize, near: usize) -> usize {
        let table = match self.0 {
            Mutation::ReadingLine => Table::Reading,
            Mutation::StatementLine => Table::Statement,
            Mutation::AmongLine => Table::Among,
            Mutation::TextLine if kind != Kind::TextTooLarge => Table::Text,
            Mutation::TooLargeLine if kind == Kind::TextTooLarge => Table::Text,
            Mutation::RulesLine => Table::Rules,
            _ => return named,
        };
        match kind.table() == table {
            true => near,
            false => named,
        }
    }

    fn fits(&self, words: usize) -> bool {
        match self.0 {
            Mutation::ProgramLimitOneMore => words <= 65536,
            Mutation::ProgramLimitOneShort => words < 65535,
            _ => Right.fits(words),
        }
    }

    fn code(&self, instruction: &Instruction, k: u16) -> [u16; 2] {
        let Instruction { opcode, a, b, .. } = instruction;
        match (self.0, *opcode) {
            (Mutation::GoTakenForJump, GO) => [JUMP * 256, k],
            (Mutation::RegisterWraps, _) => [opcode * 256 + a % 16 * 16 + b % 16, k],
            _ => Right.code(instruction, k),
        }
    }

    fn image(&self, words: &[u16]) -> Vec<u8> {
        let words = match self.0 {
            Mutation::CountShort => changed(words, |words| words[7] -= 1),
            Mutation::EntryZero => changed(words, |words| words[4] = 0),
            Mutation::HighByteFirst => words.iter().map(|word| word.swap_bytes()).collect(),
            _ => words.to_vec(),
        };
        Right.image(&words)
    }

    fn image_words(&self, image: &[u8]) -> Result<Vec<u16>, Refusal> {
        match self.0 {
            Mutation::OddByteDropped => Right.image_words(&image[..image.len() / 2 * 2]),
            _ => Right.image_words(image),
        }
    }

    fn refused(&self, words: &[u16]) -> Option<Refusal> {
        let right = Right.refused(words)?;
        if self.0 != Mutation::PrintsRefused || right.number != 5 {
            return Some(right);
        }
        // An opcode that there isn't has no name.
        let mut firsts = rows(words).into_iter().flat_map(|row| (0..row.count).map(move |index| row.start + 2 * index));
        firsts.any(|at| words[at] >> 8 > 16).then_some(right)
    }

    fn mistake_text(&self, mistake: Mistake) -> String {
        match self.0 {
            Mutation::MistakeWithoutLineFeed => mistake.to_string(),
            _ => Right.mistake_text(mistake),
        }
    }

    fn refusal_text(&self, refusal: Refusal) -> String {
        let Refusal { number, place: (first, second) } = refusal;
        match self.0 {
            Mutation::RefusalPlaceSwapped => Right.refusal_text(Refusal { number, place: (second, first) }),
            Mutation::RefusalWithoutPlace => format!("refused {number}\n"),
            Mutation::RefusalInHex => format!("refused {number:x} {first:x} {second:x}\n"),
            Mutation::RefusalWithoutLineFeed => format!("refused {number} {first} {second}"),
            _ => Right.refusal_text(refusal),
        }
    }

    fn count_text(&self, count: usize, program: Program) -> String {
        match self.0 {
            Mutation::VerboseOtherWords => format!("{count} words\n"),
            Mutation::VerboseAlikeInBoth => Right.count_text(count, Program::Assemble),
            Mutation::VerboseWithoutLineFeed => Right.count_text(count, program).trim_end().to_string(),
            _ => Right.count_text(count, program),
        }
    }

    fn answer(&self, made: Result<(Vec<u8>, String), String>, verbose: bool) -> Answer {
        let mistaken = made.is_err();
        let mut answer = Right.answer(made, verbose || self.0 == Mutation::VerboseAlways);
        match self.0 {
            Mutation::MistakeToOutput if mistaken => {
                answer.output = Some(std::mem::take(&mut answer.errors).into_bytes());
            }
            Mutation::EmptyOutputOnMistake if mistaken => answer.output = Some(Vec::new()),
            Mutation::VerboseSilent if !mistaken => answer.errors.clear(),
            Mutation::VerboseOnMistake if mistaken && verbose => answer.errors.push_str("0 words\n"),
            _ => {}
        }
        answer
    }

    fn is_standard(&self, name: &str, output: bool) -> bool {
        match self.0 {
            Mutation::DashIsFile => output && Right.is_standard(name, output),
            _ => Right.is_standard(name, output),
        }
    }

    fn is_option(&self, argument: &str) -> bool {
        self.0 != Mutation::OptionIsName && Right.is_option(argument)
    }

    fn is_unfit(&self, other_options: usize, names: usize) -> bool {
        match self.0 {
            Mutation::OptionPassed => Right.is_unfit(0, names),
            Mutation::ThirdNamePassed => Right.is_unfit(other_options, names.min(2)),
            _ => Right.is_unfit(other_options, names),
        }
    }

    fn usage_text(&self, program: Program) -> String {
        match self.0 {
            Mutation::UsageOfOneOnly => format!("{}\n", program.usage()),
            Mutation::UsageTurned => format!("{}\n{}\n", Program::Disassemble.usage(), Program::Assemble.usage()),
            _ => Right.usage_text(program),
        }
    }

    fn usage_to_errors(&self, help: bool) -> bool {
        match self.0 {
            Mutation::HelpToErrors => true,
            Mutation::UnfitToOutput => false,
            _ => Right.usage_to_errors(help),
        }
    }

    fn goes_on(&self, help: bool) -> bool {
        match self.0 {
            Mutation::HelpGoesOn => help,
            Mutation::UnfitGoesOn => !help,
            _ => Right.goes_on(help),
        }
    }

    fn file_text(&self, program: Program, name: &str, error: &io::Error, writing: bool) -> String {
        match self.0 {
            Mutation::UnreadUntold if !writing => String::new(),
            Mutation::UnwrittenUntold if writing => String::new(),
            _ => Right.file_text(program, name, error, writing),
        }
    }

    fn printed_number(&self, number: u16) -> String {
        match self.0 {
            Mutation::HexPrinted if number > 9 => format!("0x{number:X}"),
            Mutation::LeadingZeroPrinted => format!("{number:02}"),
            _ => Right.printed_number(number),
        }
    }

    fn printed_name(&self, what: &str, number: u16) -> String {
        match (self.0, what) {
            (Mutation::LabelsFromOne, "at") => Right.printed_name(what, number + 1),
            _ => Right.printed_name(what, number),
        }
    }

    fn entry_name(&self) -> Option<&'static str> {
        match self.0 {
            Mutation::EntryAsNumber => None,
            _ => Right.entry_name(),
        }
    }

    fn printed_transactions(&self, rows: &[Row]) -> Vec<u16> {
        let numbers = rows.iter().filter(|row| row.task).map(|row| row.transaction);
        match self.0 {
            Mutation::TransactionsInTaskOrder => {
                let mut seen = BTreeSet::from([0]);
                numbers.filter(|number| seen.insert(*number)).collect()
            }
            Mutation::TransactionZeroPrinted => numbers.collect::<BTreeSet<u16>>().into_iter().collect(),
            Mutation::TransactionsLeftOut => Vec::new(),
            _ => Right.printed_transactions(rows),
        }
    }

    fn printed_between(&self) -> &'static str {
        match self.0 {
            Mutation::EmptyLineLeftOut => "",
            _ => Right.printed_between(),
        }
    }

    fn printed_row(&self, row: Row, tasks: u16) -> Row {
        match self.0 {
            Mutation::TaskWithoutTransaction => Row { transaction: 0, ..row },
            Mutation::EventsNumberedOn if !row.task => Row { number: row.number + tasks, ..row },
            _ => Right.printed_row(row, tasks),
        }
    }

    fn printed_labels(&self, words: &[u16], row: &Row) -> BTreeSet<u16> {
        let mut labels = Right.printed_labels(words, row);
        match self.0 {
            Mutation::LabelEverywhere => labels = (0..row.count as u16).collect(),
            Mutation::LabelsOfAllBodies => {
                labels = rows(words).iter().flat_map(|row| Right.printed_labels(words, row)).collect();
            }
            Mutation::LabelWhereGoSays => {
                let instructions = (0..row.count).map(|index| instruction(words, row, index));
                labels.extend(instructions.filter(|[opcode, ..]| *opcode == GO).map(|[.., k]| k));
            }
            _ => {}
        }
        labels
    }

    fn printed_before(&self, label: Option<String>) -> String {
        match (self.0, label) {
            (Mutation::TabBeforeInstruction, None) => "\t".to_string(),
            (Mutation::LabelNotPadded, Some(label)) => label + ": ",
            (_, label) => Right.printed_before(label),
        }
    }

    fn printed_opcode(&self, opcode: u16) -> String {
        match self.0 {
            Mutation::SmallOpcodesPrinted => Right.printed_opcode(opcode).to_lowercase(),
            _ => Right.printed_opcode(opcode),
        }
    }

    fn printed_fields(&self, opcode: u16) -> &'static [Field] {
        match (self.0, Right.printed_fields(opcode)) {
            (Mutation::UnusedFieldPrinted, [Field::A, Field::B]) => &[Field::A, Field::B, Field::K],
            (_, fields) => fields,
        }
    }

    fn k_name(&self, opcode: u16) -> Option<&'static str> {
        match self.0 {
            Mutation::JumpAsNumber if is_jump(opcode) => None,
            Mutation::GoAsNumber if opcode == GO => None,
            _ => Right.k_name(opcode),
        }
    }

    fn printed(&self, mut text: String) -> String {
        match self.0 {
            Mutation::EmptyLineInTheEnd => text.push('\n'),
            Mutation::LastLineFeedMissing => {
                text.pop();
            }
            _ => {}
        }
        text
    }
}
