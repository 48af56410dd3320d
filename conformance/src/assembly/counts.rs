//! What came up in the cases: of texts, of images, of what was told, and of how the programs were called.

use super::among::{
    first_pass, found, is_jump, mistakes_of_lines, space_of_k, Body, FirstPass, Namespace, Parsed, ParsedLine,
};
use super::clauses::{Clauses, Right};
use super::generate::{Case, FileArgument, Invocation};
use super::printing::{instruction, rows};
use super::programs::Program;
use super::reading::{ByteClass, Word};
use super::rules::{broken, refusal, words};
use super::statements::{Instruction, Statement, OPCODES};
use super::{assemble_by, parse_line, Kind, Table, KINDS};
use crate::reference::{GO, JLT, JUMP, JZ};
use crate::runtime::Refusal;
use std::cell::RefCell;
use std::collections::{HashMap, HashSet};

/// What must come up, besides what has a name in another table: texts that are accepted, and their lines.
const OF_TEXTS: [&str; 45] = [
    "last line with a line feed",
    "last line without a line feed",
    "empty line",
    "comment alone",
    "comment behind a word",
    "comment with a semicolon in it",
    "comment with bytes that can't stand elsewhere",
    "tab",
    "comma",
    "carriage return",
    "carriage return inside a line",
    "decimal number",
    "number with 0x",
    "number with 0X",
    "capital hex digit",
    "small hex digit",
    "zeros before a number",
    "name in other letters than where it stands",
    "names alike in their first 8 characters",
    "task and event of one name",
    "name of a statement as a name",
    "entry by name",
    "entry by number",
    "transaction by name",
    "transaction by number",
    "task without a transaction",
    "task of transaction 0",
    "task above its reference",
    "task below its reference",
    "transaction above its reference",
    "transaction below its reference",
    "memory below a body",
    "entry below a body",
    "label before its jump",
    "label behind its jump",
    "label at its own jump",
    "label alone",
    "label before an instruction",
    "blank before a colon",
    "several labels at one instruction",
    "label behind a body's last instruction",
    "label of one name in two bodies",
    "a program of 32 tasks",
    "a program of 16 events",
    "a body of 256 instructions",
];

/// Texts that aren't accepted, and the largest.
const OF_MISTAKES: [&str; 26] = [
    "several in one place: reading a line",
    "several in one place: a statement",
    "several in one place: a line among the others",
    "several in one place: the text",
    "several in one place: rules",
    "text without bytes",
    "text of 65536 lines, accepted",
    "text of 65537 lines",
    "text of 1048576 bytes, accepted",
    "text of 1048577 bytes",
    "program of 65535 words",
    "program of 65536 words",
    "several lines wrong by themselves",
    "several lines wrong among the others",
    "a statement's mistake above one of reading",
    "wrong among the others above a line that can't be read",
    "wrong among the others above a statement's mistake",
    "a name that only a line wrong by itself gives",
    "a name that a line wrong among the others gives",
    "a line wrong by itself, and a mistake of the text",
    "a line wrong among the others, and a mistake of the text",
    "a line wrong among the others, and a broken rule",
    "a mistake on a last line without a line feed",
    "a jump to a label behind a task's last instruction",
    "a jump to a label behind an event's last instruction",
    "wrong among the others below a jump to a label behind the last",
];

const OF_IMAGES: [&str; 25] = [
    "refused 1",
    "refused 1, an odd byte count",
    "refused 1, above 65535 words",
    "refused 2",
    "refused 3, T",
    "refused 3, E",
    "refused 3, M",
    "refused 3, entry",
    "refused 4, rows past the program",
    "refused 4, a row",
    "refused 4, the end",
    "refused 5, in a task",
    "refused 5, in an event",
    "refused 5, a place word above 9",
    "printed without events",
    "printed with an entry task other than 0",
    "printed without transactions",
    "printed with one transaction",
    "printed with several transactions",
    "printed transactions not in the tasks' order",
    "printed label of one digit",
    "printed label of two digits",
    "printed label of three digits",
    "printed body without labels",
    "printed program of 24726 words",
];

const OF_CALLS: [&str; 26] = [
    "called without names",
    "called with - to read",
    "called with - to write",
    "called with a file to read",
    "called with a file to write",
    "called with --verbose: assemble",
    "called with --verbose: disassemble",
    "called with --verbose, a mistake or a refusal",
    "called with --help",
    "called with --help and --verbose",
    "called with --help and a file to write",
    "called with another option before the names",
    "called with another option behind the names",
    "called with another option and a file to write",
    "called with three names",
    "a file to write is there, and is written",
    "a file to write is there, and stays",
    "a file to write isn't there, and isn't written",
    "a file to read isn't there",
    "a folder's name to read",
    "a file to write in no folder",
    "a folder's name to write",
    "a file that can't be written, but a mistake or a refusal",
    "standard input from a pipe",
    "standard input from a file",
    "disassemble called with files",
];

/// The mistake of a kind, as the table has it.
fn told(kind: Kind) -> String {
    let more = match kind {
        Kind::EntryNumber => " (entry)",
        Kind::TaskNumber => " (GO)",
        _ => "",
    };
    format!("told: {}{more}", kind.words())
}

/// All that must come up, in the order of the table.
pub fn situations() -> Vec<String> {
    let mut names: Vec<String> = KINDS.iter().map(|(kind, _)| told(*kind)).collect();
    names.extend(OPCODES.iter().map(|(name, _)| format!("assembled: {name}")));
    names.extend(OPCODES.iter().map(|(name, _)| format!("printed: {name}")));
    for opcode in [JUMP, JZ, JLT, GO] {
        let name = OPCODES[opcode as usize].0;
        names.extend(["name", "number"].map(|way| format!("{name} by {way}")));
    }
    names.extend((1..=12).map(|length| format!("name of {length} characters")));
    let lists = OF_TEXTS.iter().chain(&OF_MISTAKES).chain(&OF_IMAGES).chain(&OF_CALLS);
    names.extend(lists.map(|name| name.to_string()));
    names
}

#[derive(Clone, Debug, Default)]
pub struct Counts {
    pub cases: u64,
    met: HashMap<String, u64>,
}

impl Counts {
    fn one(&mut self, name: &str) {
        *self.met.entry(name.to_string()).or_insert(0) += 1;
    }

    fn add(&mut self, situations: &[(&str, bool)]) {
        for (name, _) in situations.iter().filter(|(_, met)| *met) {
            self.one(name);
        }
    }

    pub fn add_all(&mut self, other: &Counts) {
        self.cases += other.cases;
        for (name, count) in &other.met {
            *self.met.entry(name.clone()).or_insert(0) += count;
        }
    }

    /// Each situation with how often it came up.
    pub fn rows(&self) -> Vec<(String, u64)> {
        let listed = situations();
        for name in self.met.keys() {
            assert!(listed.contains(name), "{name} isn't listed");
        }
        listed.into_iter().map(|name| (name.clone(), self.met.get(&name).copied().unwrap_or(0))).collect()
    }

    pub fn table(&self) -> String {
        self.rows().iter().map(|(name, count)| format!("{name:<62}{count:>10}\n")).collect()
    }

    /// What never came up.
    pub fn missing(&self) -> Vec<String> {
        self.rows().into_iter().filter(|(_, count)| *count == 0).map(|(name, _)| name).collect()
    }
}

// ---------------------------------------------------------------------------------------------------------
// Texts that are accepted

/// A text taken apart.
struct Text<'a> {
    bytes: &'a [u8],
    lines: Vec<&'a [u8]>,
    parsed: Vec<Parsed>,
    pass: FirstPass,
}

impl Text<'_> {
    fn new(bytes: &[u8]) -> Text<'_> {
        let lines = Right.lines(bytes);
        let parsed: Vec<Parsed> = lines.iter().map(|line| parse_line(&Right, line)).collect();
        let pass = first_pass(&Right, &parsed);
        Text { bytes, lines, parsed, pass }
    }

    /// The lines that are right by themselves, with their numbers.
    fn right_lines(&self) -> impl Iterator<Item = (usize, &ParsedLine)> {
        self.parsed.iter().enumerate().filter_map(|(index, parsed)| Some((index + 1, parsed.as_ref().ok()?)))
    }

    /// The names that a line refers to.
    fn references(parsed: &ParsedLine) -> Option<&str> {
        match &parsed.statement {
            Some(Statement::Entry(Word::Name(name)) | Statement::Task(_, Some(Word::Name(name)))) => Some(name),
            Some(Statement::Instruction(Instruction { k: Word::Name(name), .. })) => Some(name),
            _ => None,
        }
    }

    /// Whether the name that a line refers to stands on a line that is wrong by itself.
    fn has_name_on_wrong_line(&self, line: usize) -> bool {
        let Some(name) = self.parsed[line - 1].as_ref().ok().and_then(Text::references) else { return false };
        let wrong = self.lines.iter().zip(&self.parsed).filter(|(_, parsed)| parsed.is_err());
        let mut words = wrong.flat_map(|(line, _)| written_words(line));
        words.any(|word| word.eq_ignore_ascii_case(name.as_bytes()))
    }

    /// Whether a line above refers to the name that a line gives, as a task's or as a label.
    fn has_reference_above(&self, line: usize) -> bool {
        let Ok(ParsedLine { label, statement }) = &self.parsed[line - 1] else { return false };
        let task = if let Some(Statement::Task(name, _)) = statement { Some(name) } else { None };
        let mut given = label.iter().chain(task);
        let above: Vec<&str> =
            self.right_lines().take(line - 1).filter_map(|(_, parsed)| Text::references(parsed)).collect();
        given.any(|name| above.iter().any(|other| other.eq_ignore_ascii_case(name)))
    }

    /// The lines of jumps to labels behind their body's last instruction, with whether it is a task's body.
    fn jumps_behind(&self) -> Vec<(usize, bool)> {
        let mut jumps = Vec::new();
        for (number, body) in self.pass.bodies.iter().enumerate() {
            for (line, Instruction { opcode, k, .. }) in &body.instructions {
                let Word::Name(label) = k else { continue };
                let symbol = self.pass.symbols.get(&Right.key(Namespace::Labels(number), label));
                if is_jump(*opcode) && symbol.is_some_and(|symbol| symbol.number >= body.instructions.len()) {
                    jumps.push((*line, body.task));
                }
            }
        }
        jumps
    }
}

/// The words of a line's bytes, as they are written, without its colons and its comment.
fn written_words(line: &[u8]) -> impl Iterator<Item = &[u8]> {
    Right.without_comment(line).split(|byte| b" \t\r,:".contains(byte)).filter(|word| !word.is_empty())
}

impl Counts {
    fn characters(&mut self, text: &Text) {
        let ended = text.bytes.ends_with(b"\n");
        self.add(&[("last line with a line feed", ended), ("last line without a line feed", !ended)]);
        for line in &text.lines {
            let words = Right.without_comment(line);
            let comment = line.get(words.len() + 1..).unwrap_or(&[]);
            let commented = words.len() < line.len();
            let behind = words.last().is_some_and(|byte| byte.is_ascii_alphanumeric());
            let elsewhere = comment.iter().any(|byte| Right.byte_class(*byte) == ByteClass::Invalid && *byte != b';');
            self.add(&[
                ("empty line", line.is_empty()),
                ("comment alone", commented && words.is_empty()),
                ("comment behind a word", commented && behind),
                ("comment with a semicolon in it", comment.contains(&b';')),
                ("comment with bytes that can't stand elsewhere", elsewhere),
                ("tab", words.contains(&b'\t')),
                ("comma", words.contains(&b',')),
                ("carriage return", words.contains(&b'\r')),
                ("carriage return inside a line", words.trim_ascii().contains(&b'\r')),
                ("blank before a colon", words.windows(2).any(|pair| b" \t\r,".contains(&pair[0]) && pair[1] == b':')),
            ]);
            written_words(line).for_each(|word| self.word(word));
        }
    }

    fn word(&mut self, word: &[u8]) {
        let hex = word.starts_with(b"0x") || word.starts_with(b"0X");
        let number = word[0].is_ascii_digit();
        let digits = if hex { &word[2..] } else { word };
        self.add(&[
            ("decimal number", number && !hex),
            ("number with 0x", word.starts_with(b"0x")),
            ("number with 0X", word.starts_with(b"0X")),
            ("capital hex digit", hex && digits.iter().any(u8::is_ascii_uppercase)),
            ("small hex digit", hex && digits.iter().any(u8::is_ascii_lowercase)),
            ("zeros before a number", number && digits.len() > 1 && digits[0] == b'0'),
        ]);
        if !number {
            self.one(&format!("name of {} characters", word.len()));
        }
    }

    /// A name that stands on one line and is used on another.
    fn reference(&mut self, text: &Text, space: Namespace, name: &str, line: usize) {
        let Some(symbol) = text.pass.symbols.get(&Right.key(space, name)) else { return };
        let written = written_words(text.lines[symbol.line - 1]).any(|word| word == name.as_bytes());
        let (task, transaction) = (space == Namespace::Tasks, space == Namespace::Transactions);
        self.add(&[
            ("name in other letters than where it stands", !written),
            ("task above its reference", task && symbol.line < line),
            ("task below its reference", task && symbol.line > line),
            ("transaction above its reference", transaction && symbol.line < line),
            ("transaction below its reference", transaction && symbol.line > line),
        ]);
    }

    fn statement(&mut self, text: &Text, line: usize, statement: &Statement, in_body: bool) {
        let by_name = |word: &Word| matches!(word, Word::Name(_));
        let (space, word) = match statement {
            Statement::Memory(_) => return self.add(&[("memory below a body", in_body)]),
            Statement::Entry(word) => {
                let name = by_name(word);
                self.add(&[("entry below a body", in_body), ("entry by name", name), ("entry by number", !name)]);
                (Namespace::Tasks, word)
            }
            Statement::Task(_, None) => return self.one("task without a transaction"),
            Statement::Task(_, Some(word)) => {
                let name = by_name(word);
                self.add(&[("transaction by name", name), ("transaction by number", !name)]);
                (Namespace::Transactions, word)
            }
            _ => return,
        };
        match word {
            Word::Name(name) => self.reference(text, space, name, line),
            Word::Number(number) => {
                self.add(&[("task of transaction 0", space == Namespace::Transactions && *number == 0)]);
            }
        }
    }

    fn instruction(&mut self, text: &Text, body: usize, index: usize, line: usize, code: &Instruction) {
        let name = OPCODES[code.opcode as usize].0;
        self.one(&format!("assembled: {name}"));
        if !is_jump(code.opcode) && code.opcode != GO {
            return;
        }
        let Word::Name(target) = &code.k else { return self.one(&format!("{name} by number")) };
        self.one(&format!("{name} by name"));
        let space = space_of_k(code.opcode, body);
        self.reference(text, space, target, line);
        if is_jump(code.opcode) {
            let at = found(&Right, &text.pass, space, target, line).unwrap_or(0);
            self.add(&[
                ("label before its jump", at < index),
                ("label behind its jump", at > index),
                ("label at its own jump", at == index),
            ]);
        }
    }

    /// A body's instructions and labels.
    fn body(&mut self, text: &Text, number: usize, body: &Body) {
        for (index, (line, code)) in body.instructions.iter().enumerate() {
            self.instruction(text, number, index, *line, code);
        }
        let labels = text.pass.symbols.iter().filter(|((space, _), _)| *space == Namespace::Labels(number));
        let (mut at, mut behind) = (HashSet::new(), false);
        for ((_, name), symbol) in labels {
            let again = !at.insert(symbol.number);
            behind |= symbol.number >= body.instructions.len();
            let elsewhere =
                (0..number).any(|other| text.pass.symbols.contains_key(&(Namespace::Labels(other), name.clone())));
            self.add(&[("several labels at one instruction", again), ("label of one name in two bodies", elsewhere)]);
        }
        self.add(&[
            ("label behind a body's last instruction", behind),
            ("a body of 256 instructions", body.instructions.len() == 256),
        ]);
    }

    /// All names of a text together.
    fn names(&mut self, text: &Text) {
        let mut alike: HashMap<(Namespace, &str), u64> = HashMap::new();
        for (space, name) in text.pass.symbols.keys() {
            *alike.entry((*space, &name[..name.len().min(8)])).or_insert(0) += 1;
            let shared =
                *space == Namespace::Events && text.pass.symbols.contains_key(&(Namespace::Tasks, name.clone()));
            let reserved = Right.keyword(name).is_some();
            self.add(&[("task and event of one name", shared), ("name of a statement as a name", reserved)]);
        }
        self.add(&[("names alike in their first 8 characters", alike.values().any(|count| *count > 1))]);
    }

    fn accepted(&mut self, text: &Text) {
        self.characters(text);
        self.names(text);
        let mut in_body = false;
        for (line, ParsedLine { label, statement }) in text.right_lines() {
            self.add(&[
                ("label alone", label.is_some() && statement.is_none()),
                ("label before an instruction", label.is_some() && statement.is_some()),
            ]);
            if let Some(statement) = statement {
                self.statement(text, line, statement, in_body);
                in_body |= matches!(statement, Statement::Task(..));
            }
        }
        // Of very large texts only the first bodies are looked at.
        for (number, body) in text.pass.bodies.iter().take(48).enumerate() {
            self.body(text, number, body);
        }
        self.add(&[
            ("a program of 32 tasks", text.pass.count(true) == 32),
            ("a program of 16 events", text.pass.count(false) == 16),
        ]);
    }
}

// ---------------------------------------------------------------------------------------------------------
// Texts that aren't, and images

/// The right clauses, which note where different mistakes of a table show in one place.
#[derive(Default)]
struct Recording {
    firsts: RefCell<Vec<Kind>>,
}

impl Clauses for Recording {
    fn first(&self, shown: &[Kind]) -> Option<Kind> {
        if shown.first() != shown.last() {
            self.firsts.borrow_mut().extend(shown.first());
        }
        Right.first(shown)
    }
}

impl Counts {
    /// What a text with a mistake has besides it.
    fn mistaken(&mut self, text: &Text, kind: Kind, line: usize) {
        let all = mistakes_of_lines(&Right, &text.parsed, &text.pass);
        let table = kind.table();
        let (itself, among) = (table < Table::Among, table == Table::Among);
        let above = all.iter().take_while(|mistake| mistake.line < line).count() > 0;
        let wrong_by_itself = all.iter().filter(|mistake| mistake.kind.table() < Table::Among).count();
        let reading_below = all.iter().any(|mistake| mistake.line > line && mistake.kind.table() == Table::Reading);
        let is_unknown = |kind| matches!(kind, Kind::UnknownTask | Kind::UnknownLabel | Kind::UnknownTransaction);
        let mut unknown = all.iter().filter(|mistake| is_unknown(mistake.kind));
        let misplaced = matches!(kind, Kind::LabelPlace | Kind::TaskBehindEvent);
        let lacking = text.pass.memory.is_none() || text.pass.entry.is_none();
        let last = line == text.lines.len() && !text.bytes.ends_with(b"\n");
        self.add(&[
            ("several lines wrong by themselves", wrong_by_itself > 1),
            ("several lines wrong among the others", among && all.len() > 1),
            ("a statement's mistake above one of reading", table == Table::Statement && reading_below),
            ("wrong among the others above a line that can't be read", table == Table::Reading && above),
            ("wrong among the others above a statement's mistake", table == Table::Statement && above),
            (
                "a name that only a line wrong by itself gives",
                itself && unknown.any(|mistake| text.has_name_on_wrong_line(mistake.line)),
            ),
            ("a name that a line wrong among the others gives", misplaced && text.has_reference_above(line)),
            ("a line wrong by itself, and a mistake of the text", itself && lacking),
            ("a line wrong among the others, and a mistake of the text", among && lacking),
            ("a mistake on a last line without a line feed", (itself || among) && last),
        ]);
        if !itself {
            self.behind_reading(text, kind, line);
        }
    }

    /// What a text whose lines are right by themselves has besides its mistake.
    fn behind_reading(&mut self, text: &Text, kind: Kind, line: usize) {
        let among = kind.table() == Table::Among;
        let broken = among && text.pass.memory.is_some() && text.pass.entry.is_some() && {
            let words = words(&Right, &text.pass);
            broken(&Right, &text.pass, &words).is_some()
        };
        let jumps = text.jumps_behind();
        let told = |task: bool| kind == Kind::Target && jumps.contains(&(line, task));
        let jump_above = among && jumps.iter().any(|(jump, _)| *jump < line);
        self.add(&[
            ("a line wrong among the others, and a broken rule", broken),
            ("a jump to a label behind a task's last instruction", told(true)),
            ("a jump to a label behind an event's last instruction", told(false)),
            ("wrong among the others below a jump to a label behind the last", jump_above),
        ]);
    }

    /// A mistake that is told, and whether others show in the same place.
    fn told(&mut self, kind: Kind, recording: &Recording) {
        self.one(&told(kind));
        let several = recording.firsts.borrow().contains(&kind);
        self.add(&[
            ("several in one place: reading a line", several && kind.table() == Table::Reading),
            ("several in one place: a statement", several && kind.table() == Table::Statement),
            ("several in one place: a line among the others", several && kind.table() == Table::Among),
            ("several in one place: the text", several && kind.table() == Table::Text),
            ("several in one place: rules", several && kind.table() == Table::Rules),
        ]);
    }

    fn text(&mut self, bytes: &[u8]) -> bool {
        let recording = Recording::default();
        let answer = assemble_by(&recording, bytes);
        let lines = bytes.iter().filter(|byte| **byte == b'\n').count() + 1;
        self.add(&[
            ("text without bytes", bytes.is_empty()),
            ("text of 65536 lines, accepted", lines == 65_536 && answer.is_ok()),
            ("text of 65537 lines", lines == 65_537),
            ("text of 1048576 bytes, accepted", bytes.len() == 1_048_576 && answer.is_ok()),
            ("text of 1048577 bytes", bytes.len() == 1_048_577),
        ]);
        if let Err(mistake) = answer {
            self.told(mistake.kind, &recording);
            if mistake.kind == Kind::TextTooLarge {
                return false;
            }
        }
        let text = Text::new(bytes);
        self.add(&[
            ("program of 65535 words", text.pass.word_count() == 65535),
            ("program of 65536 words", text.pass.word_count() == 65536),
        ]);
        match answer {
            Ok(_) => self.accepted(&text),
            Err(mistake) => self.mistaken(&text, mistake.kind, mistake.line),
        }
        answer.is_ok()
    }

    fn refused(&mut self, words: &[u16], odd: bool, Refusal { number, place: (first, second) }: Refusal) {
        let word = |index: usize| words.get(index).copied().unwrap_or(0);
        let bodies = word(1).wrapping_add(word(2));
        let past = number == 4 && 6 + 3 * bodies as usize > words.len();
        self.add(&[
            ("refused 1", number == 1 && !odd),
            ("refused 1, an odd byte count", odd),
            ("refused 1, above 65535 words", number == 1 && words.len() > 65535),
            ("refused 2", number == 2),
            ("refused 3, T", number == 3 && first == 1),
            ("refused 3, E", number == 3 && first == 2),
            ("refused 3, M", number == 3 && first == 3),
            ("refused 3, entry", number == 3 && first == 4),
            ("refused 4, rows past the program", past),
            ("refused 4, a row", number == 4 && !past && first < bodies),
            ("refused 4, the end", number == 4 && !past && first == bodies),
            ("refused 5, in a task", number == 5 && first < word(1)),
            ("refused 5, in an event", number == 5 && first >= word(1)),
            ("refused 5, a place word above 9", number == 5 && (first > 9 || second > 9)),
        ]);
    }

    fn printed(&mut self, words: &[u16]) {
        let rows = rows(words);
        let numbers: Vec<u16> = rows.iter().map(|row| row.transaction).filter(|number| *number != 0).collect();
        let transactions = Right.printed_transactions(&rows);
        self.add(&[
            ("printed without events", words[2] == 0),
            ("printed with an entry task other than 0", words[4] != 0),
            ("printed without transactions", transactions.is_empty()),
            ("printed with one transaction", transactions.len() == 1),
            ("printed with several transactions", transactions.len() > 1),
            ("printed transactions not in the tasks' order", numbers.windows(2).any(|pair| pair[0] > pair[1])),
            ("printed program of 24726 words", words.len() == 24726),
        ]);
        for row in &rows {
            let labels = Right.printed_labels(words, row);
            self.add(&[
                ("printed label of one digit", labels.iter().any(|label| *label < 10)),
                ("printed label of two digits", labels.iter().any(|label| (10..100).contains(label))),
                ("printed label of three digits", labels.iter().any(|label| *label >= 100)),
                ("printed body without labels", labels.is_empty()),
            ]);
            for index in 0..row.count {
                let [opcode, ..] = instruction(words, row, index);
                self.one(&format!("printed: {}", OPCODES[opcode as usize].0));
            }
        }
    }

    fn image(&mut self, bytes: &[u8]) -> bool {
        let odd = bytes.len() % 2 == 1;
        let words = Right.image_words(&bytes[..bytes.len() / 2 * 2]).unwrap_or_default();
        let refusal = Right.image_words(bytes).err().or_else(|| refusal(&words));
        match refusal {
            Some(refusal) => self.refused(&words, odd, refusal),
            None => self.printed(&words),
        }
        refusal.is_none()
    }

    /// How a program was called that did its work, with a right answer or not.
    fn call(&mut self, case: &Case, answered: bool) {
        let called = &case.invocation;
        let (reads, writes) = (called.input == FileArgument::File, called.output == FileArgument::File);
        let verbose = |program| called.verbose && answered && case.program == program;
        self.add(&[
            ("called without names", called.input == FileArgument::Missing),
            ("called with - to read", called.input == FileArgument::Dash),
            ("called with - to write", called.output == FileArgument::Dash),
            ("called with a file to read", reads),
            ("called with a file to write", writes),
            ("called with --verbose: assemble", verbose(Program::Assemble)),
            ("called with --verbose: disassemble", verbose(Program::Disassemble)),
            ("called with --verbose, a mistake or a refusal", called.verbose && !answered),
            ("a file to write is there, and is written", writes && called.old && answered),
            ("a file to write is there, and stays", writes && called.old && !answered),
            ("a file to write isn't there, and isn't written", writes && !called.old && !answered),
            ("a file to write in no folder", called.output == FileArgument::Absent && answered),
            ("a folder's name to write", called.output == FileArgument::Folder && answered),
            ("a file that can't be written, but a mistake or a refusal", called.output.is_unfit() && !answered),
            ("standard input from a pipe", !reads && called.pipe),
            ("standard input from a file", !reads && !called.pipe),
            ("disassemble called with files", reads && writes && case.program == Program::Disassemble),
        ]);
    }

    /// How a program was called that told how it is called.
    fn usage(&mut self, called: &Invocation) {
        let writes = called.output == FileArgument::File;
        let option = called.before.or(called.behind).is_some();
        self.add(&[
            ("called with --help", called.help),
            ("called with --help and --verbose", called.help && called.verbose),
            ("called with --help and a file to write", called.help && writes),
            ("called with another option before the names", called.before.is_some()),
            ("called with another option behind the names", called.behind.is_some()),
            ("called with another option and a file to write", option && writes),
            ("called with three names", called.third != FileArgument::Missing),
        ]);
    }
}

/// What came up in a case.
pub fn counted(case: &Case) -> Counts {
    let mut counts = Counts { cases: 1, ..Counts::default() };
    let called = &case.invocation;
    if called.tells_usage() {
        counts.usage(called);
    } else if called.input.is_unfit() {
        let absent = called.input == FileArgument::Absent;
        counts.add(&[("a file to read isn't there", absent), ("a folder's name to read", !absent)]);
    } else {
        let answered = match case.program {
            Program::Assemble => counts.text(&case.input),
            Program::Disassemble => counts.image(&case.input),
        };
        counts.call(case, answered);
    }
    counts
}
