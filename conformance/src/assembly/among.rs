//! A line among the others: what all lines of a text give together, and the mistakes that only show then.

use super::clauses::Clauses;
use super::reading::Word;
use super::statements::{Instruction, Statement};
use super::{Kind, Mistake};
use crate::reference::{GO, JLT, JUMP, JZ};
use std::collections::HashMap;

/// A line that is right by itself.
#[derive(Clone, PartialEq, Eq, Debug)]
pub struct ParsedLine {
    pub label: Option<String>,
    pub statement: Option<Statement>,
}

/// A line by itself, or its mistake of reading or of its statement.
pub type Parsed = Result<ParsedLine, Kind>;

/// "Tasks, events and transactions, and each body's labels, have names of their own". Bodies count from 0.
#[derive(Clone, Copy, PartialEq, Eq, Hash, Debug)]
pub enum Namespace {
    Tasks,
    Events,
    Transactions,
    Labels(usize),
}

/// What has a name: the line that gives it first, and the number of the task, event, transaction or instruction.
#[derive(Clone, Copy, PartialEq, Eq, Debug)]
pub struct Symbol {
    pub line: usize,
    pub number: usize,
}

#[derive(Clone, PartialEq, Eq, Debug)]
pub struct Body {
    pub line: usize,
    pub task: bool,
    pub transaction: Option<Word>,
    /// With their lines.
    pub instructions: Vec<(usize, Instruction)>,
}

/// What the lines of a text give together. A line that is wrong by itself gives nothing, but then its mistake comes
/// first; one that is wrong among the others gives what it says.
#[derive(Clone, Default, Debug)]
pub struct FirstPass {
    /// The number of the text's last line.
    pub last: usize,
    /// The first `memory` and the first `entry`, with their lines.
    pub memory: Option<(usize, u16)>,
    pub entry: Option<(usize, Word)>,
    pub symbols: HashMap<(Namespace, String), Symbol>,
    pub bodies: Vec<Body>,
}

impl FirstPass {
    /// How many tasks there are, or events.
    pub fn count(&self, tasks: bool) -> usize {
        self.bodies.iter().filter(|body| body.task == tasks).count()
    }

    /// How many words the program has.
    pub fn word_count(&self) -> usize {
        6 + self.bodies.iter().map(|body| 3 + 2 * body.instructions.len()).sum::<usize>()
    }

    fn name(&mut self, clauses: &dyn Clauses, space: Namespace, name: &str, symbol: Symbol) {
        self.symbols.entry(clauses.key(space, name)).or_insert(symbol);
    }

    fn begin(&mut self, line: usize, task: bool, transaction: &Option<Word>) {
        let transaction = transaction.clone();
        self.bodies.push(Body { line, task, transaction, instructions: Vec::new() });
    }

    /// One line more. `counts` has how many tasks and how many events are above.
    fn add(&mut self, clauses: &dyn Clauses, line: usize, parsed: &ParsedLine, counts: &mut (usize, usize)) {
        // "a label with `task` or `event` belongs to no body"
        let begins = matches!(parsed.statement, Some(Statement::Task(..) | Statement::Event(..)));
        if let (Some(label), Some(body), false) = (&parsed.label, self.bodies.len().checked_sub(1), begins) {
            let next = self.bodies[body].instructions.len();
            let number = clauses.label_number(next, parsed.statement.is_none());
            self.name(clauses, Namespace::Labels(body), label, Symbol { line, number });
        }
        match &parsed.statement {
            Some(Statement::Memory(number)) => {
                self.memory.get_or_insert((line, *number));
            }
            Some(Statement::Entry(task)) => {
                self.entry.get_or_insert((line, task.clone()));
            }
            Some(Statement::Transaction(name, number)) => {
                self.name(clauses, Namespace::Transactions, name, Symbol { line, number: *number as usize });
            }
            Some(Statement::Task(name, transaction)) => {
                self.name(clauses, Namespace::Tasks, name, Symbol { line, number: counts.0 });
                self.begin(line, true, transaction);
                counts.0 += 1;
            }
            Some(Statement::Event(name)) => {
                self.name(clauses, Namespace::Events, name, Symbol { line, number: counts.1 });
                self.begin(line, false, &None);
                counts.1 += 1;
            }
            Some(Statement::Instruction(instruction)) => {
                if let Some(body) = self.bodies.last_mut() {
                    body.instructions.push((line, instruction.clone()));
                }
            }
            None => {}
        }
    }
}

/// What these lines give together.
pub fn first_pass(clauses: &dyn Clauses, lines: &[Parsed]) -> FirstPass {
    let mut pass = FirstPass { last: lines.len(), ..FirstPass::default() };
    let mut counts = (0, 0);
    for (index, line) in lines.iter().enumerate() {
        if let Ok(parsed) = line {
            pass.add(clauses, index + 1, parsed, &mut counts);
        }
    }
    pass
}

/// The number that a name on this line stands for, none where nothing has this name.
pub fn found(clauses: &dyn Clauses, pass: &FirstPass, space: Namespace, name: &str, line: usize) -> Option<usize> {
    let Symbol { line: stands, number } = *pass.symbols.get(&clauses.key(space, name))?;
    let number = match space {
        Namespace::Labels(body) => clauses.label_target(number, pass.bodies.get(body)?.instructions.len())?,
        _ => number,
    };
    clauses.known(space, name, stands, line).then_some(number)
}

/// Where a name in k's place is looked for.
pub fn space_of_k(opcode: u16, body: usize) -> Namespace {
    match opcode {
        GO => Namespace::Tasks,
        _ => Namespace::Labels(body),
    }
}

/// Where a line stands: its number, and the body above it.
#[derive(Clone, Copy)]
struct Standing {
    line: usize,
    body: Option<usize>,
    event_above: bool,
}

/// Mistakes in the order of their table, each with a line that is near: where the name stands above, or where the body
/// begins.
type Shown = Vec<(Kind, usize)>;

/// "another line of the same body, above, has it", "of a task by a task above, [..]"
fn taken(clauses: &dyn Clauses, pass: &FirstPass, at: Standing, space: Namespace, name: &str) -> Option<usize> {
    let symbol = pass.symbols.get(&clauses.key(space, name))?;
    (symbol.line < at.line).then_some(symbol.line)
}

/// "a label before the first body, or with another statement"; "this label is taken"
fn label_mistakes(clauses: &dyn Clauses, pass: &FirstPass, at: Standing, parsed: &ParsedLine, shown: &mut Shown) {
    let Some(label) = &parsed.label else { return };
    if !matches!((at.body, &parsed.statement), (Some(_), None | Some(Statement::Instruction(_)))) {
        shown.push((Kind::LabelPlace, at.line - 1));
    }
    let above = at.body.and_then(|body| taken(clauses, pass, at, Namespace::Labels(body), label));
    shown.extend(above.map(|line| (Kind::LabelTaken, line)));
}

/// "it is before the first `task` or `event`"; "`task` below an `event`"; "this name is taken"; "a second `memory` or
/// `entry`"
fn place_mistakes(clauses: &dyn Clauses, pass: &FirstPass, at: Standing, statement: &Statement, shown: &mut Shown) {
    if matches!(statement, Statement::Instruction(_)) && at.body.is_none() {
        shown.push((Kind::InstructionPlace, 1));
    }
    if matches!(statement, Statement::Task(..)) && at.event_above {
        shown.push((Kind::TaskBehindEvent, at.line - 1));
    }
    let above = match statement {
        Statement::Task(name, _) => taken(clauses, pass, at, Namespace::Tasks, name),
        Statement::Event(name) => taken(clauses, pass, at, Namespace::Events, name),
        Statement::Transaction(name, _) => taken(clauses, pass, at, Namespace::Transactions, name),
        _ => None,
    };
    shown.extend(above.map(|line| (Kind::NameTaken, line)));
    let given = match statement {
        Statement::Memory(_) => pass.memory.as_ref().map(|(line, _)| *line),
        Statement::Entry(_) => pass.entry.as_ref().map(|(line, _)| *line),
        _ => None,
    };
    shown.extend(given.filter(|line| *line < at.line).map(|line| (Kind::GivenAbove, line)));
}

/// "no task has this name"; "no instruction of this body has this label"; "no transaction has this name"
fn name_mistakes(clauses: &dyn Clauses, pass: &FirstPass, at: Standing, statement: &Statement, shown: &mut Shown) {
    let (space, name, kind) = match statement {
        Statement::Entry(Word::Name(name)) => (Namespace::Tasks, name, Kind::UnknownTask),
        Statement::Task(_, Some(Word::Name(name))) => (Namespace::Transactions, name, Kind::UnknownTransaction),
        Statement::Instruction(Instruction { opcode, k: Word::Name(name), .. }) => {
            let space = space_of_k(*opcode, at.body.unwrap_or(usize::MAX));
            (space, name, if space == Namespace::Tasks { Kind::UnknownTask } else { Kind::UnknownLabel })
        }
        _ => return,
    };
    if found(clauses, pass, space, name, at.line).is_none() {
        let near = at.body.map_or(1, |body| pass.bodies.get(body).map_or(1, |body| body.line));
        shown.push((kind, near));
    }
}

/// The first mistake of this table that a line has.
fn mistake_among(clauses: &dyn Clauses, pass: &FirstPass, at: Standing, parsed: &ParsedLine) -> Option<Mistake> {
    let mut shown = Shown::new();
    label_mistakes(clauses, pass, at, parsed, &mut shown);
    if let Some(statement) = &parsed.statement {
        place_mistakes(clauses, pass, at, statement, &mut shown);
        name_mistakes(clauses, pass, at, statement, &mut shown);
    }
    let kinds: Vec<Kind> = shown.iter().map(|(kind, _)| *kind).collect();
    let kind = clauses.first(&kinds)?;
    let near = shown.iter().find(|(shown, _)| *shown == kind).map_or(at.line, |(_, near)| *near);
    Some(Mistake { line: clauses.line(kind, at.line, near), kind })
}

/// The first mistake of each line that has one, by itself or among the others, line by line.
pub fn mistakes_of_lines(clauses: &dyn Clauses, lines: &[Parsed], pass: &FirstPass) -> Vec<Mistake> {
    let mut mistakes = Vec::new();
    let mut at = Standing { line: 0, body: None, event_above: false };
    for read in lines {
        at.line += 1;
        let parsed = match read {
            Ok(parsed) => parsed,
            Err(kind) => {
                mistakes.push(Mistake { line: clauses.line(*kind, at.line, at.line - 1), kind: *kind });
                continue;
            }
        };
        mistakes.extend(mistake_among(clauses, pass, at, parsed));
        if let Some(Statement::Task(..) | Statement::Event(_)) = parsed.statement {
            at.body = Some(at.body.map_or(0, |body| body + 1));
            at.event_above |= matches!(parsed.statement, Some(Statement::Event(_)));
        }
    }
    mistakes
}

/// Whether an opcode's k may be a label.
pub fn is_jump(opcode: u16) -> bool {
    matches!(opcode, JUMP | JZ | JLT)
}
