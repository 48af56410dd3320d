//! What disassemble prints of words that the check accepts.

use super::clauses::Clauses;
use super::statements::Field;

/// A body's row, with its number among the tasks, or among the events.
#[derive(Clone, Copy, PartialEq, Eq, Debug)]
pub struct Row {
    pub task: bool,
    pub number: u16,
    pub start: usize,
    pub count: usize,
    pub transaction: u16,
}

/// The rows, in their order.
pub fn rows(words: &[u16]) -> Vec<Row> {
    let (tasks, events) = (words[1], words[2]);
    let row = |body: u16| {
        let at = 6 + 3 * body as usize;
        let (task, number) = if body < tasks { (true, body) } else { (false, body - tasks) };
        Row { task, number, start: words[at] as usize, count: words[at + 1] as usize, transaction: words[at + 2] }
    };
    (0..tasks + events).map(row).collect()
}

/// An instruction of a body, taken apart: opcode, a, b and k.
pub fn instruction(words: &[u16], row: &Row, index: usize) -> [u16; 4] {
    let at = row.start + 2 * index;
    [words[at] >> 8, (words[at] >> 4) & 15, words[at] & 15, words[at + 1]]
}

/// A number, or the name of what has it.
fn reference(clauses: &dyn Clauses, what: Option<&str>, number: u16) -> String {
    match what {
        Some(what) => clauses.printed_name(what, number),
        None => clauses.printed_number(number),
    }
}

/// `memory`, `entry` and `transaction`.
fn front(clauses: &dyn Clauses, words: &[u16], rows: &[Row]) -> String {
    let memory = clauses.printed_number(words[3]);
    let mut text = format!("memory {memory}\nentry {}\n", reference(clauses, clauses.entry_name(), words[4]));
    for transaction in clauses.printed_transactions(rows) {
        let (name, number) = (clauses.printed_name("trans", transaction), clauses.printed_number(transaction));
        text.push_str(&format!("transaction {name} {number}\n"));
    }
    text
}

/// A body's line.
fn heading(clauses: &dyn Clauses, row: Row) -> String {
    let kind = if row.task { "task" } else { "event" };
    let name = clauses.printed_name(kind, row.number);
    match row.transaction {
        0 => format!("{kind} {name}\n"),
        transaction => format!("{kind} {name} {}\n", clauses.printed_name("trans", transaction)),
    }
}

/// An instruction without what stands before it.
fn instruction_text(clauses: &dyn Clauses, [opcode, a, b, k]: [u16; 4]) -> String {
    let mut text = clauses.printed_opcode(opcode);
    for field in clauses.printed_fields(opcode) {
        text.push(' ');
        text.push_str(&match field {
            Field::A => clauses.printed_number(a),
            Field::B => clauses.printed_number(b),
            Field::K => reference(clauses, clauses.k_name(opcode), k),
        });
    }
    text
}

/// A body: its line, then its instructions.
fn body(clauses: &dyn Clauses, words: &[u16], row: &Row) -> String {
    let mut text = heading(clauses, clauses.printed_row(*row, words[1]));
    let labels = clauses.printed_labels(words, row);
    for index in 0..row.count {
        let number = index as u16;
        let label = labels.contains(&number).then(|| clauses.printed_name("at", number));
        text.push_str(&clauses.printed_before(label));
        text.push_str(&instruction_text(clauses, instruction(words, row, index)));
        text.push('\n');
    }
    text
}

/// The text for words that the check accepts.
pub fn text(clauses: &dyn Clauses, words: &[u16]) -> String {
    let rows = rows(words);
    let mut text = front(clauses, words, &rows);
    for row in &rows {
        text.push_str(clauses.printed_between());
        text.push_str(&body(clauses, words, row));
    }
    clauses.printed(text)
}
