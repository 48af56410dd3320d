//! Line tables, request N3, sentence by sentence. Every level of every named line is counted, from 0 to 65535: slow and
//! plain, so that it has nothing in common with a quick check. What a table comes to is kept for a while, since a
//! list raises lines of one table again and again.

pub mod cases;
pub mod generate;
pub mod lists;
pub mod mutants;
pub mod situations;

use crate::runtime::{Answer, Refusal};
use std::cell::RefCell;
use std::collections::HashMap;

/// "Rows of four words: line (0 to 15), low level, high level, event (65535 for none)", "at most 64" of them.
pub const ROW_WORDS: usize = 4;
pub const MAX_ROWS: usize = 64;
pub const MAX_LINE: u16 = 15;
pub const NO_EVENT: u16 = 65535;

/// Levels 0 to 65535.
pub const LEVELS: usize = 65536;

/// A row. The high level belongs to it.
#[derive(Clone, Copy, PartialEq, Eq, Debug)]
pub struct Row {
    pub line: u16,
    pub low: u16,
    pub high: u16,
    pub event: u16,
}

impl Row {
    pub fn words(&self) -> [u16; ROW_WORDS] {
        [self.line, self.low, self.high, self.event]
    }

    pub fn has(&self, level: u16) -> bool {
        self.low <= level && level <= self.high
    }
}

/// The complete rows, in the table's order.
pub fn rows(table: &[u16]) -> impl Iterator<Item = Row> + '_ {
    let row = |words: &[u16]| Row { line: words[0], low: words[1], high: words[2], event: words[3] };
    table.chunks_exact(ROW_WORDS).map(row)
}

/// The words of rows.
pub fn table(rows: &[Row]) -> Vec<u16> {
    rows.iter().flat_map(Row::words).collect()
}

/// 30: "a 65th or incomplete row, a line past 15 or low above high (place: first such row, from 0)".
fn check_rows(table: &[u16]) -> Result<(), Refusal> {
    for (number, row) in table.chunks(ROW_WORDS).enumerate() {
        let wrong = number == MAX_ROWS || row.len() < ROW_WORDS || row[0] > MAX_LINE || row[1] > row[2];
        if wrong {
            return Err(Refusal { number: 30, place: (number as u16, 0) });
        }
    }
    Ok(())
}

/// How many of a line's rows have each level.
fn count(table: &[u16], line: u16) -> Vec<u8> {
    let mut counts = vec![0; LEVELS];
    for row in rows(table).filter(|row| row.line == line) {
        for count in &mut counts[row.low as usize..=row.high as usize] {
            *count += 1;
        }
    }
    counts
}

/// Levels are looked through in blocks of so many, since most blocks have none that is wrong.
const BLOCK: usize = 4096;

/// The lowest level with a wrong count.
pub fn lowest(counts: &[u8], wrong: impl Fn(u8) -> bool) -> Option<u16> {
    let any = |block: &[u8]| block.iter().fold(false, |any, count| any | wrong(*count));
    let start = counts.chunks(BLOCK).position(any)? * BLOCK;
    let offset = counts[start..].iter().position(|count| wrong(*count))?;
    Some((start + offset) as u16)
}

/// "31 an uncovered level, 32 a level covered twice (place: line, lowest level)"; "31 over all lines in rising order,
/// then 32 likewise". A line is named by its rows.
fn check_levels(table: &[u16]) -> Result<(), Refusal> {
    let named = (0..=MAX_LINE).filter(|line| rows(table).any(|row| row.line == *line));
    let counts: Vec<(u16, Vec<u8>)> = named.map(|line| (line, count(table, line))).collect();
    for (line, counts) in &counts {
        if let Some(level) = lowest(counts, |count| count == 0) {
            return Err(Refusal { number: 31, place: (*line, level) });
        }
    }
    for (line, counts) in &counts {
        if let Some(level) = lowest(counts, |count| count >= 2) {
            return Err(Refusal { number: 32, place: (*line, level) });
        }
    }
    Ok(())
}

/// How many tables are kept with what they come to.
const KEPT: usize = 1000;

thread_local! {
    static CHECKED: RefCell<HashMap<Vec<u16>, Result<(), Refusal>>> = RefCell::new(HashMap::new());
}

/// The table's check: 30, 31, 32.
pub fn check(table: &[u16]) -> Result<(), Refusal> {
    check_rows(table)?;
    CHECKED.with_borrow_mut(|checked| {
        if let Some(known) = checked.get(table) {
            return *known;
        }
        if checked.len() == KEPT {
            checked.clear();
        }
        let result = check_levels(table);
        checked.insert(table.to_vec(), result);
        result
    })
}

/// What raising a line comes to before any post: the event to post, with the level as data; or the answer, where the
/// table is refused, the line has no rows, or the level's row has no event.
pub fn event(table: &[u16], line: u16, level: u16) -> Result<u16, Answer> {
    check(table).map_err(Answer::Refused)?;
    match rows(table).find(|row| row.line == line && row.has(level)) {
        Some(Row { event, .. }) if event != NO_EVENT => Ok(event),
        _ => Err(Answer::NothingPosted),
    }
}
