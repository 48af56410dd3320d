//! SHR: the words that must come up by each k, and every other k, which must be refused.

use crate::scenario::{Call, CALL_NAMES};

/// The number of words, and of the k that SHR has: "k 0 to 15".
pub const WORDS: usize = 65536;
pub const SHIFTS: usize = 16;

/// The calls that show a SHR, as indices in `CALL_NAMES`: check, step, run.
const CALLS: [usize; 3] = [0, 3, 6];

/// The row of the k that are refused, behind a row for each k.
const REFUSED: usize = SHIFTS;

/// A set of words.
#[derive(Clone, Debug, Default)]
struct Words(Vec<u64>);

impl Words {
    fn insert(&mut self, word: u16) {
        self.0.resize(WORDS / 64, 0);
        self.0[word as usize / 64] |= 1 << (word % 64);
    }

    fn has(&self, word: u16) -> bool {
        self.0.get(word as usize / 64).is_some_and(|bits| bits >> (word % 64) & 1 == 1)
    }

    fn count(&self) -> u32 {
        self.0.iter().map(|bits| bits.count_ones()).sum()
    }

    fn add_all(&mut self, other: &Words) {
        self.0.resize(self.0.len().max(other.0.len()), 0);
        for (bits, more) in self.0.iter_mut().zip(&other.0) {
            *bits |= more;
        }
    }
}

/// The words that came up by each k, then the k that were refused, by call.
#[derive(Clone, Debug, Default)]
pub struct Shifts {
    pub calls: u64,
    rows: [[Words; 3]; SHIFTS + 1],
}

/// A call's column.
fn column(call: &Call) -> usize {
    CALLS.iter().position(|kind| call.kind() == Some(*kind)).expect("a call that shows a SHR")
}

/// What must come up: every word by a k, in the calls that execute it; every k from 16 on.
fn wanted(row: usize, column: usize) -> Option<std::ops::RangeInclusive<u16>> {
    match (row, column) {
        (REFUSED, _) => Some(SHIFTS as u16..=u16::MAX),
        (_, 0) => None,
        _ => Some(0..=u16::MAX),
    }
}

fn name(row: usize) -> String {
    match row {
        REFUSED => "by 16 to 65535, refused 5".into(),
        k => format!("by {k}"),
    }
}

impl Shifts {
    pub fn add_all(&mut self, other: &Shifts) {
        self.calls += other.calls;
        for (words, more) in self.rows.iter_mut().flatten().zip(other.rows.iter().flatten()) {
            words.add_all(more);
        }
    }

    /// A call has shifted a word by k.
    pub fn shifted(&mut self, call: &Call, word: u16, k: u16) {
        self.rows[k as usize][column(call)].insert(word);
    }

    /// A call has refused a SHR with this k.
    pub fn refused(&mut self, call: &Call, k: u16) {
        self.rows[REFUSED][column(call)].insert(k);
    }

    /// What of a row never came up in a column.
    fn never(&self, row: usize, column: usize) -> Option<String> {
        let words = &self.rows[row][column];
        let mut never = wanted(row, column)?.filter(|word| !words.has(*word));
        let first = never.next()?;
        Some(format!("{}: {} missing, the first hex {first:04X}", name(row), 1 + never.count()))
    }

    /// What never came up, a line for each call.
    pub fn missing(&self) -> Vec<String> {
        let mut lines = Vec::new();
        for (column, kind) in CALLS.into_iter().enumerate() {
            let never: Vec<String> = (0..=REFUSED).filter_map(|row| self.never(row, column)).collect();
            if !never.is_empty() {
                lines.push(format!("{}, SHR: {}", CALL_NAMES[kind], never.join("; ")));
            }
        }
        lines
    }

    /// The table: for each k how many words came up, and how many k were refused.
    pub fn table(&self) -> String {
        let [one, two, three] = CALLS.map(|kind| CALL_NAMES[kind]);
        let mut text = format!("{:<46}{one:>9}{two:>9}{three:>9}\n", "SHR, different words; refused, different k");
        for (row, columns) in self.rows.iter().enumerate() {
            text.push_str(&format!("{:<46}", name(row)));
            for (column, words) in columns.iter().enumerate() {
                let cell = wanted(row, column).map_or(String::new(), |_| words.count().to_string());
                text.push_str(&format!("{cell:>9}"));
            }
            text.push('\n');
        }
        text
    }
}
