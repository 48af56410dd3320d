//! Line tables and raises: the situations that must come up.

use super::{rows, Row, MAX_LINE, MAX_ROWS, NO_EVENT, ROW_WORDS};
use crate::reference::Reference;
use crate::runtime::*;
use crate::scenario::{Call, Machine, Outcome, CALL_NAMES};

/// The calls that are given a table, as indices in `CALL_NAMES`: lines-check, raise.
const CALLS: [usize; 2] = [7, 8];

/// In which of these calls a situation counts.
type In = [bool; 2];
const BOTH: In = [true; 2];
const RAISE: In = [false, true];

/// A call with its table, its answer, and the machine as the call left it.
struct Seen<'a> {
    table: &'a [u16],
    rows: Vec<Row>,
    line: u16,
    level: u16,
    answer: Answer,
    machine: &'a Machine,
    /// The number of the refusal that a post of event 0 would meet there, or 0.
    post: u16,
}

/// What may be wrong with a row: it is the 65th or a later one, incomplete, its line is past 15, its low above its high.
const EXTRA: usize = 0;
const PART: usize = 1;
const LINE: usize = 2;
const LEVELS: usize = 3;

impl Seen<'_> {
    // 30

    fn faults(&self, number: usize) -> [bool; 4] {
        let row: &[u16] = self.table.chunks(ROW_WORDS).nth(number).unwrap_or(&[]);
        let complete = row.len() == ROW_WORDS;
        [number >= MAX_ROWS, !complete, row.first() > Some(&MAX_LINE), complete && row[1] > row[2]]
    }

    fn refused(&self, number: u16) -> bool {
        matches!(self.answer, Answer::Refused(refusal) if refusal.number == number)
    }

    fn place(&self) -> (u16, u16) {
        match self.answer {
            Answer::Refused(refusal) => refusal.place,
            _ => (0, 0),
        }
    }

    /// 30 at a row that has this fault and no other.
    fn wrong_row(&self, fault: usize) -> bool {
        let mut alone = [false; 4];
        alone[fault] = true;
        self.refused(30) && self.faults(self.place().0 as usize) == alone
    }

    fn at_row_0(&self) -> bool {
        self.place().0 == 0
    }

    /// 30 at a row with one fault, and a later row has the other.
    fn wrong_rows(&self, fault: usize, later: usize) -> bool {
        let count = self.table.len().div_ceil(ROW_WORDS);
        self.wrong_row(fault) && (self.place().0 as usize + 1..count).any(|row| self.faults(row)[later])
    }

    // 31 and 32, and right tables

    fn of(&self, line: u16) -> impl Iterator<Item = &Row> {
        self.rows.iter().filter(move |row| row.line == line)
    }

    /// How many of a line's rows have a level.
    fn covered(&self, line: u16, level: u16) -> usize {
        self.of(line).filter(|row| row.has(level)).count()
    }

    fn lines(&self) -> Vec<u16> {
        (0..=MAX_LINE).filter(|line| self.of(*line).count() > 0).collect()
    }

    /// The uncovered levels of a line at which a gap starts.
    fn gaps(&self, line: u16) -> Vec<u16> {
        let behind = self.of(line).filter_map(|row| row.high.checked_add(1));
        [0].into_iter().chain(behind).filter(|level| self.covered(line, *level) == 0).collect()
    }

    /// The levels of a line, covered twice, at which one of its rows starts.
    fn overlaps(&self, line: u16) -> Vec<u16> {
        self.of(line).map(|row| row.low).filter(|level| self.covered(line, *level) >= 2).collect()
    }

    fn on_lowest_line(&self) -> bool {
        self.lines().first() == Some(&self.place().0)
    }

    /// The rows of the line and level that 32 names.
    fn twice(&self) -> Vec<Row> {
        let (line, level) = self.place();
        self.of(line).copied().filter(|row| row.has(level)).collect()
    }

    fn right(&self) -> bool {
        !matches!(self.answer, Answer::Refused(Refusal { number: 30.., .. }))
    }

    fn sizes(&self) -> (usize, usize) {
        (self.lines().len(), self.rows.len())
    }

    fn has_band(&self, level: u16) -> bool {
        self.rows.iter().any(|row| row.low == level && row.high == level)
    }

    /// Whether the rows of some line don't rise.
    fn falls(&self) -> bool {
        self.lines().into_iter().any(|line| self.of(line).zip(self.of(line).skip(1)).any(|(one, two)| one.low > two.low))
    }

    // Raises

    /// The row of the level raised, with its number.
    fn row(&self) -> Option<(usize, Row)> {
        let rows = self.rows.iter().copied().enumerate();
        rows.into_iter().find(|(_, row)| row.line == self.line && row.has(self.level))
    }

    fn nothing(&self) -> bool {
        self.answer == Answer::NothingPosted
    }

    fn without_rows(&self) -> bool {
        self.nothing() && self.of(self.line).count() == 0
    }

    fn without_event(&self) -> bool {
        self.nothing() && self.row().is_some()
    }

    /// The table is refused.
    fn wrong(&self) -> bool {
        matches!(self.answer, Answer::Refused(Refusal { number: 30.., .. }))
    }

    fn off(&self) -> bool {
        self.post == 22
    }

    fn busy(&self) -> bool {
        self.machine.stray.is_none() && self.machine.device.handler.is_some()
    }

    fn stray(&self) -> bool {
        self.machine.stray.is_some()
    }

    fn wrong_program(&self) -> bool {
        matches!(self.post, 1..=3)
    }

    fn wrong_store(&self) -> bool {
        matches!(self.post, 6 | 7)
    }

    /// Done, by a row of which this holds.
    fn done(&self, holds: impl Fn(usize, Row) -> bool) -> bool {
        self.answer == Answer::Done && matches!(self.row(), Some((number, row)) if holds(number, row))
    }

    fn posted(&self) -> u16 {
        self.row().map_or(0, |(_, row)| row.event)
    }

    fn events(&self) -> u16 {
        self.machine.program.get(2).copied().unwrap_or(0)
    }
}

type Situation = (&'static str, In, fn(&Seen) -> bool);

/// Refusal 30: each fault, at the first row and later, and two faults in each order.
const WRONG_ROWS: [Situation; 20] = [
    ("30, row 0: line past 15", BOTH, |seen| seen.wrong_row(LINE) && seen.at_row_0()),
    ("30, row 0: low above high", BOTH, |seen| seen.wrong_row(LEVELS) && seen.at_row_0()),
    ("30, row 0: incomplete", BOTH, |seen| seen.wrong_row(PART) && seen.at_row_0()),
    ("30, later row: line past 15", BOTH, |seen| seen.wrong_row(LINE) && !seen.at_row_0()),
    ("30, later row: low above high", BOTH, |seen| seen.wrong_row(LEVELS) && !seen.at_row_0()),
    ("30, later row: incomplete", BOTH, |seen| seen.wrong_row(PART) && !seen.at_row_0()),
    ("30, 65th row", BOTH, |seen| seen.wrong_row(EXTRA) && seen.rows.len() == 65),
    ("30, 65th row, incomplete", BOTH, |seen| seen.refused(30) && seen.place().0 == 64 && seen.rows.len() == 64),
    ("30, 65th row; a 66th", BOTH, |seen| seen.wrong_row(EXTRA) && seen.rows.len() > 65),
    ("30, 65th row; a length past 65535", BOTH, |seen| seen.wrong_row(EXTRA) && seen.table.len() > 65535),
    ("30, line 16", BOTH, |seen| seen.wrong_row(LINE) && seen.rows[seen.place().0 as usize].line == 16),
    ("30, line past 15; later low above high", BOTH, |seen| seen.wrong_rows(LINE, LEVELS)),
    ("30, line past 15; later incomplete", BOTH, |seen| seen.wrong_rows(LINE, PART)),
    ("30, line past 15; later a 65th", BOTH, |seen| seen.wrong_rows(LINE, EXTRA)),
    ("30, low above high; later a line past 15", BOTH, |seen| seen.wrong_rows(LEVELS, LINE)),
    ("30, low above high; later incomplete", BOTH, |seen| seen.wrong_rows(LEVELS, PART)),
    ("30, low above high; later a 65th", BOTH, |seen| seen.wrong_rows(LEVELS, EXTRA)),
    ("30, 65th row; later a line past 15", BOTH, |seen| seen.wrong_rows(EXTRA, LINE)),
    ("30, 65th row; later low above high", BOTH, |seen| seen.wrong_rows(EXTRA, LEVELS)),
    ("30, 65th row; later incomplete", BOTH, |seen| seen.wrong_rows(EXTRA, PART)),
];

/// Refusal 31.
const GAPS: [Situation; 12] = [
    ("31 at level 0", BOTH, |seen| seen.refused(31) && seen.place().1 == 0),
    ("31 in between", BOTH, |seen| seen.refused(31) && !matches!(seen.place().1, 0 | 65535)),
    ("31 at level 65535", BOTH, |seen| seen.refused(31) && seen.place().1 == 65535),
    ("31 of one level in between", BOTH, |seen| {
        let (line, level) = seen.place();
        seen.refused(31) && level > 0 && level < 65535 && seen.covered(line, level + 1) > 0
    }),
    ("31 on the lowest line", BOTH, |seen| seen.refused(31) && seen.on_lowest_line()),
    ("31 on a higher line", BOTH, |seen| seen.refused(31) && !seen.on_lowest_line()),
    ("31; a higher line uncovered, too", BOTH, |seen| {
        seen.refused(31) && (seen.place().0 + 1..16).any(|line| seen.of(line).count() > 0 && !seen.gaps(line).is_empty())
    }),
    ("31; the line uncovered higher up, too", BOTH, |seen| {
        seen.refused(31) && seen.gaps(seen.place().0).iter().any(|level| *level > seen.place().1)
    }),
    ("31; a lower line covered twice", BOTH, |seen| {
        seen.refused(31) && (0..seen.place().0).any(|line| !seen.overlaps(line).is_empty())
    }),
    ("31; a higher line covered twice", BOTH, |seen| {
        seen.refused(31) && (seen.place().0 + 1..16).any(|line| !seen.overlaps(line).is_empty())
    }),
    ("31; the line covered twice below", BOTH, |seen| {
        seen.refused(31) && seen.overlaps(seen.place().0).iter().any(|level| *level < seen.place().1)
    }),
    ("31; the line covered twice above", BOTH, |seen| {
        seen.refused(31) && seen.overlaps(seen.place().0).iter().any(|level| *level > seen.place().1)
    }),
];

/// Refusal 32.
const OVERLAPS: [Situation; 12] = [
    ("32 at level 0", BOTH, |seen| seen.refused(32) && seen.place().1 == 0),
    ("32 in between", BOTH, |seen| seen.refused(32) && !matches!(seen.place().1, 0 | 65535)),
    ("32 at level 65535", BOTH, |seen| seen.refused(32) && seen.place().1 == 65535),
    ("32 on the lowest line", BOTH, |seen| seen.refused(32) && seen.on_lowest_line()),
    ("32 on a higher line", BOTH, |seen| seen.refused(32) && !seen.on_lowest_line()),
    ("32; a higher line covered twice, too", BOTH, |seen| {
        seen.refused(32) && (seen.place().0 + 1..16).any(|line| !seen.overlaps(line).is_empty())
    }),
    ("32; the line covered twice again above", BOTH, |seen| {
        let (line, level) = seen.place();
        let again = |other: &u16| *other > level && seen.covered(line, *other - 1) == 1;
        seen.refused(32) && seen.overlaps(line).iter().any(again)
    }),
    ("32 of one level, a border of two rows", BOTH, |seen| {
        let level = seen.place().1;
        seen.refused(32)
            && matches!(seen.twice()[..], [one, two] if one.low.min(two.low) < level && level < one.high.max(two.high)
                && one.low.max(two.low) == level && one.high.min(two.high) == level)
    }),
    ("32 by a row twice", BOTH, |seen| {
        seen.refused(32) && matches!(seen.twice()[..], [one, two] if (one.low, one.high) == (two.low, two.high))
    }),
    ("32 by a row inside another", BOTH, |seen| {
        let inside = |one: Row, two: Row| one.low < two.low && two.high < one.high;
        seen.refused(32) && matches!(seen.twice()[..], [one, two] if inside(one, two) || inside(two, one))
    }),
    ("32 by three rows at once", BOTH, |seen| seen.refused(32) && seen.twice().len() == 3),
    ("32; three rows higher up", BOTH, |seen| {
        let line = seen.place().0;
        seen.refused(32) && seen.twice().len() == 2 && seen.of(line).any(|row| seen.covered(line, row.low) == 3)
    }),
];

/// Right tables.
const RIGHT: [Situation; 14] = [
    ("right: no row", BOTH, |seen| seen.right() && seen.table.is_empty()),
    ("right: one line, one row", BOTH, |seen| seen.right() && seen.sizes() == (1, 1)),
    ("right: one line, several rows", BOTH, |seen| seen.right() && seen.sizes().0 == 1 && seen.sizes().1 > 1),
    ("right: 16 lines", BOTH, |seen| seen.right() && seen.sizes().0 == 16),
    ("right: 64 rows", BOTH, |seen| seen.right() && seen.sizes().1 == 64),
    ("right: 64 rows of one line", BOTH, |seen| seen.right() && seen.sizes() == (1, 64)),
    ("right: 64 rows of 16 lines", BOTH, |seen| seen.right() && seen.sizes() == (16, 64)),
    ("right: line 15 alone", BOTH, |seen| seen.right() && seen.lines() == [15]),
    ("right: level 0 alone in a row", BOTH, |seen| seen.right() && seen.has_band(0)),
    ("right: level 65535 alone in a row", BOTH, |seen| seen.right() && seen.has_band(65535)),
    ("right: another level alone in a row", BOTH, |seen| {
        seen.right() && seen.rows.iter().any(|row| row.low == row.high && row.low > 0 && row.high < 65535)
    }),
    ("right: a line's rows not rising", BOTH, |seen| seen.right() && seen.falls()),
    ("right: an event past 15", BOTH, |seen| {
        seen.right() && seen.rows.iter().any(|row| row.event > 15 && row.event != NO_EVENT)
    }),
    ("right: every row without event", BOTH, |seen| {
        seen.right() && !seen.rows.is_empty() && seen.rows.iter().all(|row| row.event == NO_EVENT)
    }),
];

/// Raises that post nothing, for either reason or since the table is refused, whatever else they are given.
const NOTHING: [Situation; 19] = [
    ("nothing posted: line without rows", RAISE, |seen| seen.without_rows() && seen.line <= 15 && !seen.rows.is_empty()),
    ("nothing posted: line past 15", RAISE, |seen| seen.without_rows() && seen.line > 15 && !seen.rows.is_empty()),
    ("nothing posted: no row", RAISE, |seen| seen.nothing() && seen.rows.is_empty()),
    ("nothing posted: no event", RAISE, |seen| seen.without_event()),
    ("no rows; device off", RAISE, |seen| seen.without_rows() && seen.off()),
    ("no rows; words that are no device", RAISE, |seen| seen.without_rows() && seen.stray()),
    ("no rows; a handler at work", RAISE, |seen| seen.without_rows() && seen.busy()),
    ("no rows; program refused", RAISE, |seen| seen.without_rows() && seen.wrong_program()),
    ("no rows; store refused", RAISE, |seen| seen.without_rows() && seen.wrong_store()),
    ("no event; device off", RAISE, |seen| seen.without_event() && seen.off()),
    ("no event; words that are no device", RAISE, |seen| seen.without_event() && seen.stray()),
    ("no event; a handler at work", RAISE, |seen| seen.without_event() && seen.busy()),
    ("no event; program refused", RAISE, |seen| seen.without_event() && seen.wrong_program()),
    ("no event; store refused", RAISE, |seen| seen.without_event() && seen.wrong_store()),
    ("table refused; device off", RAISE, |seen| seen.wrong() && seen.off()),
    ("table refused; words that are no device", RAISE, |seen| seen.wrong() && seen.stray()),
    ("table refused; a handler at work", RAISE, |seen| seen.wrong() && seen.busy()),
    ("table refused; program refused", RAISE, |seen| seen.wrong() && seen.wrong_program()),
    ("table refused; store refused", RAISE, |seen| seen.wrong() && seen.wrong_store()),
];

/// Raises that post.
const POSTS: [Situation; 16] = [
    ("done at a low level", RAISE, |seen| seen.done(|_, row| row.low == seen.level && row.high > seen.level)),
    ("done at a high level", RAISE, |seen| seen.done(|_, row| row.high == seen.level && row.low < seen.level)),
    ("done in between", RAISE, |seen| seen.done(|_, row| row.low < seen.level && seen.level < row.high)),
    ("done by a row of one level", RAISE, |seen| seen.done(|_, row| row.low == row.high)),
    ("done at level 0", RAISE, |seen| seen.done(|_, _| seen.level == 0)),
    ("done at level 65535", RAISE, |seen| seen.done(|_, _| seen.level == 65535)),
    ("done above 32767, low below", RAISE, |seen| seen.done(|_, row| row.low < 32768 && seen.level > 32767)),
    ("done on line 0", RAISE, |seen| seen.done(|_, row| row.line == 0)),
    ("done on line 15", RAISE, |seen| seen.done(|_, row| row.line == 15)),
    ("done by row 63", RAISE, |seen| seen.done(|number, _| number == 63)),
    ("done; an earlier row of the line", RAISE, |seen| {
        seen.done(|number, row| seen.rows[..number].iter().any(|other| other.line == row.line))
    }),
    ("done; an earlier row has the level of another line", RAISE, |seen| {
        seen.done(|number, _| seen.rows[..number].iter().any(|other| other.has(seen.level)))
    }),
    ("done; another row's event is not below E", RAISE, |seen| {
        let outside = |row: &Row| row.event >= seen.events() && row.event != NO_EVENT;
        seen.done(|_, _| seen.rows.iter().any(outside))
    }),
    ("8, the event is E", RAISE, |seen| seen.refused(8) && seen.posted() == seen.events()),
    ("8, the event is past 15", RAISE, |seen| seen.refused(8) && seen.posted() > 15),
    ("no device; the row has an event", RAISE, |seen| seen.answer == Answer::NoDevice && seen.row().is_some()),
];

fn all() -> impl Iterator<Item = &'static Situation> {
    WRONG_ROWS.iter().chain(&GAPS).chain(&OVERLAPS).chain(&RIGHT).chain(&NOTHING).chain(&POSTS)
}

const COUNT: usize =
    WRONG_ROWS.len() + GAPS.len() + OVERLAPS.len() + RIGHT.len() + NOTHING.len() + POSTS.len();

/// How often each situation came up, by call.
#[derive(Clone, Debug)]
pub struct Lines([[u64; 2]; COUNT]);

impl Default for Lines {
    fn default() -> Lines {
        Lines([[0; 2]; COUNT])
    }
}

impl Lines {
    pub fn add_all(&mut self, other: &Lines) {
        for (count, more) in self.0.iter_mut().flatten().zip(other.0.iter().flatten()) {
            *count += more;
        }
    }

    /// Count a call that is given a table. The machine is as the call left it.
    pub fn add(&mut self, call: &Call, machine: &Machine, outcome: &Outcome) {
        let Some(column) = CALLS.iter().position(|kind| call.kind() == Some(*kind)) else { return };
        let (Some(table), Some(answer)) = (call.table(), outcome.answer()) else { return };
        let (line, level) = match call {
            Call::Raise { line, level, .. } => (*line, *level),
            _ => (0, 0),
        };
        let Machine { program, store, device, stray, .. } = machine;
        let post = match (column, stray) {
            (1, None) => Reference.post(program, &mut store.clone(), &mut device.clone(), 0, 0),
            _ => Answer::Done,
        };
        let post = Outcome::Answer(post).refusal().map_or(0, |refusal| refusal.number);
        let seen = Seen { table, rows: rows(table).collect(), line, level, answer, machine, post };
        for (counts, (_, calls, met)) in self.0.iter_mut().zip(all()) {
            counts[column] += (calls[column] && met(&seen)) as u64;
        }
    }

    /// Each situation with its counts by call; none where it doesn't count.
    fn rows(&self) -> impl Iterator<Item = (&'static str, [Option<u64>; 2])> + '_ {
        let cells = |calls: In, counts: &[u64; 2]| [0, 1].map(|column| calls[column].then_some(counts[column]));
        all().zip(&self.0).map(move |((name, calls, _), counts)| (*name, cells(*calls, counts)))
    }

    /// What never came up, a line for each call.
    pub fn missing(&self) -> Vec<String> {
        let never = |column: usize| {
            let never = self.rows().filter(|(_, cells)| cells[column] == Some(0));
            never.map(|(name, _)| name).collect::<Vec<&str>>().join("; ")
        };
        let line = |(column, kind): (usize, usize)| format!("{}, line tables: {}", CALL_NAMES[kind], never(column));
        CALLS.into_iter().enumerate().filter(|(column, _)| !never(*column).is_empty()).map(line).collect()
    }

    /// The table: a row for each situation.
    pub fn table(&self) -> String {
        let [one, two] = CALLS.map(|kind| CALL_NAMES[kind]);
        let mut text = format!("{:<52}{one:>12}{two:>12}\n", "line tables");
        for (name, cells) in self.rows() {
            text.push_str(&format!("{name:<52}"));
            for cell in cells {
                let cell = cell.map_or(String::new(), |count| if count == 0 { ".".into() } else { count.to_string() });
                text.push_str(&format!("{cell:>12}"));
            }
            text.truncate(text.trim_end().len());
            text.push('\n');
        }
        text
    }
}
