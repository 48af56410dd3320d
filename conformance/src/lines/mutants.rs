//! What a table and a raise come to by each mistake about line tables: the rules of `lines`, each with something that a
//! mistake may change. All other mistakes leave the rules as they are.

use super::{lowest, Row, LEVELS, MAX_LINE, MAX_ROWS, NO_EVENT, ROW_WORDS};
use crate::lines;
use crate::mutants::{mistakes_in_the_lines_check, Mistake};
use crate::runtime::{Answer, Refusal};

// ---------------------------------------------------------------------------------------------------------
// 30

/// What may be wrong with a row.
#[derive(Clone, Copy, PartialEq, Eq, Debug)]
pub enum Fault {
    SixtyFifth,
    Incomplete,
    Line,
    Levels,
}

const FAULTS: [Fault; 4] = [Fault::SixtyFifth, Fault::Incomplete, Fault::Line, Fault::Levels];

/// Whether a row has a fault, by a mistake's limits.
fn has_fault(mistake: Mistake, number: usize, row: &[u16], fault: Fault) -> bool {
    let complete = row.len() == ROW_WORDS;
    match fault {
        Fault::SixtyFifth => match mistake {
            Mistake::SixtyFifthRowAllowed => number > MAX_ROWS,
            Mistake::SixtyFourthRowRefused => number >= MAX_ROWS - 1,
            Mistake::IncompleteSixtyFifthIgnored => number >= MAX_ROWS && complete,
            _ => number >= MAX_ROWS,
        },
        Fault::Incomplete => match mistake {
            Mistake::IncompleteRowIgnored => false,
            Mistake::IncompleteSixtyFifthIgnored => !complete && number < MAX_ROWS,
            _ => !complete,
        },
        Fault::Line => match mistake {
            Mistake::LineSixteenAllowed => row[0] > MAX_LINE + 1,
            Mistake::LineFifteenRefused => row[0] >= MAX_LINE,
            _ => row[0] > MAX_LINE,
        },
        Fault::Levels if !complete => false,
        Fault::Levels => match mistake {
            Mistake::LowEqualToHighRefused => row[1] >= row[2],
            Mistake::LowAboveHighAllowed => false,
            Mistake::EventPastSixteenRefused => row[1] > row[2] || (row[3] > 15 && row[3] != NO_EVENT),
            _ => row[1] > row[2],
        },
    }
}

/// The first row that is wrong; by some mistakes, the first with one fault, and only then with others.
fn wrong_row(mistake: Mistake, table: &[u16]) -> Option<usize> {
    use Fault::*;
    let searches: &[&[Fault]] = match mistake {
        Mistake::LinesBeforeLevels => &[&[Line], &[SixtyFifth, Incomplete, Levels]],
        Mistake::LevelsBeforeLines => &[&[Levels], &[SixtyFifth, Incomplete, Line]],
        Mistake::LengthBeforeRows => &[&[SixtyFifth, Incomplete], &[Line, Levels]],
        Mistake::IncompleteBeforeRows => &[&[Incomplete], &[SixtyFifth, Line, Levels]],
        Mistake::RowsBeforeLength => &[&[Line, Levels], &[SixtyFifth, Incomplete]],
        _ => &[&FAULTS],
    };
    searches.iter().find_map(|faults| {
        let has = |(number, row): (usize, &[u16])| faults.iter().any(|fault| has_fault(mistake, number, row, *fault));
        table.chunks(ROW_WORDS).enumerate().position(has)
    })
}

fn check_rows(mistake: Mistake, table: &[u16]) -> Result<(), Refusal> {
    let Some(row) = wrong_row(mistake, table) else { return Ok(()) };
    let place = match mistake {
        Mistake::RowPlaceFromOne => row + 1,
        Mistake::RowPlaceAsWord => ROW_WORDS * row,
        Mistake::LastWrongRow => {
            let has = |number: usize, row: &[u16]| FAULTS.iter().any(|fault| has_fault(mistake, number, row, *fault));
            let wrong = table.chunks(ROW_WORDS).enumerate().filter(|(number, row)| has(*number, row));
            wrong.last().map_or(row, |(number, _)| number)
        }
        _ => row,
    };
    Err(Refusal { number: 30, place: (place as u16, 0) })
}

// ---------------------------------------------------------------------------------------------------------
// 31 and 32

/// How many rows of a line have each level, by a mistake's rows.
fn count(mistake: Mistake, rows: &[Row]) -> Vec<u8> {
    let mut counts = vec![0u8; LEVELS];
    for row in rows {
        let (low, end) = (row.low as usize, row.high as usize + 1);
        let levels = match mistake {
            Mistake::HighLevelExclusive => low..end - 1,
            Mistake::LowLevelExclusive => low + 1..end,
            Mistake::RowWithoutEventCoversNothing if row.event == NO_EVENT => 0..0,
            Mistake::LowAboveHighAllowed if row.low > row.high => 0..0,
            _ => low..end,
        };
        counts[levels].iter_mut().for_each(|count| *count += 1);
    }
    match mistake {
        Mistake::BorderOverlapPasses => {
            let meets = |row: &&Row| rows.iter().any(|other| other.high == row.low && other.low < row.low);
            rows.iter().filter(meets).for_each(|row| counts[row.low as usize] -= 1);
        }
        Mistake::GapAtZeroPasses => {
            let least = rows.iter().map(|row| row.low).min().unwrap_or(0);
            counts[..least as usize].fill(1);
        }
        Mistake::GapAtTheTopPasses => {
            let most = rows.iter().map(|row| row.high).max().unwrap_or(0);
            counts[most as usize + 1..].fill(1);
        }
        _ => {}
    }
    counts
}

/// A line's rows held against the level that is expected next, sorted or as they stand in the table: the first gap, and
/// the first overlap.
fn in_order(mistake: Mistake, rows: &[Row]) -> [Option<u16>; 2] {
    let mut rows = rows.to_vec();
    if mistake != Mistake::RowsInRisingOrderExpected {
        rows.sort_by_key(|row| row.low);
    }
    let (mut next, mut gap, mut overlap) = (0, None, None);
    for row in &rows {
        if row.low as usize > next && gap.is_none() {
            gap = Some(next as u16);
        }
        if (row.low as usize) < next && overlap.is_none() {
            overlap = Some(row.low);
        }
        next = row.high as usize + 1;
    }
    if next < LEVELS && gap.is_none() {
        gap = Some(next as u16);
    }
    [gap, overlap]
}

/// A line's lowest uncovered level, and its lowest level covered twice.
fn gap_and_overlap(mistake: Mistake, rows: &[Row]) -> [Option<u16>; 2] {
    if [Mistake::RowsInRisingOrderExpected, Mistake::GapBehindInnerRow].contains(&mistake) {
        return in_order(mistake, rows);
    }
    let counts = count(mistake, rows);
    let highest = |wrong: fn(u8) -> bool| counts.iter().rposition(|count| wrong(*count)).map(|level| level as u16);
    match mistake {
        Mistake::HighestLevel => [highest(|count| count == 0), highest(|count| count >= 2)],
        Mistake::ThreeTimesPasses => [lowest(&counts, |count| count == 0), lowest(&counts, |count| count == 2)],
        _ => [lowest(&counts, |count| count == 0), lowest(&counts, |count| count >= 2)],
    }
}

/// The line and level of a wrong level, with its number: 31 over all lines, then 32; or by a mistake's order.
fn wrong_level(mistake: Mistake, found: &[(u16, [Option<u16>; 2])]) -> Option<(u16, u16, u16)> {
    let of = |number: u16| {
        let at = |(line, levels): &(u16, [Option<u16>; 2])| Some((number, *line, levels[number as usize - 31]?));
        let mut wrong: Vec<(u16, u16, u16)> = found.iter().filter_map(at).collect();
        if mistake == Mistake::HighestLine {
            wrong.reverse();
        }
        wrong
    };
    let (gaps, overlaps) = (of(31), of(32));
    match mistake {
        Mistake::OverlapBeforeGap => [overlaps, gaps].concat().first().copied(),
        Mistake::LineByLine => [gaps, overlaps].concat().into_iter().min_by_key(|(number, line, _)| (*line, *number)),
        Mistake::LowestLevelOfAllLines if !gaps.is_empty() => gaps.into_iter().min_by_key(|(_, _, level)| *level),
        Mistake::LowestLevelOfAllLines => overlaps.into_iter().min_by_key(|(_, _, level)| *level),
        Mistake::OverlapPasses => gaps.first().copied(),
        Mistake::GapPasses => overlaps.first().copied(),
        _ => [gaps, overlaps].concat().first().copied(),
    }
}

fn check_levels(mistake: Mistake, table: &[u16], only: Option<u16>) -> Result<(), Refusal> {
    let rows_of = |line: u16| lines::rows(table).filter(|row| row.line == line).collect::<Vec<Row>>();
    let named = |line: &u16| mistake == Mistake::UnnamedLineUncovered || !rows_of(*line).is_empty();
    let looked = (0..=MAX_LINE + 1).filter(|line| *line <= MAX_LINE || mistake == Mistake::LineSixteenAllowed);
    let looked = looked.filter(named).filter(|line| only.is_none_or(|only| only == *line));
    let found: Vec<(u16, [Option<u16>; 2])> =
        looked.map(|line| (line, gap_and_overlap(mistake, &rows_of(line)))).collect();
    match wrong_level(mistake, &found) {
        None => Ok(()),
        Some((number, line, level)) => {
            let place = match mistake {
                Mistake::LevelBeforeLine => (level, line),
                Mistake::PlaceWithoutLevel => (line, 0),
                _ => (line, level),
            };
            Err(Refusal { number, place })
        }
    }
}

/// The table's check by a mistake.
pub fn check(mistake: Mistake, table: &[u16]) -> Result<(), Refusal> {
    if !mistakes_in_the_lines_check().contains(&mistake) {
        return lines::check(table);
    }
    if mistake == Mistake::EmptyTableRefused && table.is_empty() {
        return Err(Refusal { number: 30, place: (0, 0) });
    }
    let table = match mistake {
        Mistake::LengthCutTo16Bits => &table[..table.len() % 65536],
        _ => table,
    };
    check_rows(mistake, table)?;
    check_levels(mistake, table, None)
}

// ---------------------------------------------------------------------------------------------------------
// Raises

/// The row that a mistake takes for a level of a line.
fn row(mistake: Mistake, table: &[u16], line: u16, level: u16) -> Option<Row> {
    let mut rows = lines::rows(table);
    let of_line = |row: &Row| row.line == line;
    match mistake {
        Mistake::RaiseHighExclusive => rows.find(|row| of_line(row) && row.low <= level && level < row.high),
        Mistake::RaiseLowExclusive => rows.find(|row| of_line(row) && row.low < level && level <= row.high),
        Mistake::AnyLinesRow => rows.find(|row| row.has(level)),
        Mistake::FirstRowOfTable => rows.next(),
        Mistake::FirstRowOfLine => rows.find(of_line),
        Mistake::LineMasked => rows.find(|row| row.line == line % 16 && row.has(level)),
        Mistake::SignedLevels => rows.find(|row| {
            let [low, high, level] = [row.low, row.high, level].map(|word| word as i16);
            of_line(row) && low <= level && level <= high
        }),
        _ => rows.find(|row| of_line(row) && row.has(level)),
    }
}

/// The table's check as a raise makes it.
fn check_for_raise(mistake: Mistake, table: &[u16], line: u16) -> Result<(), Refusal> {
    match mistake {
        Mistake::TableUnchecked => Ok(()),
        Mistake::LevelsUncheckedAtRaise => check_rows(mistake, table),
        Mistake::RaisedLineCheckedAlone => {
            check_rows(mistake, table)?;
            check_levels(mistake, table, Some(line))
        }
        Mistake::RaiseOfLineSixteenRefused if line > MAX_LINE => Err(Refusal { number: 30, place: (0, 0) }),
        _ => check(mistake, table),
    }
}

/// The event and data that a raise posts, or its answer before any post. The program has so many events.
pub fn post(mistake: Mistake, table: &[u16], line: u16, level: u16, events: u16) -> Result<(u16, u16), Answer> {
    check_for_raise(mistake, table, line).map_err(Answer::Refused)?;
    let outside = |event: u16| event >= events && event != NO_EVENT;
    if mistake == Mistake::EventNotBelowERefused && lines::rows(table).any(|row| outside(row.event)) {
        return Err(Answer::Refused(Refusal { number: 8, place: (0, 0) }));
    }
    let row = row(mistake, table, line, level);
    let silent = |event: u16| match mistake {
        Mistake::NoEventPosted => false,
        Mistake::EventNotBelowEPostsNothing => event >= events,
        _ => event == NO_EVENT,
    };
    match row {
        Some(row) if !silent(row.event) => Ok(match mistake {
            Mistake::LowLevelAsData => (row.event, row.low),
            Mistake::HighLevelAsData => (row.event, row.high),
            Mistake::LineAsData => (row.event, line),
            Mistake::LineAsEvent => (line, level),
            _ => (row.event, level),
        }),
        None if mistake == Mistake::LineWithoutRowsUncovered => {
            Err(Answer::Refused(Refusal { number: 31, place: (line, level) }))
        }
        _ if mistake == Mistake::NothingPostedAnsweredDone => Err(Answer::Done),
        _ => Err(Answer::NothingPosted),
    }
}
