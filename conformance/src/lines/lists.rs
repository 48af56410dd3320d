//! Fixed lists about line tables, which every comparison starts with.

use super::{table, Row, MAX_ROWS, NO_EVENT};
use crate::generate::code;
use crate::reference::*;
use crate::runtime::*;
use crate::scenario::{Call, Scenario, Table};

/// A task that jumps to itself, and three events.
fn program() -> Vec<u16> {
    let mut words = vec![PROGRAM_MARK, 1, 3, 2, 0, 26];
    for body in 0..4 {
        words.extend([18 + 2 * body, 1, 0]);
    }
    words.extend(code(JUMP, 0, 0, 0));
    for _ in 0..3 {
        words.extend(code(DONE, 0, 0, 0));
    }
    words
}

const EVENTS: u16 = 3;

/// L and Q.
const SIZES: (u16, u16) = (2, 1);

/// So many go into one list, which stays short enough to be shortened soon.
const IN_A_LIST: usize = 100;

/// Lists on a formatted store and a device that is on, from which each of these goes on.
fn in_lists(each: Vec<Vec<Call>>) -> impl Iterator<Item = Scenario> {
    let (log_pairs, queue_records) = SIZES;
    let list = move |each: &[Vec<Call>]| {
        let mut calls = vec![Call::Boot, Call::Keep];
        for more in each {
            calls.extend_from_slice(more);
            calls.push(Call::Restore);
        }
        Scenario { seed: 0, program: program(), log_pairs, queue_records, totals: Totals::default(), calls }
    };
    each.chunks(IN_A_LIST).map(list).collect::<Vec<Scenario>>().into_iter()
}

fn row(line: u16, low: u16, high: u16, event: u16) -> Row {
    Row { line, low, high, event }
}

// ---------------------------------------------------------------------------------------------------------
// Tables with one thing and with two things wrong

/// Right tables: one row; the ends alone; three lines, mixed and falling; lines above an unnamed one.
fn small_tables() -> [Vec<Row>; 4] {
    [
        vec![row(0, 0, 65535, 0)],
        vec![row(0, 0, 0, 0), row(0, 1, 65534, 1), row(0, 65535, 65535, 2)],
        vec![
            row(1, 1000, 65535, 2),
            row(15, 0, 65535, 0),
            row(0, 101, 65535, NO_EVENT),
            row(1, 999, 999, 0),
            row(0, 0, 100, 1),
            row(1, 0, 998, EVENTS),
        ],
        vec![row(7, 0, 0x7FFF, 0), row(3, 40, 65535, 1), row(7, 0x8000, 65535, 1), row(3, 0, 39, 65534)],
    ]
}

/// What becomes of a row: borders moved by one, and to the ends; gone; twice and three times; with another inside; of
/// another line; wrong by itself.
const CHANGES: [fn(Row) -> Vec<Row>; 14] = [
    |row| vec![Row { low: row.low.saturating_add(1), ..row }],
    |row| vec![Row { low: row.low.saturating_sub(1), ..row }],
    |row| vec![Row { high: row.high.saturating_add(1), ..row }],
    |row| vec![Row { high: row.high.saturating_sub(1), ..row }],
    |row| vec![Row { low: 0, ..row }],
    |row| vec![Row { high: 65535, ..row }],
    |_| vec![],
    |row| vec![row, row],
    |row| vec![row, row, row],
    |row| vec![row, Row { low: row.low + (row.high - row.low) / 3, high: row.high - (row.high - row.low) / 3, ..row }],
    |row| vec![Row { line: row.line ^ 1, ..row }],
    |row| vec![Row { line: 16, ..row }],
    |row| vec![Row { low: row.high.max(1), high: row.low.min(row.high.max(1) - 1), ..row }],
    |row| vec![Row { high: row.low, ..row }, Row { low: row.high, ..row }],
];

/// Every change of one row, and every two changes of two rows.
fn changed(rows: &[Row]) -> Vec<Vec<Row>> {
    let single: Vec<(usize, usize)> =
        (0..rows.len()).flat_map(|at| (0..CHANGES.len()).map(move |change| (at, change))).collect();
    let with = |changes: &[(usize, usize)]| -> Vec<Row> {
        let new = |(at, row): (usize, &Row)| match changes.iter().find(|(changed, _)| *changed == at) {
            Some((_, change)) => CHANGES[*change](*row),
            None => vec![*row],
        };
        rows.iter().enumerate().flat_map(new).collect()
    };
    let mut tables = vec![rows.to_vec()];
    for (number, one) in single.iter().enumerate() {
        tables.push(with(&[*one]));
        let others = single[number + 1..].iter().filter(|other| other.0 != one.0);
        tables.extend(others.map(|other| with(&[*one, *other])));
    }
    tables
}

/// The check of a table, and raises of a line with rows and of one without.
fn check_and_raise(words: &[u16]) -> Vec<Call> {
    let table: Table = words.into();
    let line = words.first().copied().unwrap_or(0);
    let raise = |line: u16, level: u16| Call::Raise { table: table.clone(), line, level };
    vec![Call::LinesCheck { table: table.clone() }, raise(14, 3), raise(line, 999)]
}

// ---------------------------------------------------------------------------------------------------------
// Lengths and wrong rows

/// So many rows over so many lines, 16 at most, in equal bands; the line after each row is the next.
fn equal_bands(rows: usize, lines: usize) -> Vec<Row> {
    let bands = rows / lines;
    let wide = 65536 / bands;
    let high = |band: usize| if band + 1 == bands { 65535 } else { (band + 1) * wide - 1 };
    let row = |number: usize| {
        let (line, band) = (number % lines, number / lines);
        row(line as u16, (band * wide) as u16, high(band) as u16, number as u16 % EVENTS)
    };
    (0..bands * lines).map(row).collect()
}

/// The part of a row behind the others, right or wrong as far as it goes.
const PARTS: [&[u16]; 6] = [&[], &[2], &[2, 3], &[2, 3, 4], &[16], &[2, 4, 3]];

/// Tables of up to 70 rows and parts of rows; with none, one or two of 30's faults in rows at the ends.
fn lengths_and_wrong_rows() -> Vec<Vec<u16>> {
    let full = equal_bands(MAX_ROWS, 4);
    let mut tables = Vec::new();
    for rows in [0, 1, 2, 63, 64, 65, 66, 67, 70] {
        let base: Vec<Row> = (0..rows).map(|number| full[number % MAX_ROWS]).collect();
        let places = [0, 1, 62, 63, 64, 65, 66].into_iter().filter(|at| *at < rows);
        let faults: Vec<(usize, bool)> = places.flat_map(|at| [(at, false), (at, true)]).collect();
        let wrong = |changes: &[(usize, bool)], part: &[u16]| {
            let mut rows = base.clone();
            for (at, line) in changes {
                rows[*at] = if *line { row(16, 0, 65535, 0) } else { row(2, 9, 8, 0) };
            }
            [&table(&rows), part].concat()
        };
        for part in PARTS {
            tables.push(wrong(&[], part));
            for (number, one) in faults.iter().enumerate() {
                tables.push(wrong(&[*one], part));
                tables.extend(faults[number + 1..].iter().map(|other| wrong(&[*one, *other], part)));
            }
        }
    }
    // Lengths of which 16 bits are those of no row, of one row, and of 64 rows.
    tables.extend([0, 1, 64].map(|rows| table(&vec![row(3, 0, 65535, 0); 16384 + rows])));
    tables
}

// ---------------------------------------------------------------------------------------------------------
// Raises

/// Right tables for raises, of up to 64 rows.
fn right_tables() -> Vec<Vec<Row>> {
    let mut tables = small_tables().to_vec();
    tables.extend([equal_bands(16, 16), equal_bands(64, 1), equal_bands(64, 16), equal_bands(64, 4)]);
    let silent = |rows: &Vec<Row>| rows.iter().map(|row| Row { event: NO_EVENT, ..*row }).collect::<Vec<Row>>();
    tables.push(silent(&tables[1]));
    tables.push(vec![row(15, 0, 65535, 0)]);
    tables
}

/// The borders of every row, and lines without rows.
fn raises(rows: &[Row]) -> Vec<Vec<Call>> {
    let words: Table = table(rows).into();
    let raise = |line: u16, level: u16| vec![Call::Raise { table: words.clone(), line, level }];
    let mut calls = vec![vec![Call::LinesCheck { table: words.clone() }]];
    for row in rows {
        let levels = [row.low, row.high, row.low.wrapping_sub(1), row.high.wrapping_add(1), row.low / 2 + row.high / 2];
        calls.extend(levels.map(|level| raise(row.line, level)));
        calls.extend([16, 256, 32768].map(|more| raise(row.line + more, row.low)));
    }
    calls.extend((0..18).flat_map(|line| [raise(line, 0), raise(line, 65535)]));
    calls
}

/// A table with a line for each thing that a raise may come to, and wrong ones: the tables, with the lines raised.
fn kinds_of_raise() -> Vec<(Vec<u16>, u16)> {
    let rows = [row(4, 0, 65535, 1), row(5, 0, 65535, NO_EVENT), row(6, 0, 65535, EVENTS), row(7, 0, 65535, 65534)];
    let right = table(&rows);
    let with = |more: Row| [right.clone(), more.words().to_vec()].concat();
    let mut raises: Vec<(Vec<u16>, u16)> = (3..8).chain([16, 65535]).map(|line| (right.clone(), line)).collect();
    raises.push((Vec::new(), 0));
    raises.extend([(with(row(16, 0, 65535, 0)), 4), (with(row(9, 0, 65534, 0)), 4), (with(row(5, 9, 9, 0)), 4)]);
    raises
}

/// Devices, and words that are none: off, on, with a handler at work, unlike the store, off unlike its fixed value.
fn devices() -> Vec<Call> {
    let handler = Some(Handler { made: 1, ..Handler::single(2, 9) });
    let mut stray = Device::ON.to_words();
    stray[0] = 2;
    let device = |device: Device| Call::SetDevice(device);
    vec![
        device(Device::OFF),
        device(Device::ON),
        device(Device { handler, ..Device::ON }),
        device(Device { log_count: 3, ..Device::ON }),
        device(Device { log_count: 1, ..Device::OFF }),
        Call::SetWords(stray),
        Call::SetWords([65535; DEVICE_WORDS]),
    ]
}

/// Every kind of raise with every device, right and wrong programs, and right and wrong stores; two have a full queue, of
/// which one drops nothing, in an event's commit.
fn raises_among_all() -> Vec<Vec<Call>> {
    let program = |index: usize, word: u16| vec![Call::SetProgram { index, word }];
    let programs = [vec![], vec![Call::ProgramLength(5)], program(5, 27), program(0, 0), program(1, 33), program(4, 1)];
    let store = |index: usize, word: u16| vec![Call::SetStore { index, word }];
    let control = [store(PHASE, 3), store(HEAD, 2), store(TAIL, 1), store(BEGUN, TASK_BEGUN), store(BEGUN, 3)];
    let commits = [store(PHASE, 2), store(TAIL, 1)].concat();
    let others = [vec![], vec![Call::StoreLength(7)], store(0, 0), commits];
    let stores = others.into_iter().chain(control).collect::<Vec<_>>();
    let mut all = Vec::new();
    for (words, line) in kinds_of_raise() {
        let raise = Call::Raise { table: words.into(), line, level: 77 };
        for device in devices() {
            for program in &programs {
                for store in &stores {
                    all.push([&program[..], store, &[device.clone(), raise.clone()]].concat());
                }
            }
        }
    }
    all
}

/// The lists: tables with one and two rows changed; lengths and wrong rows; raises at every border; raises among all else.
pub fn lists() -> Vec<Scenario> {
    let changed = small_tables().into_iter().flat_map(|rows| changed(&rows)).map(|rows| check_and_raise(&table(&rows)));
    let lengths = lengths_and_wrong_rows().into_iter().map(|words| check_and_raise(&words));
    let borders = right_tables().into_iter().flat_map(|rows| raises(&rows));
    let all = [changed.collect(), lengths.collect(), borders.collect(), raises_among_all()];
    all.into_iter().flat_map(in_lists).collect()
}
