//! Random line tables, right and wrong, and raises on them.

use super::{rows, table, Row, LEVELS, MAX_LINE, MAX_ROWS, NO_EVENT, ROW_WORDS};
use crate::generate::Random;
use crate::scenario::{Call, Table};

fn shuffle<T>(random: &mut Random, list: &mut [T]) {
    for at in 1..list.len() {
        list.swap(at, random.below(at + 1));
    }
}

/// An event for a program with so many: below E mostly, at E, none, or any word.
fn event(random: &mut Random, events: usize) -> u16 {
    match random.below(20) {
        0..=11 if events > 0 => random.below(events) as u16,
        0..=13 => NO_EVENT,
        14..=16 => events as u16,
        17 => random.pick(&[15, 16, 17, 65534]),
        18 => random.word(),
        _ => random.below(events + 1) as u16,
    }
}

/// Levels, others than 0, at which so many bands less one start, in rising order: the ends more often, and neighbours.
fn borders(random: &mut Random, bands: usize) -> Vec<u16> {
    let mut borders: Vec<u16> = Vec::new();
    while borders.len() + 1 < bands {
        let border = match random.below(10) {
            0 => random.pick(&[1, 2, 3, 0x7FFF, 0x8000, 0x8001, 65533, 65534, 65535]),
            1..=3 if !borders.is_empty() => random.pick(&borders).wrapping_add(random.pick(&[1, 2, 65535])),
            4 => random.from(1, 300) as u16,
            _ => random.from(1, 65535) as u16,
        };
        if border != 0 && !borders.contains(&border) {
            borders.push(border);
        }
    }
    borders.sort();
    borders
}

/// The rows of one line: every level once, in rising order.
fn bands(random: &mut Random, line: u16, bands: usize, events: usize) -> Vec<Row> {
    let mut lows = vec![0];
    lows.extend(borders(random, bands));
    let highs = lows.iter().skip(1).map(|low| low - 1).chain([65535]).collect::<Vec<u16>>();
    let row = |(low, high): (&u16, u16)| Row { line, low: *low, high, event: event(random, events) };
    lows.iter().zip(highs).map(row).collect()
}

/// How many rows each of so many lines has, of so many in all.
fn shares(random: &mut Random, lines: usize, all: usize) -> Vec<usize> {
    let mut shares = vec![1; lines];
    for _ in lines..all {
        let line = random.below(lines);
        shares[line] += 1;
    }
    shares
}

/// Right rows: so many lines with so many rows in all, the lines after one another or mixed.
fn right_rows(random: &mut Random, lines: usize, all: usize, events: usize) -> Vec<Row> {
    let mut names: Vec<u16> = (0..=MAX_LINE).collect();
    shuffle(random, &mut names);
    if random.percent(30) {
        names.sort();
    }
    let shares = shares(random, lines, all);
    let mut rows: Vec<Row> =
        names.iter().zip(shares).flat_map(|(line, share)| bands(random, *line, share, events)).collect();
    match random.below(10) {
        0..=5 => shuffle(random, &mut rows),
        6 => rows.reverse(),
        7 => rows.sort_by_key(|row| (row.low, row.line)),
        _ => {}
    }
    rows
}

/// How many lines and how many rows: few mostly, each at its limit now and then.
fn sizes(random: &mut Random, most_rows: usize) -> (usize, usize) {
    let lines = match random.below(20) {
        0..=6 => 1,
        7..=16 => random.from(2, 4),
        17 | 18 => random.from(5, 15),
        _ => 16,
    };
    let rows = match random.below(20) {
        0 | 1 => lines,
        2..=15 => lines + random.below(6),
        16..=18 => random.from(lines, most_rows),
        _ => most_rows,
    };
    (lines, rows)
}

/// A level moved by one mostly, by more now and then; the ends stay.
fn moved(random: &mut Random, level: u16, up: bool) -> u16 {
    let by = match random.below(4) {
        0..=2 => 1,
        _ => random.from(1, 2000) as u16,
    };
    if up {
        level.saturating_add(by)
    } else {
        level.saturating_sub(by)
    }
}

/// A gap: a row that goes, or starts later, or ends earlier.
fn gap(random: &mut Random, rows: &mut Vec<Row>) {
    if rows.is_empty() {
        return;
    }
    let at = random.below(rows.len());
    let row = rows[at];
    match random.below(5) {
        0 => {
            rows.remove(at);
        }
        1 | 2 => rows[at].low = moved(random, row.low, true).min(row.high),
        _ => rows[at].high = moved(random, row.high, false).max(row.low),
    }
}

/// An overlap: a row that starts earlier, or ends later, stands twice or three times, has another inside, or one end twice.
fn overlap(random: &mut Random, rows: &mut Vec<Row>, events: usize) {
    if rows.is_empty() {
        return;
    }
    let at = random.below(rows.len());
    let row = rows[at];
    let somewhere = random.below(rows.len() + 1);
    match random.below(10) {
        0..=2 => rows[at].low = moved(random, row.low, false),
        3..=5 => rows[at].high = moved(random, row.high, true),
        6 => rows.insert(somewhere, Row { event: event(random, events), ..row }),
        7 => {
            let low = random.from(row.low as usize, row.high as usize);
            let high = random.from(low, row.high as usize);
            rows.insert(somewhere, Row { low: low as u16, high: high as u16, ..row });
        }
        8 => rows.extend([row, row]),
        _ => {
            let end = random.pick(&[0, 65535]);
            rows.insert(somewhere, Row { low: end, high: end, ..row });
        }
    }
}

/// One of 30's faults in a row: a line past 15, or low above high.
fn wrong_row(random: &mut Random, rows: &mut [Row]) {
    if rows.is_empty() {
        return;
    }
    let at = if random.percent(30) { 0 } else { random.below(rows.len()) };
    let row = &mut rows[at];
    if random.percent(50) {
        row.line = random.pick(&[16, 16, 16, 17, 32, 256, 65535]);
    } else {
        (row.low, row.high) = match random.below(4) {
            0 => (row.low.max(1), row.low.max(1) - 1),
            1 => (65535, random.below(65535) as u16),
            2 => (random.from(1, 65535) as u16, 0),
            _ if row.low < row.high => (row.high, row.low),
            _ => (1, 0),
        };
    }
}

/// Several words of the table changed.
fn damage(random: &mut Random, words: &mut [u16]) {
    for _ in 0..random.pick(&[1, 1, 1, 2, 3]) {
        if words.is_empty() {
            return;
        }
        let at = random.below(words.len());
        words[at] = match random.below(6) {
            0 => words[at].wrapping_add(1),
            1 => words[at].wrapping_sub(1),
            2 => words[at] ^ (1 << random.below(16)),
            3 => random.pick(words),
            4 => random.from(14, 17) as u16,
            _ => random.word(),
        };
    }
}

/// Another length: words cut off or added, a few or more.
fn another_length(random: &mut Random, words: &mut Vec<u16>) {
    let by = match random.below(4) {
        0..=2 => random.from(1, 3),
        _ => random.from(1, 40),
    };
    if random.percent(50) {
        words.truncate(words.len().saturating_sub(by));
    } else {
        for _ in 0..by {
            let word = if random.percent(50) { random.pick(&[0, 0, 15, 16]) } else { random.word() };
            words.push(word);
        }
    }
}

/// 65 rows and more, or 64 and a part of one; now and then with one of 30's other faults before or behind.
fn too_many_rows(random: &mut Random, events: usize) -> Vec<u16> {
    let lines = random.from(1, 16);
    let mut all = right_rows(random, lines, MAX_ROWS, events);
    for _ in 0..random.pick(&[0, 0, 0, 1, 1, 2, 3, 10]) {
        all.push(random.pick(&all));
    }
    // Now and then a length that is cut to 16 bits would be that of right rows.
    if random.percent(12) {
        all.truncate(MAX_ROWS);
        all = all.iter().cycle().take(all.len() + 65536 / ROW_WORDS).copied().collect();
    }
    if random.percent(40) {
        wrong_row(random, &mut all);
    }
    // Behind the 65th.
    if all.len() > MAX_ROWS + 1 && random.percent(40) {
        wrong_row(random, &mut all[MAX_ROWS + 1..]);
    }
    let mut words = table(&all);
    if random.percent(50) {
        let part = random.from(1, ROW_WORDS - 1);
        let first = random.pick(&[0, 15, 16, 65535]);
        words.extend(&[first, 3, 2][..part]);
    }
    words
}

/// One of the faults of 30 with others in other rows.
fn several_wrong_rows(random: &mut Random, all: &mut [Row]) -> Vec<u16> {
    for _ in 0..random.from(1, 4) {
        wrong_row(random, all);
    }
    let mut words = table(all);
    if random.percent(40) {
        let part = random.from(1, ROW_WORDS - 1);
        words.extend(&[random.pick(&[0, 15, 16]), 3, 2][..part]);
    }
    words
}

/// A table for programs with so many events.
pub fn any_table(random: &mut Random, events: usize) -> Vec<u16> {
    let kind = random.below(100);
    // Room for rows that are added.
    let most_rows = if kind < 35 { MAX_ROWS } else { MAX_ROWS - 4 };
    let (lines, count) = sizes(random, most_rows);
    let mut all = right_rows(random, lines, count, events);
    match kind {
        0..=34 => {}
        35..=44 => gap(random, &mut all),
        45..=56 => overlap(random, &mut all, events),
        57..=63 => {
            overlap(random, &mut all, events);
            gap(random, &mut all);
        }
        64..=71 => {
            for _ in 0..random.from(2, 6) {
                match random.below(2) {
                    0 => gap(random, &mut all),
                    _ => overlap(random, &mut all, events),
                }
            }
        }
        72..=79 => {
            let mut words = table(&all);
            damage(random, &mut words);
            return words;
        }
        80..=85 => {
            let mut words = table(&all);
            another_length(random, &mut words);
            return words;
        }
        86..=91 => return too_many_rows(random, events),
        92..=96 => return several_wrong_rows(random, &mut all),
        97 => return (0..random.below(40)).map(|_| random.below(20) as u16).collect(),
        _ => return Vec::new(),
    }
    table(&all)
}

/// The tables of a list: none, or some, right ones more often.
pub fn tables(random: &mut Random, events: usize) -> Vec<Table> {
    let many = random.pick(&[0, 0, 0, 1, 2, 2, 3]);
    let mut tables = Vec::new();
    for _ in 0..many {
        let words = match random.below(2) {
            0 => any_table(random, events),
            _ => {
                let (lines, rows) = sizes(random, MAX_ROWS);
                table(&right_rows(random, lines, rows, events))
            }
        };
        tables.push(words.into());
    }
    tables
}

/// A raise of a line of the table: at a border of one of its rows, inside it or anywhere; or of another line.
pub fn raise(random: &mut Random, table: &Table) -> Call {
    let many = rows(table).count();
    let Some(row) = rows(table).nth(random.below(many.max(1))) else {
        return Call::Raise { table: table.clone(), line: random.below(18) as u16, level: random.word() };
    };
    let line = match random.below(20) {
        0 | 1 => random.below(16) as u16,
        2 => random.pick(&[16, 17, 32, row.line | 16, row.line | 256, 0x8000, 65535]),
        _ => row.line,
    };
    let level = match random.below(8) {
        0 | 1 => row.low,
        2 | 3 => row.high,
        4 => row.low.wrapping_sub(1),
        5 => row.high.wrapping_add(1),
        6 => (row.low as usize + random.below(LEVELS)) as u16,
        _ => random.from(row.low.min(row.high) as usize, row.high.max(row.low) as usize) as u16,
    };
    Call::Raise { table: table.clone(), line, level }
}
