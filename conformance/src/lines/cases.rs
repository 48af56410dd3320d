//! Line tables and raises with fixed answers, worked out by hand from request N3, for any implementation.

use crate::cases::{refused, refused_at, Bench, COUNTING};
use crate::runtime::*;
use crate::scenario::{Call, Outcome};

/// A table and the answer of its check.
type Checked<'a> = (&'a [u16], Answer);

fn hold(runtime: &dyn Runtime, checked: &[Checked]) {
    for (table, answer) in checked {
        assert_eq!(runtime.lines_check(table), *answer, "{table:?}");
        // A raise makes the same check.
        if let Answer::Refused(_) = answer {
            assert_eq!(Bench::counting(runtime).raise(table, 0, 0), *answer, "raise, {table:?}");
        }
    }
}

/// Rows of 1024 levels each: all levels of line 4 in 64 rows.
fn sixty_four_rows() -> Vec<u16> {
    (0..64).flat_map(|row: u16| [4, 1024 * row, 1024 * row + 1023, row % 2]).collect()
}

pub fn right_tables(runtime: &dyn Runtime) {
    let whole: Vec<u16> = (0..16).flat_map(|line| [15 - line, 0, 65535, 0]).collect();
    hold(
        runtime,
        &[
            (&[], Answer::Done),
            (&[0, 0, 65535, 0], Answer::Done),
            (&[15, 0, 65535, 65535], Answer::Done),
            (&[0, 0, 9, 0, 0, 10, 65535, 0], Answer::Done),
            (&[0, 10, 65535, 0, 0, 0, 9, 0], Answer::Done),
            (&[3, 0, 0, 0, 3, 1, 65534, 0, 3, 65535, 65535, 0], Answer::Done),
            (&[3, 65535, 65535, 0, 8, 0, 65535, 2, 3, 0, 65534, 0], Answer::Done),
            // A row without event covers its levels; an event isn't held against a program's.
            (&[7, 0, 65534, 65535, 7, 65535, 65535, 0], Answer::Done),
            (&[7, 0, 5, 16, 7, 6, 65535, 65534], Answer::Done),
            (&whole, Answer::Done),
            (&sixty_four_rows(), Answer::Done),
        ],
    );
}

pub fn wrong_rows(runtime: &dyn Runtime) {
    hold(
        runtime,
        &[
            (&[0], refused_at(30, 0, 0)),
            (&[0, 0, 65535], refused_at(30, 0, 0)),
            (&[0, 0, 65535, 0, 1], refused_at(30, 1, 0)),
            (&[0, 0, 65535, 0, 1, 0, 65535], refused_at(30, 1, 0)),
            (&[16, 0, 65535, 0], refused_at(30, 0, 0)),
            (&[65535, 0, 65535, 0], refused_at(30, 0, 0)),
            (&[0, 0, 65535, 0, 16, 0, 65535, 0], refused_at(30, 1, 0)),
            (&[0, 1, 0, 0], refused_at(30, 0, 0)),
            (&[0, 65535, 0, 0], refused_at(30, 0, 0)),
            (&[0, 0, 65535, 0, 0, 65535, 65534, 0], refused_at(30, 1, 0)),
            // The first such row, whatever is wrong with it, and before any level.
            (&[0, 0, 65535, 0, 65535, 0, 65535, 0, 3, 2, 1, 0], refused_at(30, 1, 0)),
            (&[0, 0, 65535, 0, 3, 2, 1, 0, 65535, 0, 65535, 0], refused_at(30, 1, 0)),
            (&[3, 2, 1, 0, 0, 0], refused_at(30, 0, 0)),
            (&[0, 5, 5, 0, 0, 5, 5, 0, 16, 0, 65535, 0], refused_at(30, 2, 0)),
        ],
    );
}

pub fn the_65th_row(runtime: &dyn Runtime) {
    let right = sixty_four_rows();
    let with = |more: &[u16]| [&right, more].concat();
    let mut early = with(&[5, 0, 65535, 0]);
    early[4 * 63] = 16;
    let mut late = with(&[5, 0, 65535, 0, 5, 9, 8, 0]);
    hold(
        runtime,
        &[
            (&right, Answer::Done),
            (&with(&[5, 0, 65535, 0]), refused_at(30, 64, 0)),
            (&with(&[5]), refused_at(30, 64, 0)),
            (&with(&[16, 9, 8]), refused_at(30, 64, 0)),
            (&with(&right), refused_at(30, 64, 0)),
            (&[0, 0, 65535, 0].repeat(16385), refused_at(30, 64, 0)),
            (&early, refused_at(30, 63, 0)),
            (&late, refused_at(30, 64, 0)),
            (&right[..255], refused_at(30, 63, 0)),
        ],
    );
    late[1] = 65535;
    hold(runtime, &[(&late, refused_at(30, 0, 0))]);
}

pub fn uncovered_levels(runtime: &dyn Runtime) {
    hold(
        runtime,
        &[
            (&[0, 0, 65534, 0], refused_at(31, 0, 65535)),
            (&[0, 1, 65535, 0], refused_at(31, 0, 0)),
            (&[0, 7, 7, 0], refused_at(31, 0, 0)),
            (&[0, 0, 9, 0, 0, 11, 65535, 0], refused_at(31, 0, 10)),
            (&[0, 0, 9, 0, 0, 20, 29, 0, 0, 40, 65535, 0], refused_at(31, 0, 10)),
            (&[0, 40, 65535, 0, 0, 20, 29, 0, 0, 0, 9, 0], refused_at(31, 0, 10)),
            // The lowest line that has rows, in whatever order they stand.
            (&[4, 0, 65535, 0, 2, 0, 65534, 0], refused_at(31, 2, 65535)),
            (&[8, 0, 99, 0, 6, 0, 200, 0], refused_at(31, 6, 201)),
            (&[6, 0, 65535, 0, 8, 0, 99, 0], refused_at(31, 8, 100)),
            (&[15, 0, 65534, 0], refused_at(31, 15, 65535)),
        ],
    );
}

pub fn levels_covered_twice(runtime: &dyn Runtime) {
    hold(
        runtime,
        &[
            (&[0, 0, 10, 0, 0, 10, 65535, 0], refused_at(32, 0, 10)),
            (&[0, 10, 65535, 0, 0, 0, 10, 0], refused_at(32, 0, 10)),
            (&[0, 0, 65535, 0, 0, 0, 65535, 1], refused_at(32, 0, 0)),
            (&[0, 0, 0, 0, 0, 0, 65535, 0], refused_at(32, 0, 0)),
            (&[0, 0, 65535, 0, 0, 65535, 65535, 0], refused_at(32, 0, 65535)),
            (&[5, 0, 65535, 0, 5, 500, 600, 0], refused_at(32, 5, 500)),
            (&[5, 500, 600, 0, 5, 0, 65535, 0], refused_at(32, 5, 500)),
            (&[0, 0, 65535, 0, 0, 300, 300, 0, 0, 200, 200, 0], refused_at(32, 0, 200)),
            // Three times is twice, too.
            (&[1, 0, 65535, 0, 1, 0, 65535, 0, 1, 0, 65535, 0], refused_at(32, 1, 0)),
            (&[1, 0, 65535, 0, 1, 70, 80, 0, 1, 70, 80, 0], refused_at(32, 1, 70)),
            (&[8, 0, 65535, 0, 8, 5, 5, 0, 6, 0, 65535, 0, 6, 70, 80, 0], refused_at(32, 6, 70)),
            (&[6, 0, 65535, 0, 8, 0, 65535, 0, 8, 5, 5, 0], refused_at(32, 8, 5)),
        ],
    );
}

pub fn gaps_before_overlaps(runtime: &dyn Runtime) {
    hold(
        runtime,
        &[
            // A lower line, and a lower level of the same line, are covered twice.
            (&[1, 0, 65535, 0, 1, 7, 7, 0, 9, 1, 65535, 0], refused_at(31, 9, 0)),
            (&[1, 0, 65535, 0, 1, 0, 65535, 0, 9, 0, 65534, 0], refused_at(31, 9, 65535)),
            (&[3, 0, 20, 0, 3, 10, 30, 0, 3, 40, 65535, 0], refused_at(31, 3, 31)),
            (&[3, 0, 20, 0, 3, 5, 10, 0, 3, 21, 65534, 0], refused_at(31, 3, 65535)),
            (&[3, 1, 20, 0, 3, 20, 65535, 0], refused_at(31, 3, 0)),
        ],
    );
}

/// Of the counting program, which has event 0 alone.
const TABLE: [u16; 20] =
    [2, 0, 99, 0, 2, 100, 65535, 65535, 0, 0, 65535, 1, 15, 0, 32767, 65535, 15, 32768, 65535, 0];

pub fn what_a_raise_posts(runtime: &dyn Runtime) {
    let posted = [(2, 0), (2, 1), (2, 99), (15, 32768), (15, 40000), (15, 65535)];
    for (line, level) in posted {
        let mut bench = Bench::counting(runtime);
        assert_eq!(bench.raise(&TABLE, line, level), Answer::Done, "line {line}, level {level}");
        assert_eq!(bench.device, Device { handler: Some(Handler::single(0, level)), ..Device::ON });
        assert_eq!(bench.steps(3), Answer::Accepted(None));
        // Chosen, two steps of SAVE, three stores; then the copy, the head store and the last.
        bench.steps(9);
        assert_eq!(bench.memory(), [0, level]);
    }
    let silent = [(2, 100), (2, 65535), (15, 0), (15, 32767), (1, 0), (14, 5), (16, 0), (18, 50), (258, 50), (65535, 0)];
    for (line, level) in silent {
        let mut bench = Bench::counting(runtime);
        assert_eq!(bench.raise(&TABLE, line, level), Answer::NothingPosted, "line {line}, level {level}");
        assert_eq!(bench.device, Device::ON);
        assert_eq!(bench.raise(&[], line, level), Answer::NothingPosted);
    }
    for level in [0, 1, 65535] {
        assert_eq!(Bench::counting(runtime).raise(&TABLE, 0, level), refused(8));
        assert_eq!(Bench::counting(runtime).raise(&[0, 0, 65535, 65534], 0, level), refused(8));
    }
}

pub fn what_a_raise_meets_first(runtime: &dyn Runtime) {
    let twice = [TABLE.as_slice(), &[15, 7, 7, 0]].concat();
    // A raise that posts, one without event, one of a line without rows, and one whose table is refused.
    let all = |bench: &mut Bench| {
        [(&TABLE[..], 2, 5), (&TABLE[..], 2, 100), (&TABLE[..], 3, 5), (&twice[..], 2, 5)]
            .map(|(table, line, level)| bench.raise(table, line, level))
    };
    let with = |posts: Answer| [posts, Answer::NothingPosted, Answer::NothingPosted, refused_at(32, 15, 7)];
    let mut off = Bench::new(runtime, &COUNTING, 1, 1);
    assert_eq!(all(&mut off), with(refused(22)));
    let mut busy = Bench::counting(runtime);
    assert_eq!(busy.post(0, 9), Answer::Done);
    assert_eq!(all(&mut busy), with(refused(20)));
    busy.steps(3);
    // Full: a raise drops the record, until its event has begun.
    let resting = busy.device;
    assert_eq!(all(&mut busy), with(Answer::Done));
    busy.device = resting;
    busy.steps(1);
    assert_eq!(all(&mut busy), with(refused(21)));
    for (index, word, number, place) in [(5, 27, 1, 0), (0, 0, 2, 0), (1, 33, 3, 1)] {
        let mut bench = Bench::counting(runtime);
        bench.program[index] = word;
        assert_eq!(all(&mut bench), with(refused_at(number, place, 0)));
    }
    for (index, word, number, place) in [(0, 0, 6, 0), (9, 1, 7, 9), (15, 2, 7, 15), (16, 3, 7, 16), (16, 1, 25, 0)] {
        let mut bench = Bench::counting(runtime);
        bench.store[index] = word;
        assert_eq!(all(&mut bench), with(refused_at(number, place, 0)));
    }
    let mut unlike = Bench::counting(runtime);
    unlike.device.log_count = 2;
    assert_eq!(all(&mut unlike), with(refused(25)));
}

pub fn a_raise_without_a_device(runtime: &dyn Runtime) {
    let Bench { program, mut store, .. } = Bench::counting(runtime);
    let mut words = Device::ON.to_words();
    words[0] = 2;
    let calls = [
        (&TABLE[..], 2, 5, Answer::NoDevice),
        (&TABLE[..], 0, 0, Answer::NoDevice),
        (&TABLE[..], 2, 100, Answer::NothingPosted),
        (&TABLE[..], 3, 5, Answer::NothingPosted),
        (&TABLE[..], 16, 5, Answer::NothingPosted),
        (&TABLE[..19], 2, 5, refused_at(30, 4, 0)),
        (&TABLE[..16], 2, 5, refused_at(31, 15, 32768)),
    ];
    for (table, line, level, answer) in calls {
        let (before, store_before) = (words, store.clone());
        let call = Call::Raise { table: table.into(), line, level };
        let outcome = runtime.stray(&call, &program, &mut store, &mut words, &mut Totals::default());
        assert_eq!(outcome, Outcome::Answer(answer), "line {line}, level {level}");
        assert_eq!((words, &store), (before, &store_before));
    }
}
