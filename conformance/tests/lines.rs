//! Line tables and raises: the check found another way, raises held against posts; every situation comes up, and every
//! mistake is caught, in the fixed lists and in random ones, each alone; shortened lists keep few rows.

use conformance::cases::COUNTING;
use conformance::compare::{self, Counts};
use conformance::foreign::{Foreign, Functions};
use conformance::generate::{self, Random};
use conformance::lines::generate::any_table;
use conformance::lines::{lists::lists, Row, ROW_WORDS};
use conformance::many::missing;
use conformance::mutants::{mistakes_about_lines, Mistake, Mutant, MISTAKES};
use conformance::reference::Reference;
use conformance::runtime::*;
use conformance::scenario::{Call, Machine, Outcome, Scenario, Table};
use conformance::{cases, selfrun, shorten, standin};

/// Random lists, without damage and with it.
fn random_lists(seeds: u64) -> impl Iterator<Item = Scenario> {
    (0..seeds).flat_map(|seed| [false, true].map(|damaged| generate::scenario(seed, damaged)))
}

// ---------------------------------------------------------------------------------------------------------
// The check another way

/// The check of a table by the borders of its rows alone: where levels begin or end to be covered, nothing happens in
/// between.
fn by_borders(table: &[u16]) -> Answer {
    let refused = |number: u16, first: u16, second: u16| Answer::Refused(Refusal { number, place: (first, second) });
    let bad = |(number, row): &(usize, &[u16])| match row {
        [line, low, high, _] => *number > 63 || *line > 15 || low > high,
        _ => true,
    };
    if let Some((number, _)) = table.chunks(ROW_WORDS).enumerate().find(bad) {
        return refused(30, number as u16, 0);
    }
    let mut wrong = [None; 2];
    for line in 0..16 {
        let of_line = || table.chunks(ROW_WORDS).filter(|row| row[0] == line);
        // What the number of rows changes by at a level.
        let mut changes: Vec<(u32, i32)> = vec![(0, 0), (65536, 0)];
        changes.extend(of_line().flat_map(|row| [(row[1] as u32, 1), (row[2] as u32 + 1, -1)]));
        changes.sort();
        let mut covered = 0;
        for pair in changes.windows(2) {
            covered += pair[0].1;
            let kind = match covered {
                1 => continue,
                0 => 0,
                _ => 1,
            };
            if pair[0].0 < pair[1].0 && wrong[kind].is_none() && of_line().count() > 0 {
                wrong[kind] = Some((line, pair[0].0 as u16));
            }
        }
    }
    match wrong {
        [Some((line, level)), _] => refused(31, line, level),
        [None, Some((line, level))] => refused(32, line, level),
        _ => Answer::Done,
    }
}

#[test]
fn the_check_is_that_of_the_borders() {
    let fixed = lists().into_iter().flat_map(|list| list.calls);
    let fixed: Vec<Table> = fixed.filter_map(|call| call.table().cloned()).collect();
    let mut random = Random::new(30);
    let noise = (0..20_000).map(|events| any_table(&mut random, events % 17).into());
    let mut seen = [0; 4];
    for table in fixed.into_iter().chain(noise) {
        let answer = Reference.lines_check(&table);
        assert_eq!(answer, by_borders(&table), "{table:?}");
        seen[Outcome::Answer(answer).refusal().map_or(0, |refusal| refusal.number as usize - 29)] += 1;
    }
    println!("right {}, refused 30 {}, 31 {}, 32 {}", seen[0], seen[1], seen[2], seen[3]);
    assert!(seen.iter().all(|count| *count > 2_000));
}

// ---------------------------------------------------------------------------------------------------------
// Raises and posts

/// Show each raise with the machine before and after it, and its answer.
fn raises(list: &Scenario, mut show: impl FnMut(&Call, [&Machine; 2], Answer)) {
    let mut machine = Machine::new(list);
    let Scenario { log_pairs, queue_records, .. } = *list;
    machine.call(&Reference, &Call::Format { log_pairs, queue_records });
    let mut kept = machine.clone();
    let mut before = machine.clone();
    for call in &list.calls {
        before.copy_from(&machine);
        match machine.call(&Reference, call) {
            Some(Outcome::Answer(answer)) if matches!(call, Call::Raise { .. }) => show(call, [&before, &machine], answer),
            Some(_) => {}
            None => machine.change(call, &mut kept),
        }
    }
}

#[test]
fn a_raise_is_a_refusal_or_nothing_or_a_post() {
    let (mut refused, mut nothing, mut posts) = (0, 0, 0);
    for list in lists().into_iter().chain(random_lists(400)) {
        raises(&list, |call, [before, after], answer| {
            let Call::Raise { table, line, level } = call else { return };
            let right = by_borders(table);
            if right != Answer::Done {
                refused += 1;
                assert_eq!((answer, before), (right, after));
                return;
            }
            let row = |row: &[u16]| row[0] == *line && row[1] <= *level && row[2] >= *level && row[3] != 65535;
            let Some(row) = table.chunks(ROW_WORDS).find(|words| row(words)) else {
                nothing += 1;
                assert_eq!((answer, before), (Answer::NothingPosted, after));
                return;
            };
            posts += 1;
            let mut posted = before.clone();
            let post = Call::Post { event: row[3], datum: *level };
            let outcome = posted.call(&Reference, &post);
            assert_eq!((outcome, &posted), (Some(Outcome::Answer(answer)), after));
        });
    }
    println!("{refused} tables refused, {nothing} times nothing posted, {posts} posts");
    assert!(refused > 3_000 && nothing > 2_000 && posts > 3_000);
}

/// The counting program booted, and a raise of line 0 at this level with one row for it, then a step to accepted.
fn raised_list(row: Row, level: u16) -> Scenario {
    let table: Table = row.words().into();
    let mut calls = vec![Call::Boot, Call::Raise { table: table.clone(), line: 0, level }];
    calls.extend([Call::Step, Call::Step, Call::LinesCheck { table }, Call::Step, Call::Cut]);
    Scenario { seed: 0, program: COUNTING.to_vec(), log_pairs: 1, queue_records: 1, totals: Totals::default(), calls }
}

#[test]
fn the_serial_run_reads_a_raise_as_its_post() {
    let row = Row { line: 0, low: 0, high: 65535, event: 0 };
    let drive = |mistake: Mistake, list: &Scenario| {
        let mut counts = Counts::default();
        let result = selfrun::drive(&Mutant(mistake), list, &mut counts);
        (result.err().map(|difference| difference.index), counts.accepted)
    };
    // A mistake that doesn't show here, one in what is posted, one in what is said.
    assert_eq!(drive(Mistake::HighLevelAsData, &raised_list(row, 65535)), (None, 1));
    assert_eq!(drive(Mistake::HighLevelAsData, &raised_list(row, 9)).0, Some(Some(5)));
    let silent = Row { event: 65535, ..row };
    assert_eq!(drive(Mistake::HighLevelAsData, &raised_list(silent, 9)).0, None);
    assert_eq!(drive(Mistake::NothingPostedAnsweredDone, &raised_list(silent, 9)).0, Some(Some(1)));
    // A table that is refused, and a raise after it: the latest post answered done counts.
    let mut list = raised_list(row, 9);
    list.calls.insert(2, Call::Raise { table: [0, 0, 9, 0].into(), line: 0, level: 3 });
    list.calls.insert(3, Call::Raise { table: row.words().into(), line: 0, level: 3 });
    list.calls.insert(4, Call::Raise { table: silent.words().into(), line: 0, level: 3 });
    assert_eq!(drive(Mistake::HeadPlusOneOnRedo, &list), (None, 1));
}

#[test]
fn mistakes_in_what_is_posted_are_caught_by_demand_3() {
    for mistake in [Mistake::LowLevelAsData, Mistake::HighLevelAsData, Mistake::LineAsData, Mistake::AnyLinesRow] {
        let mut counts = Counts::default();
        let mut lists = (0..3000).map(|seed| generate::scenario(seed, false));
        assert!(lists.any(|list| selfrun::drive(&Mutant(mistake), &list, &mut counts).is_err()), "{mistake:?}");
        println!("{mistake:?}: caught after {} calls", counts.all_calls());
    }
}

// ---------------------------------------------------------------------------------------------------------
// What comes up, and what is caught

fn counts(lists: impl Iterator<Item = Scenario>) -> Counts {
    let mut counts = Counts::default();
    for list in lists {
        compare::drive(&Reference, &Reference, &list, &mut counts).unwrap();
    }
    counts
}

#[test]
fn every_situation_comes_up() {
    for (what, counts) in [("fixed", counts(lists().into_iter())), ("random", counts(random_lists(3000)))] {
        println!("{what} lists, {} calls\n{}", counts.all_calls(), counts.lines.table());
        assert_eq!(counts.lines.missing(), [""; 0], "{what} lists");
        for (kind, number) in [(7, 30), (7, 31), (7, 32), (8, 30), (8, 31), (8, 32), (8, 1), (8, 2), (8, 3), (8, 6)]
            .into_iter()
            .chain([7, 8, 20, 21, 22, 25].map(|number| (8, number)))
        {
            assert!(counts.refusals[kind].0[number] > 0, "{what} lists, call {kind}, refusal {number}");
        }
        assert!(counts.no_device[8] > 0 && counts.nothing_posted[8] > 0);
    }
    // Where none does, a comparison doesn't pass.
    let never = missing(&Counts::default());
    for line in ["lines-check: 30, 31, 32", "raise: 1, 2, 3, 6, 7, 8, 20, 21, 22, 25, 30, 31, 32, no device"] {
        assert!(never.iter().any(|missed| missed == line), "{never:?}");
    }
    for call in ["lines-check", "raise"] {
        let line = format!("{call}, line tables: 30, row 0: line past 15; ");
        assert!(never.iter().any(|missed| missed.starts_with(&line)), "{call}");
    }
}

#[test]
fn the_fixed_lists_are_their_text() {
    for list in lists() {
        assert_eq!(Scenario::from_text(&list.to_text()), Ok(list));
    }
}

/// The calls until a mistake is caught, and the list.
fn caught(mistake: Mistake, mut lists: impl Iterator<Item = Scenario>) -> (u64, Scenario) {
    let mut counts = Counts::default();
    let list = lists.find(|list| compare::drive(&Reference, &Mutant(mistake), list, &mut counts).is_err());
    (counts.all_calls(), list.unwrap_or_else(|| panic!("{mistake:?} isn't caught")))
}

#[test]
fn mistakes_are_caught() {
    for mistake in mistakes_about_lines() {
        let (fixed, list) = caught(*mistake, lists().into_iter());
        let (random, other) = caught(*mistake, random_lists(3000));
        let fails = |list: &Scenario| compare::drive(&Reference, &Mutant(*mistake), list, &mut Counts::default()).is_err();
        let rows = [list, other].map(|list| {
            let short = shorten::shorten(&list, &fails);
            assert!(fails(&short));
            short.calls.iter().filter_map(|call| call.table()).map(|table| table.len()).max().unwrap_or(0)
        });
        println!("{mistake:?}: caught after {fixed} calls of the fixed lists, {random} of random ones; words {rows:?}");
        assert!(fixed <= 40_000 && random <= 200_000, "{mistake:?}");
        // Few rows are left, but where the 65th is the point.
        let many = ["SixtyFourthRow", "SixtyFifth", "RowsBeforeLength", "LengthCutTo16Bits"];
        let many = many.iter().any(|name| format!("{mistake:?}").contains(name));
        let few = |words: &usize| *words <= 6 * ROW_WORDS;
        assert!(many || few(&rows[0]), "{mistake:?}: {rows:?}");
        assert!(few(&rows[1]) || rows[1] >= 64 * ROW_WORDS, "{mistake:?}: {rows:?}");
    }
}

#[test]
fn every_mistake_fails_a_case() {
    for mistake in mistakes_about_lines() {
        assert!(!cases::all(&Mutant(*mistake)), "{mistake:?} fails no case");
    }
    // The mistakes stand in the list as they do in the type.
    assert!(MISTAKES.iter().enumerate().all(|(index, mistake)| *mistake as usize == index));
    assert_eq!(mistakes_about_lines().len(), 67);
}

// ---------------------------------------------------------------------------------------------------------
// C functions with a mistake at the boundary

unsafe extern "C" fn check_with_six_words(table: *const u16, length: usize, answer: *mut u16) {
    standin::lines_check(table, length, answer);
    *answer.add(5) = 0;
}

unsafe extern "C" fn check_writes_the_table(table: *const u16, length: usize, answer: *mut u16) {
    standin::lines_check(table, length, answer);
    if length > 7 {
        std::ptr::write_volatile(table.cast_mut().add(5), !*table.add(5));
    }
}

unsafe extern "C" fn check_without_an_answer(table: *const u16, length: usize, _answer: *mut u16) {
    let mut answer = [0; 5];
    standin::lines_check(table, length, answer.as_mut_ptr());
}

/// Nothing posted, with a word of a refusal left.
unsafe extern "C" fn nothing_posted_with_a_number(
    program: *const u16,
    length: usize,
    store: *mut u16,
    store_length: usize,
    device: *mut u16,
    table: *const u16,
    table_length: usize,
    line: u16,
    level: u16,
    answer: *mut u16,
) {
    standin::raise(program, length, store, store_length, device, table, table_length, line, level, answer);
    if *answer == 9 {
        *answer.add(2) = 8;
    }
}

/// Nothing posted, but the device is made a right one.
unsafe extern "C" fn nothing_posted_clears_the_device(
    program: *const u16,
    length: usize,
    store: *mut u16,
    store_length: usize,
    device: *mut u16,
    table: *const u16,
    table_length: usize,
    line: u16,
    level: u16,
    answer: *mut u16,
) {
    standin::raise(program, length, store, store_length, device, table, table_length, line, level, answer);
    if *answer == 9 && *device > 1 {
        *device = 1;
    }
}

/// A raise that stores the level in the store's last word.
unsafe extern "C" fn raise_stores(
    program: *const u16,
    length: usize,
    store: *mut u16,
    store_length: usize,
    device: *mut u16,
    table: *const u16,
    table_length: usize,
    line: u16,
    level: u16,
    answer: *mut u16,
) {
    standin::raise(program, length, store, store_length, device, table, table_length, line, level, answer);
    if *answer == 0 {
        *store.add(store_length - 1) = level;
    }
}

#[test]
fn mistakes_at_the_boundary_are_caught() {
    let right = standin::FUNCTIONS;
    let wrong = [
        Functions { lines_check: check_with_six_words, ..right },
        Functions { lines_check: check_writes_the_table, ..right },
        Functions { lines_check: check_without_an_answer, ..right },
        Functions { raise: nothing_posted_with_a_number, ..right },
        Functions { raise: nothing_posted_clears_the_device, ..right },
        Functions { raise: raise_stores, ..right },
    ];
    let drive = |functions: Functions, list: &Scenario| {
        compare::drive(&Reference, &Foreign { functions }, list, &mut Counts::default())
    };
    for list in lists() {
        drive(right, &list).unwrap();
    }
    for (index, functions) in wrong.into_iter().enumerate() {
        assert!(lists().iter().any(|list| drive(functions, list).is_err()), "mistake {index} isn't caught, fixed");
        let mut random = (0..600).map(|seed| generate::scenario(seed, true));
        assert!(random.any(|list| drive(functions, &list).is_err()), "mistake {index} isn't caught, random");
    }
}
