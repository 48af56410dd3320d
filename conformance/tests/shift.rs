//! SHR: every word by every k comes up, and a comparison doesn't pass where one is left out; every mistake is caught, on one
//! side and on both, with a short list that shows it; other lists don't meet a mistake of one word.

use conformance::compare::{self, Counts};
use conformance::foreign::Foreign;
use conformance::many::{fixed_lists, missing};
use conformance::mutants::{mistakes_about_shifts, mistakes_in_one_shift, Mistake, Mutant};
use conformance::reference::Reference;
use conformance::scenario::Scenario;
use conformance::shift::situations::Shifts;
use conformance::shift::{by_runs, by_steps, drive, refused, shifted, ROUND};
use conformance::{cases, generate, standin};

#[test]
fn every_word_by_every_k_comes_up() {
    let mut shifts = Shifts::default();
    drive(&Reference, &Reference, &mut shifts).unwrap();
    println!("{} calls\n{}", shifts.calls, shifts.table());
    assert_eq!(shifts.missing(), [""; 0]);
    // Each with the check, the formatting and the boot: the steps, the runs, and three calls for each k from 16 on.
    let [steps, runs] = [2 + 65536 * 35 + 7, 1 + 65536 * 17 + 1];
    assert_eq!(shifts.calls, 3 + steps + 3 + runs + 3 + 2 + 3 * 65520);
}

#[test]
fn behind_c_functions() {
    let mut shifts = Shifts::default();
    drive(&Reference, &Foreign { functions: standin::FUNCTIONS }, &mut shifts).unwrap();
    assert_eq!(shifts.missing(), [""; 0]);
}

#[test]
fn one_left_out_is_too_little() {
    let mut counts = Counts::default();
    let shifts = &mut counts.shifts;
    // Up to the last shift of all; every k from 16 on but one.
    let steps = by_steps().take(3 + 2 + 65535 * ROUND + 31);
    shifted(&Reference, &Reference, steps, shifts).unwrap();
    let runs = by_runs().take(3 + 1 + 65535 * 17 + 15);
    shifted(&Reference, &Reference, runs, shifts).unwrap();
    refused(&Reference, &Reference, (16..=65535).filter(|k| *k != 300), shifts).unwrap();
    let word = "by 15: 1 missing, the first hex FFFF";
    let k = "by 16 to 65535, refused 5: 1 missing, the first hex 012C";
    let expected = [format!("check, SHR: {k}"), format!("step, SHR: {word}; {k}"), format!("run, SHR: {word}; {k}")];
    assert_eq!(shifts.missing(), expected);
    // With it a comparison doesn't pass.
    assert!(missing(&counts).ends_with(&expected));
    let all = "check, SHR: by 16 to 65535, refused 5: 65520 missing, the first hex 0010";
    assert!(missing(&Counts::default()).contains(&all.to_string()));
}

/// The mistakes, and where each is met first.
const MET: [(Mistake, &str); 11] = [
    (Mistake::ShiftTowardsZero, "SHR of hex 8001 by 1, step"),
    (Mistake::ShiftToNearest, "SHR of hex 0001 by 1, step"),
    (Mistake::ShiftUnsigned, "SHR of hex 8000 by 1, step"),
    (Mistake::ShiftOneTooFar, "SHR of hex 0001 by 0, step"),
    (Mistake::ShiftZeroHalves, "SHR of hex 0001 by 0, step"),
    (Mistake::ShiftFifteenAsFourteen, "SHR of hex 4000 by 15, step"),
    (Mistake::ShiftModuloSixteen, "SHR by 16, check"),
    (Mistake::ShiftLowestWordToZero, "SHR of hex 8000 by 15, step"),
    (Mistake::ShiftOneWordWrong, "SHR of hex 5A5B by 7, step"),
    (Mistake::ShiftOneWordWrongInRun, "SHR of hex 5A5B by 7, run 2"),
    (Mistake::ShiftOneLargePasses, "SHR by 40003, check"),
];

#[test]
fn every_mistake_is_caught() {
    assert_eq!(MET.map(|(mistake, _)| mistake), mistakes_about_shifts());
    for (mistake, what) in MET {
        let mutant = Mutant(mistake);
        let failure = drive(&Reference, &mutant, &mut Shifts::default()).unwrap_err();
        println!("{mistake:?}: {}; {}", failure.what, failure.text);
        assert_eq!(failure.what, what);
        let list = Scenario::from_text(&failure.list.to_text()).unwrap();
        let again = compare::drive(&Reference, &mutant, &list, &mut Counts::default()).unwrap_err();
        assert_eq!(again.text, failure.difference.unwrap().text);
        assert!(list.calls.len() <= 10, "{mistake:?}: {} calls", list.calls.len());
    }
}

#[test]
fn a_mistake_of_both_sides_is_caught() {
    for (mistake, what) in MET {
        let mutant = Mutant(mistake);
        let failure = drive(&mutant, &mutant, &mut Shifts::default()).unwrap_err();
        assert_eq!(failure.what, what);
        // In the short list a side alone shows it: beside the serial run, or a run beside single steps. A list with a
        // program that isn't right is compared only.
        let shown = failure.difference.map(|difference| difference.text).unwrap_or_default();
        let alone = shown.contains("serial memory") || shown.contains("run and single steps");
        assert_eq!(alone, what.contains("of hex"), "{mistake:?}: {shown}");
    }
}

#[test]
fn a_difference_outside_shifts_has_the_calls_up_to_it() {
    let mutant = Mutant(Mistake::TotalsMissCommitStore);
    let failure = drive(&Reference, &mutant, &mut Shifts::default()).unwrap_err();
    // Chosen, SET, the rounds, and of GO the fourth store.
    let steps = 2 + 65536 * ROUND + 2;
    assert_eq!(failure.what, format!("step, {steps} steps after the boot"));
    assert_eq!(failure.list.calls.len(), 1 + steps / 10000 + 2);
    assert_eq!(failure.text, failure.difference.unwrap().text);
}

#[test]
fn a_mistake_of_one_word_is_met_by_no_list() {
    let random = (0..1000).flat_map(|seed| [false, true].map(|damaged| generate::scenario(seed, damaged)));
    let lists: Vec<Scenario> = fixed_lists().chain(random).collect();
    for mistake in mistakes_about_shifts() {
        let mutant = Mutant(*mistake);
        let once = mistakes_in_one_shift().contains(mistake);
        let passes = |list: &Scenario| compare::drive(&Reference, &mutant, list, &mut Counts::default()).is_ok();
        assert_eq!(lists.iter().all(passes), once, "{mistake:?}");
        // The paper has a case for hex 8000 by 15.
        assert_eq!(cases::all(&mutant), once && *mistake != Mistake::ShiftLowestWordToZero, "{mistake:?}");
    }
}
