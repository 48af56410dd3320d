//! The drivers are known to be able to fail: each implementation with a mistake is caught, the shortened list
//! still catches it, and what isn't a mistake passes. Also the boundary to C functions and the text form.

use conformance::compare::{self, Counts};
use conformance::foreign::{Foreign, Functions, NO_STORE};
use conformance::generate::scenario;
use conformance::mutants::{mistakes_in_one_shift, Mistake, Mutant, MISTAKES};
use conformance::reference::Reference;
use conformance::scenario::Scenario;
use conformance::{selfrun, shorten, standin};

/// The calls until the comparison catches a mistake, and the shortened list.
fn caught_by_comparison(mistake: Mistake) -> Option<(u64, Scenario)> {
    let mutant = Mutant(mistake);
    let mut counts = Counts::default();
    for seed in 0..3000 {
        for damaged in [false, true] {
            let list = scenario(seed, damaged);
            if compare::drive(&Reference, &mutant, &list, &mut counts).is_err() {
                let fails =
                    |list: &Scenario| compare::drive(&Reference, &mutant, list, &mut Counts::default()).is_err();
                return Some((counts.all_calls(), shorten::shorten(&list, &fails)));
            }
        }
    }
    None
}

#[test]
fn every_mistake_is_caught_by_comparison() {
    // Those of one word or one k are for tests/shift.rs.
    for mistake in MISTAKES.into_iter().filter(|mistake| !mistakes_in_one_shift().contains(mistake)) {
        let caught = caught_by_comparison(mistake);
        let (calls, short) = caught.unwrap_or_else(|| panic!("{mistake:?} isn't caught"));
        println!("{mistake:?}: caught after {calls} calls, {} calls are enough", short.calls.len());
        assert!(calls <= 400_000 && short.calls.len() <= 80, "{mistake:?}: {} calls", short.calls.len());
        assert!(compare::drive(&Reference, &Mutant(mistake), &short, &mut Counts::default()).is_err());
    }
}

#[test]
fn blackboard_mistakes_are_caught_by_demand_3() {
    let mistakes = [
        Mistake::HeadPlusOneOnRedo,
        Mistake::TailBeforeDatum,
        Mistake::PhaseBeforeTask,
        Mistake::CountFromLostState,
        Mistake::EventInOpenTransaction,
        Mistake::LoadPassesLog,
        Mistake::ShiftTowardsZero,
        Mistake::UnsignedLess,
    ];
    for mistake in mistakes {
        let mutant = Mutant(mistake);
        let mut counts = Counts::default();
        let caught = (0..3000)
            .any(|seed| selfrun::drive(&mutant, &scenario(seed, false), &mut counts).is_err());
        assert!(caught, "{mistake:?} isn't caught");
        println!("{mistake:?}: caught after {} calls", counts.all_calls());
    }
}

#[test]
fn the_reference_equals_itself() {
    let mut counts = Counts::default();
    for seed in 0..200 {
        for damaged in [false, true] {
            let list = scenario(seed, damaged);
            compare::drive(&Reference, &Reference, &list, &mut counts).unwrap();
        }
        selfrun::drive(&Reference, &scenario(seed, false), &mut counts).unwrap();
    }
}

#[test]
fn a_scenario_is_its_text() {
    for seed in 0..40 {
        for damaged in [false, true] {
            let mut list = scenario(seed, damaged);
            assert_eq!(list, scenario(seed, damaged));
            list.seed = 0;
            assert_eq!(Scenario::from_text(&list.to_text()), Ok(list));
        }
    }
}

#[test]
fn the_boundary_to_c_functions() {
    let foreign = Foreign { functions: standin::FUNCTIONS };
    let mut counts = Counts::default();
    for seed in 0..300 {
        for damaged in [false, true] {
            let list = scenario(seed, damaged);
            let result = compare::drive(&Reference, &foreign, &list, &mut counts);
            assert!(result.is_ok(), "seed {seed}: {result:?}");
        }
    }
    // Calls that look at the device met words that are none.
    for kind in [2, 3, 4, 6, 9] {
        assert!(counts.no_device[kind] > 0);
    }
}

// C functions with a mistake at the boundary, each beside right ones.

/// A cut that answers words that are no device's with "no device".
unsafe extern "C" fn cut_looks_at_the_words(device: *mut u16, answer: *mut u16) {
    if *device <= 1 {
        return standin::cut(device, answer);
    }
    std::slice::from_raw_parts_mut(answer, 5).copy_from_slice(&[8, 0, 0, 0, 0]);
}

unsafe extern "C" fn cut_without_an_answer(device: *mut u16, _answer: *mut u16) {
    let mut answer = [0; 5];
    standin::cut(device, answer.as_mut_ptr());
}

unsafe extern "C" fn cut_with_27_words(device: *mut u16, answer: *mut u16) {
    standin::cut(device, answer);
    *device.add(26) = 0;
}

unsafe extern "C" fn check_with_six_words(program: *const u16, length: usize, answer: *mut u16) {
    standin::check(program, length, answer);
    *answer.add(5) = 0;
}

unsafe extern "C" fn check_by_another_case(program: *const u16, length: usize, answer: *mut u16) {
    standin::check(program, length, answer);
    if *answer == 0 {
        *answer = 7;
    }
}

/// Words 11 and 12 aren't looked at where no body runs.
unsafe extern "C" fn step_reads_loosely(
    program: *const u16,
    length: usize,
    store: *mut u16,
    store_length: usize,
    device: *mut u16,
    totals: *mut u32,
    answer: *mut u16,
) {
    if *device.add(9) == 0 {
        *device.add(11) = 0;
        *device.add(12) = 0;
    }
    standin::step(program, length, store, store_length, device, totals, answer)
}

/// A step with an answer of five words: nothing is told of the word stored.
unsafe extern "C" fn step_with_five_words(
    program: *const u16,
    length: usize,
    store: *mut u16,
    store_length: usize,
    device: *mut u16,
    totals: *mut u32,
    answer: *mut u16,
) {
    let mut six = [0; 6];
    standin::step(program, length, store, store_length, device, totals, six.as_mut_ptr());
    std::slice::from_raw_parts_mut(answer, 5).copy_from_slice(&six[..5]);
}

/// Where nothing is stored, word 0 is told.
unsafe extern "C" fn step_tells_word_0(
    program: *const u16,
    length: usize,
    store: *mut u16,
    store_length: usize,
    device: *mut u16,
    totals: *mut u32,
    answer: *mut u16,
) {
    standin::step(program, length, store, store_length, device, totals, answer);
    if *answer.add(5) == NO_STORE {
        *answer.add(5) = 0;
    }
}

/// A run without a device counts a step.
unsafe extern "C" fn run_counts_without_a_device(
    program: *const u16,
    length: usize,
    store: *mut u16,
    store_length: usize,
    device: *mut u16,
    totals: *mut u32,
    budget: u32,
    answer: *mut u16,
) -> u32 {
    let steps = standin::run(program, length, store, store_length, device, totals, budget, answer);
    steps + (*answer == 8) as u32
}

#[test]
fn mistakes_at_the_boundary_are_caught() {
    let right = standin::FUNCTIONS;
    let wrong = [
        Functions { cut: cut_looks_at_the_words, ..right },
        Functions { cut: cut_without_an_answer, ..right },
        Functions { cut: cut_with_27_words, ..right },
        Functions { check: check_with_six_words, ..right },
        Functions { check: check_by_another_case, ..right },
        Functions { step: step_reads_loosely, ..right },
        Functions { step: step_with_five_words, ..right },
        Functions { step: step_tells_word_0, ..right },
        Functions { run: run_counts_without_a_device, ..right },
    ];
    for (index, functions) in wrong.into_iter().enumerate() {
        let foreign = Foreign { functions };
        let caught = (0..300).any(|seed| {
            let list = scenario(seed, true);
            compare::drive(&Reference, &foreign, &list, &mut Counts::default()).is_err()
        });
        assert!(caught, "mistake {index} isn't caught");
    }
}
