//! Word 16: every situation comes up, and every mistake is caught, in the fixed lists and in random ones, each alone, and
//! by the cases; and whose turn it is is seen without a second side.

use conformance::begun::lists;
use conformance::compare::{self, Counts};
use conformance::generate;
use conformance::many::{fixed_lists, missing};
use conformance::mutants::{mistakes_about_begun, Mistake, Mutant};
use conformance::reference::Reference;
use conformance::runtime::{Answer, Body, Device, Refusal};
use conformance::scenario::{Call, Scenario};
use conformance::serial::Serial;
use conformance::turn::Turn;
use conformance::{cases, selfrun};

/// Random lists, undamaged and damaged.
fn random_lists(seeds: u64) -> impl Iterator<Item = Scenario> {
    (0..seeds).flat_map(|seed| [false, true].map(|damaged| generate::scenario(seed, damaged)))
}

fn counts(lists: impl Iterator<Item = Scenario>) -> Counts {
    let mut counts = Counts::default();
    for list in lists {
        compare::drive(&Reference, &Reference, &list, &mut counts).unwrap();
    }
    counts
}

#[test]
fn every_situation_comes_up() {
    for (what, counts) in [("fixed", counts(fixed_lists())), ("random", counts(random_lists(3000)))] {
        println!("{what} lists, {} calls\n{}", counts.all_calls(), counts.begun.table());
        assert_eq!(counts.begun.missing(), [""; 0], "{what} lists");
    }
    // Where none does, a comparison doesn't pass.
    let never = missing(&Counts::default());
    for call in ["boot", "step", "post", "run"] {
        assert!(never.iter().any(|missed| missed.starts_with(&format!("{call}, word 16: "))), "{call}");
    }
}

/// The calls until a mistake is caught.
fn caught(mistake: Mistake, lists: impl Iterator<Item = Scenario>) -> u64 {
    let mut counts = Counts::default();
    for list in lists {
        if compare::drive(&Reference, &Mutant(mistake), &list, &mut counts).is_err() {
            return counts.all_calls();
        }
    }
    panic!("{mistake:?} isn't caught");
}

#[test]
fn mistakes_are_caught() {
    for mistake in mistakes_about_begun() {
        let fixed = caught(*mistake, lists::lists().into_iter());
        let random = caught(*mistake, random_lists(3000));
        println!("{mistake:?}: caught after {fixed} calls of the fixed lists, {random} of random ones");
        assert!(fixed <= 40_000 && random <= 100_000, "{mistake:?}");
        assert!(!cases::all(&Mutant(*mistake)), "{mistake:?} fails no case");
    }
}

#[test]
fn fixed_lists_without_changes_are_undamaged() {
    let undamaged = lists::undamaged();
    for list in &undamaged {
        assert!(list.calls.iter().all(Call::takes_device));
        selfrun::drive(&Reference, list, &mut Counts::default()).unwrap();
    }
    println!("{} undamaged lists", undamaged.len());
}

/// What an implementation alone is told over undamaged lists.
fn told(mistake: Mistake) -> String {
    let mut counts = Counts::default();
    let told = |list: Scenario| selfrun::drive(&Mutant(mistake), &list, &mut counts).err();
    lists::undamaged().into_iter().find_map(told).map(|difference| difference.text).unwrap_or_default()
}

#[test]
fn whose_turn_it_is_is_seen_on_one_side() {
    use Mistake::*;
    let mistakes = [
        (BootChoosesAnew, "recovery: word 16 is 1"),
        (BegunChosenAgain, "recovery: word 16 is 1"),
        (EventTakenUpBeforeTask, "recovery: word 16 is 1"),
        (TaskTakenUpForEvent, "recovery: word 16 is 2"),
        (TakenUpEventWithoutData, "recovery: word 16 is 2"),
        (TakenUpTaskWithData, "recovery: word 16 is 1"),
        (BegunClearedInName, "recovery: word 16 is 1"),
        (ChoosingStoresNothing, "stored: None"),
        (TaskBegunForEvent, "recovery: word 16 is 1"),
        (BegunNotCleared, "recovery: 5 steps, 6 expected"),
        (BegunClearedAfterPhase, "recovery: "),
        (TaskBeforeEvent, "is next"),
    ];
    for (mistake, text) in mistakes {
        let told = told(mistake);
        assert!(told.contains(text), "{mistake:?}: {told}");
    }
}

/// The error at the last of these answers, all of the counting program's calls on one device; the others are right.
fn error(answers: &[Answer]) -> String {
    let (mut turn, serial) = (Turn::default(), Serial::new(&cases::COUNTING, 1));
    let (last, before) = answers.split_last().unwrap();
    for answer in before {
        turn.read(answer, &Device::ON, &serial).unwrap();
    }
    turn.read(last, &Device::ON, &serial).unwrap_err()
}

#[test]
fn a_turn_is_broken_by_answers_alone() {
    let [task, event] = [Body::Task(0), Body::Event(0)];
    let refused = |number: u16| Answer::Refused(Refusal { number, place: (0, 0) });
    let (chosen, committed) = (Answer::Chosen(task), Answer::Committed(task));
    // The queue is empty.
    assert_eq!(error(&[Answer::Chosen(event)]), "chosen Event(0), Task(0) is next");
    assert_eq!(error(&[chosen, Answer::Done, chosen]), "chosen Task(0) while Task(0) is begun");
    assert_eq!(error(&[chosen, Answer::Chosen(event)]), "chosen Event(0) while Task(0) is begun");
    assert_eq!(error(&[chosen, Answer::Committed(event)]), "committed Event(0), begun Some(Task(0))");
    assert_eq!(error(&[committed]), "committed Task(0), begun None");
    assert_eq!(error(&[chosen, committed, chosen, committed, committed]), "committed Task(0), begun None");
    assert!(error(&[chosen, refused(23), Answer::Done, refused(24)]).starts_with("(Refusal { number: 24"));
    assert!(error(&[chosen, refused(24), Answer::Done, committed]).starts_with("committed Task(0) after Refusal"));
}
