//! Records dropped from a full queue: every situation comes up, and every mistake is caught, in the fixed lists and in
//! random ones, each alone, and by the cases; a wrong drop is seen without a second side; the serial run's rule; the boundary.

use conformance::bursts;
use conformance::compare::{self, Counts};
use conformance::drops::lists;
use conformance::drops::mutants::{Rule, WRONG_RULES};
use conformance::foreign::{answer_from_words, answer_words, Foreign, Functions};
use conformance::generate;
use conformance::many::missing;
use conformance::mutants::{mistakes_about_drops, Mistake, Mutant};
use conformance::reference::{Reference, HEAD, TAIL};
use conformance::runtime::*;
use conformance::scenario::{Call, Scenario};
use conformance::serial::{Serial, Whole};
use conformance::{cases, selfrun, standin};

/// Random lists, undamaged and damaged.
fn random_lists(seeds: u64) -> impl Iterator<Item = Scenario> {
    (0..seeds).flat_map(|seed| [false, true].map(|damaged| generate::scenario(seed, damaged)))
}

fn counts(lists: impl Iterator<Item = Scenario>) -> Counts {
    let mut counts = Counts::default();
    for list in lists {
        compare::drive(&Reference, &Reference, &list, &mut counts).unwrap();
    }
    counts
}

#[test]
fn every_situation_comes_up() {
    for (what, counts) in [("fixed", counts(lists::lists().into_iter())), ("random", counts(random_lists(6000)))] {
        println!("{what} lists, {} calls, {} drops\n{}", counts.all_calls(), counts.dropped, counts.drops.table());
        assert_eq!(counts.drops.missing(), [""; 0], "{what} lists");
        assert!(counts.dropped >= 2_500 && counts.cuts_after_drop >= 400, "{what} lists");
    }
    // Where none does, a comparison doesn't pass.
    let never = missing(&Counts::default());
    for call in ["boot", "step", "post", "burst", "raise", "run"] {
        assert!(never.iter().any(|missed| missed.starts_with(&format!("{call}, drops: "))), "{call}");
    }
}

/// The calls until a mistake is caught.
fn caught(mistake: Mistake, lists: impl Iterator<Item = Scenario>) -> u64 {
    let mut counts = Counts::default();
    for list in lists {
        if compare::drive(&Reference, &Mutant(mistake), &list, &mut counts).is_err() {
            return counts.all_calls();
        }
    }
    panic!("{mistake:?} isn't caught");
}

#[test]
fn mistakes_are_caught() {
    for mistake in mistakes_about_drops() {
        let fixed = caught(*mistake, lists::lists().into_iter());
        let random = caught(*mistake, random_lists(3000));
        println!("{mistake:?}: caught after {fixed} calls of the fixed lists, {random} of random ones");
        assert!(fixed <= 90_000 && random <= 150_000, "{mistake:?}");
        assert!(!cases::all(&Mutant(*mistake)), "{mistake:?} fails no case");
    }
}

#[test]
fn fixed_lists_without_changes_are_undamaged() {
    let mut counts = Counts::default();
    for list in lists::undamaged() {
        assert!(list.calls.iter().all(Call::undamaging));
        selfrun::drive(&Reference, &list, &mut counts).unwrap();
    }
    println!("{} undamaged lists, {} drops", counts.scenarios, counts.dropped);
}

/// What an implementation alone is told over undamaged lists.
fn told(mistake: Mistake) -> String {
    let mut counts = Counts::default();
    let told = |list: Scenario| selfrun::drive(&Mutant(mistake), &list, &mut counts).err();
    lists::undamaged().into_iter().find_map(told).map(|difference| difference.text).unwrap_or_default()
}

#[test]
fn a_wrong_drop_is_seen_on_one_side() {
    use Mistake::*;
    let mistakes = [
        (DropWithEventBegun, "recovery: boot answers Refused(Refusal { number: 7, place: (16, 0) })"),
        (DropInEventCommit, "accepted with Some((0, 100)) dropped, serial run None"),
        (DropInEventCommitOnceMoved, "came in of a burst of"),
        (DropInEventCommitOnceCleared, "came in of a burst of"),
        (BurstOfTwoDrops, "came in of a burst of"),
        (LongerBurstDropsOne, "came in of a burst of"),
        (DropAsStoring, "on an undamaged list"),
        (PostStoresHead, "word 14"),
        (RefusedPostEndsDrop, "changed the device"),
        (HeadAfterTail, "came in of a burst of"),
        (NewRecordOverHead, "came in of a burst of"),
        (NewRecordInDroppedSlot, "came in"),
        (NewestDropped, "dropped, serial run"),
        (TwoDropped, "waited, now"),
        (AllDropped, "waited, now"),
        (HeadNotWrapped, "outside the ring"),
        (HeadWrapsBeforeLastSlot, "came in of a burst of"),
        (HeadStoreNotCounted, "totals"),
        (HeadStoreNotTold, "stored: None"),
        (HeadStoreAnswersWorked, "word 14"),
        (HeadStoreAnswersAccepted, "waited, now"),
        (DropLeftOutOfAnswer, "accepted with None dropped"),
        (DroppedSwapped, "dropped, serial run"),
        (NewRecordInAnswer, "dropped, serial run"),
        (OldestLeftInAnswer, "dropped, serial run"),
        (DropNamedByEveryAnswer, "dropped, serial run None"),
        (AcceptedNotRaisedForReplaced, "totals"),
        (RunEndsAtDrop, "by single steps"),
        (DroppingAskedForRoom, "on an undamaged list"),
    ];
    let told = mistakes.map(|(mistake, text)| (mistake, text, told(mistake)));
    let others = told.iter().filter(|(_, text, told)| told.is_empty() || !told.contains(text));
    let others: Vec<String> = others.map(|(mistake, _, told)| format!("{mistake:?}: {told}")).collect();
    assert!(others.is_empty(), "{others:#?}");
}

// The serial run

#[test]
fn wrong_rules_of_the_serial_run_are_seen() {
    for rule in WRONG_RULES {
        let seen = |list: &Scenario| selfrun::drive_by(rule, &Reference, list, &mut Counts::default()).is_err();
        let fixed = lists::undamaged().iter().filter(|list| seen(list)).count();
        let random = (0..1500).filter(|seed| seen(&generate::scenario(*seed, false))).count();
        println!("{rule:?}: seen in {fixed} fixed lists, {random} of 1500 random ones");
        assert!(fixed > 0 && random > 0, "{rule:?}");
    }
}

const STEP: Call = Call::Step;

fn post(datum: u16) -> Call {
    Call::Post { event: 0, datum }
}

/// The counting program's serial run after these calls and answers, all of them right but for the last's error.
fn read(rule: Rule, queue_records: u16, calls: &[(Call, Answer)]) -> (Serial, Result<(), String>) {
    let mut serial = Serial::by(rule, &cases::COUNTING, queue_records);
    let mut result = Ok(());
    for (call, answer) in calls {
        assert_eq!(result, Ok(()));
        result = serial.read(&cases::COUNTING, call, answer);
    }
    (serial, result)
}

/// An event accepted, with its data.
fn accepted(datum: u16) -> Vec<(Call, Answer)> {
    let stored = (STEP, Answer::Stored);
    vec![(post(datum), Answer::Done), stored.clone(), stored, (STEP, Answer::Accepted(None))]
}

#[test]
fn the_rule_of_the_serial_run() {
    let stored = || (STEP, Answer::Stored);
    let done = |datum: u16| (post(datum), Answer::Done);
    let refused = |call: Call, number: u16| (call, Answer::Refused(Refusal { number, place: (0, 0) }));
    let sums = |serial: &Serial| (serial.accepted, serial.completed, serial.records.len(), serial.dropped);
    let after = |more: Vec<(Call, Answer)>| read(Rule::Right, 1, &[accepted(7), more].concat());
    // A post alone drops nothing; the stored answer after it does.
    assert_eq!(sums(&after(vec![done(8)]).0), (1, 0, 1, 0));
    assert_eq!(sums(&after(vec![done(8), stored()]).0), (1, 0, 0, 1));
    // Once: the stores of event and data drop nothing.
    assert_eq!(sums(&after(vec![done(8), stored(), stored(), stored()]).0), (1, 0, 0, 1));
    // Refused calls come between, a post, a boot and a step among them.
    let between = [refused(post(9), 20), refused(Call::Boot, 26), refused(post(9), 8), refused(STEP, 22)];
    assert_eq!(sums(&after([&[done(8)], &between[..], &[stored()]].concat()).0), (1, 0, 0, 1));
    // A cut does, and then nothing is dropped.
    let cut = [(Call::Cut, Answer::Done), (Call::Boot, Answer::Done)];
    assert_eq!(sums(&after([&[done(8)], &cut[..], &[stored()]].concat()).0), (1, 0, 1, 0));
    assert_eq!(sums(&after([&[done(8)], &cut[..1], &[stored()]].concat()).0), (1, 0, 1, 0));
    // Cut after it, both are lost.
    assert_eq!(sums(&after([&[done(8), stored()], &cut[..]].concat()).0), (1, 0, 0, 1));
    // With a record less than Q, nothing is dropped.
    assert_eq!(sums(&read(Rule::Right, 2, &[accepted(7), vec![done(8), stored()]].concat()).0), (1, 0, 1, 0));
    // The accepting answer has what was dropped for its post.
    let whole = |dropped: Option<Record>| {
        let more = vec![done(8), stored(), stored(), stored(), (STEP, Answer::Accepted(dropped))];
        let (serial, result) = after(more);
        (result.is_ok(), sums(&serial))
    };
    assert_eq!(whole(Some((0, 7))), (true, (2, 0, 1, 1)));
    for wrong in [None, Some((0, 8)), Some((7, 0)), Some((1, 7))] {
        assert!(!whole(wrong).0, "{wrong:?}");
    }
    assert!(read(Rule::Right, 2, &[accepted(7), vec![done(8), (STEP, Answer::Accepted(Some((0, 7))))]].concat()).1.is_err());
    // A drop that a cut has ended is none of the next post's.
    let lost = [&[done(8), stored()], &cut[..], &[done(9), stored(), stored(), (STEP, Answer::Accepted(None))]].concat();
    let (serial, result) = after(lost);
    assert_eq!((result, sums(&serial)), (Ok(()), (2, 0, 1, 1)));
}

/// A store with Q 2, these records from slot 1 on, and nothing else that is read.
fn waiting(records: &[Record], head: u16) -> Vec<u16> {
    let mut store = vec![0; 40];
    (store[3], store[7], store[HEAD], store[TAIL]) = (2, 20, head, (head + records.len() as u16) % 3);
    for (number, (event, datum)) in records.iter().enumerate() {
        let slot = 20 + 2 * ((head as usize + number) % 3);
        (store[slot], store[slot + 1]) = (*event, *datum);
    }
    store
}

#[test]
fn a_drop_by_calls_answers_and_records_alone() {
    let [one, two, new] = [(0, 5), (0, 6), (0, 7)];
    let full = || {
        let mut whole = Whole::default();
        for (datum, records) in [(5, vec![one]), (6, vec![one, two])] {
            whole.read(&post(datum), &Answer::Done, &waiting(&records[..records.len() - 1], 1)).unwrap();
            whole.read(&STEP, &Answer::Accepted(None), &waiting(&records, 1)).unwrap();
        }
        whole.read(&post(7), &Answer::Done, &waiting(&[one, two], 1)).unwrap();
        whole
    };
    let step = |whole: &mut Whole, records: &[Record], head: u16, answer: Answer| {
        whole.read(&STEP, &answer, &waiting(records, head))
    };
    let mut whole = full();
    assert_eq!(step(&mut whole, &[two], 2, Answer::Stored), Ok(()));
    assert_eq!(step(&mut whole, &[two], 2, Answer::Stored), Ok(()));
    assert_eq!(step(&mut whole, &[two, new], 2, Answer::Accepted(Some(one))), Ok(()));
    // The newest, both, none; later; a second one.
    for (records, head) in [(&[one][..], 1), (&[], 0), (&[one, two], 1)] {
        assert!(step(&mut full(), records, head, Answer::Stored).is_err(), "{records:?}");
    }
    let mut whole = full();
    assert_eq!(step(&mut whole, &[two], 2, Answer::Stored), Ok(()));
    assert!(step(&mut whole, &[], 0, Answer::Stored).is_err());
    // A refused call between is none; after a cut nothing goes.
    let refused = Answer::Refused(Refusal { number: 20, place: (0, 0) });
    let mut whole = full();
    assert_eq!(whole.read(&post(9), &refused, &waiting(&[one, two], 1)), Ok(()));
    assert_eq!(step(&mut whole, &[two], 2, Answer::Stored), Ok(()));
    let mut whole = full();
    assert_eq!(whole.read(&Call::Cut, &Answer::Done, &waiting(&[one, two], 1)), Ok(()));
    assert!(step(&mut whole, &[two], 2, Answer::Stored).is_err());
}

// The boundary

#[test]
fn answers_in_words() {
    for dropped in [None, Some((0, 0)), Some((1, 2)), Some((65535, 65535))] {
        let words = answer_words(&Answer::Accepted(dropped));
        assert_eq!(answer_from_words(&words), Some(Answer::Accepted(dropped)));
    }
    assert_eq!(answer_words(&Answer::Accepted(Some((3, 9)))), [5, 1, 3, 9, 0]);
    for words in [[5, 2, 3, 9, 0], [5, 0, 3, 0, 0], [5, 0, 0, 9, 0], [5, 1, 3, 9, 1], [5, 0, 0, 0, 1]] {
        assert_eq!(answer_from_words(&words), None, "{words:?}");
    }
}

/// Steps of the stand-in with another device, and with another answer.
type Step = unsafe extern "C" fn(*const u16, usize, *mut u16, usize, *mut u16, *mut u32, *mut u16);

/// A dropping handler's length and stores aren't looked at.
unsafe extern "C" fn step_reads_dropping_loosely(
    program: *const u16,
    length: usize,
    store: *mut u16,
    store_length: usize,
    device: *mut u16,
    totals: *mut u32,
    answer: *mut u16,
) {
    if *device.add(15) == 2 {
        (*device.add(16), *device.add(17)) = (1, 0);
    }
    standin::step(program, length, store, store_length, device, totals, answer)
}

/// A replacing handler's length isn't looked at.
unsafe extern "C" fn step_reads_replacing_loosely(
    program: *const u16,
    length: usize,
    store: *mut u16,
    store_length: usize,
    device: *mut u16,
    totals: *mut u32,
    answer: *mut u16,
) {
    if *device.add(15) == 3 {
        *device.add(16) = 1;
    }
    standin::step(program, length, store, store_length, device, totals, answer)
}

/// The dropped record is left out, as words that are no answer, or as data and event.
unsafe extern "C" fn step_without_the_record(
    program: *const u16,
    length: usize,
    store: *mut u16,
    store_length: usize,
    device: *mut u16,
    totals: *mut u32,
    answer: *mut u16,
) {
    standin::step(program, length, store, store_length, device, totals, answer);
    if *answer == 5 {
        (*answer.add(2), *answer.add(3)) = (0, 0);
    }
}

unsafe extern "C" fn step_without_the_kind(
    program: *const u16,
    length: usize,
    store: *mut u16,
    store_length: usize,
    device: *mut u16,
    totals: *mut u32,
    answer: *mut u16,
) {
    standin::step(program, length, store, store_length, device, totals, answer);
    if *answer == 5 {
        *answer.add(1) = 0;
    }
}

/// After the head store the handler is a storing one.
unsafe extern "C" fn step_forgets_the_drop(
    program: *const u16,
    length: usize,
    store: *mut u16,
    store_length: usize,
    device: *mut u16,
    totals: *mut u32,
    answer: *mut u16,
) {
    standin::step(program, length, store, store_length, device, totals, answer);
    if *answer == 3 && *device.add(15) == 3 {
        *device.add(15) = 1;
    }
}

#[test]
fn mistakes_at_the_boundary_are_caught() {
    let right = standin::FUNCTIONS;
    let wrong: [Step; 5] = [
        step_reads_dropping_loosely,
        step_reads_replacing_loosely,
        step_without_the_record,
        step_without_the_kind,
        step_forgets_the_drop,
    ];
    let same = |foreign: &Foreign, list: &Scenario| {
        compare::drive(&Reference, foreign, list, &mut Counts::default()).is_ok()
    };
    for (index, step) in wrong.into_iter().enumerate() {
        let foreign = Foreign { functions: Functions { step, ..right } };
        assert!(random_lists(600).any(|list| !same(&foreign, &list)), "mistake {index} isn't caught by random lists");
        assert!(lists::lists().iter().any(|list| !same(&foreign, list)), "mistake {index} isn't caught by fixed lists");
    }
    let foreign = Foreign { functions: right };
    assert!(lists::lists().iter().all(|list| same(&foreign, list)));
}

#[test]
fn undamaged_lists_keep_accepted_completed_waiting_and_dropped() {
    // Demand 3 counts on its own; here the host's totals and the answers say the same.
    let (mut drops, mut lost) = (0, 0);
    for list in lists::undamaged().into_iter().chain((0..300).map(|seed| generate::scenario(seed, false))) {
        let mut machine = conformance::scenario::Machine::new(&list);
        machine.totals = Totals::default();
        machine.call(&Reference, &Call::Format { log_pairs: list.log_pairs, queue_records: list.queue_records });
        let (mut committed, mut dropped, mut named) = (0, 0, 0);
        let steps = |call: &Call| if let Call::Run { budget } = call { (*budget).min(400) } else { 1 };
        for call in &list.calls {
            for _ in 0..steps(call) {
                let call = if let Call::Run { .. } = call { &STEP } else { call };
                let dropping = machine.device.handler.is_some_and(|handler| handler.work == Work::Dropping);
                let answer = machine.call(&Reference, call).unwrap().answer().unwrap();
                committed += matches!(answer, Answer::Committed(Body::Event(_))) as u32;
                dropped += (dropping && answer == Answer::Stored) as u32;
                named += matches!(answer, Answer::Accepted(Some(_))) as u32;
                // In phase 2 the committed record's slot is still taken until head has moved.
                let store = &machine.store;
                let first = if store[8] == 2 { store[12] } else { store[HEAD] };
                let waits = bursts::slots(store, first, store[TAIL]) as u32;
                assert_eq!(machine.totals.accepted, committed + waits + dropped);
            }
        }
        drops += dropped;
        lost += dropped - named;
    }
    println!("{drops} drops, {lost} of them without an answer that names the record");
    assert!(drops > 2_500 && lost > 500);
}
