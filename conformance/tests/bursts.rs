//! Bursts: every situation comes up, and every mistake is caught, in the fixed lists and in random ones, each alone, and by
//! the cases; half a burst is seen without a second side; and the boundary.

use conformance::bursts::lists;
use conformance::compare::{self, Counts};
use conformance::foreign::{Foreign, Functions};
use conformance::generate;
use conformance::many::missing;
use conformance::mutants::{mistakes_about_bursts, Mistake, Mutant};
use conformance::reference::{Reference, HEAD, PENDING, PHASE, TAIL};
use conformance::runtime::*;
use conformance::scenario::{Call, Scenario};
use conformance::serial::Whole;
use conformance::{cases, selfrun, shorten, standin};

/// Random lists, undamaged and damaged.
fn random_lists(seeds: u64) -> impl Iterator<Item = Scenario> {
    (0..seeds).flat_map(|seed| [false, true].map(|damaged| generate::scenario(seed, damaged)))
}

fn counts(lists: impl Iterator<Item = Scenario>) -> Counts {
    let mut counts = Counts::default();
    for list in lists {
        compare::drive(&Reference, &Reference, &list, &mut counts).unwrap();
    }
    counts
}

#[test]
fn every_situation_comes_up() {
    for (what, counts) in [("fixed", counts(lists::lists().into_iter())), ("random", counts(random_lists(5000)))] {
        println!("{what} lists, {} calls\n{}", counts.all_calls(), counts.bursts.table());
        assert_eq!(counts.bursts.missing(), [""; 0], "{what} lists");
    }
    // Where none does, a comparison doesn't pass.
    let never = missing(&Counts::default());
    for call in ["boot", "step", "post", "burst", "run"] {
        assert!(never.iter().any(|missed| missed.starts_with(&format!("{call}, bursts: "))), "{call}");
    }
    assert!(never.contains(&"burst: 1, 2, 3, 6, 7, 8, 20, 21, 22, 25, 33, no device".to_string()));
}

/// The calls until a mistake is caught.
fn caught(mistake: Mistake, lists: impl Iterator<Item = Scenario>) -> u64 {
    let mut counts = Counts::default();
    for list in lists {
        if compare::drive(&Reference, &Mutant(mistake), &list, &mut counts).is_err() {
            return counts.all_calls();
        }
    }
    panic!("{mistake:?} isn't caught");
}

#[test]
fn mistakes_are_caught() {
    for mistake in mistakes_about_bursts() {
        let fixed = caught(*mistake, lists::lists().into_iter());
        let random = caught(*mistake, random_lists(3000));
        println!("{mistake:?}: caught after {fixed} calls of the fixed lists, {random} of random ones");
        assert!(fixed <= 230_000 && random <= 100_000, "{mistake:?}");
        assert!(!cases::all(&Mutant(*mistake)), "{mistake:?} fails no case");
    }
}

#[test]
fn fixed_lists_without_changes_are_undamaged() {
    let undamaged = lists::undamaged();
    for list in &undamaged {
        assert!(list.calls.iter().all(Call::takes_device));
        selfrun::drive(&Reference, list, &mut Counts::default()).unwrap();
    }
    println!("{} undamaged lists", undamaged.len());
}

/// What an implementation alone is told over undamaged lists.
fn told(mistake: Mistake) -> String {
    let mut counts = Counts::default();
    let told = |list: Scenario| selfrun::drive(&Mutant(mistake), &list, &mut counts).err();
    lists::undamaged().into_iter().find_map(told).map(|difference| difference.text).unwrap_or_default()
}

#[test]
fn half_a_burst_is_seen_on_one_side() {
    use Mistake::*;
    let half = "came in of a burst of";
    let mistakes = [
        (TailBeforeLastDatum, half),
        (TailBeforeDatum, half),
        (TailByOne, half),
        (TailAfterEachRecord, half),
        (BurstReversed, half),
        (DatumStoredAsEvent, half),
        (EverySlotAtTail, half),
        (NoWrapInBurst, half),
        (RingOfQueueRecords, "[] came in"),
        (LastRecordNotStored, half),
        (TailWrapsAtTheEndOnly, "outside the ring"),
        (LastDatumAnswersAccepted, "[] came in"),
        (CutKeepsStoredRecords, "recovery: [] waited, now"),
        (OneMoreThanRoomPasses, "waited, now"),
        (AcceptedCountedOnce, "totals"),
        (LengthZeroPasses, "a burst of 0 is done"),
    ];
    for (mistake, text) in mistakes {
        let told = told(mistake);
        assert!(told.contains(text), "{mistake:?}: {told}");
    }
}

/// A store with Q 4, these records from slot 3 on, and nothing else that is read.
fn waiting(records: &[(u16, u16)]) -> Vec<u16> {
    let mut store = vec![0; 40];
    (store[3], store[7], store[HEAD], store[TAIL]) = (4, 20, 3, (3 + records.len() as u16) % 5);
    for (number, (event, datum)) in records.iter().enumerate() {
        let slot = 20 + 2 * ((3 + number) % 5);
        (store[slot], store[slot + 1]) = (*event, *datum);
    }
    store
}

#[test]
fn a_burst_is_whole_by_calls_answers_and_records_alone() {
    let three = [(1, 10), (0, 11), (1, 12)];
    let burst = |count: u16| Call::Burst { count, words: [1, 10, 0, 11, 1, 12, 0, 0] };
    let posted = || {
        let mut whole = Whole::default();
        whole.read(&burst(3), &Answer::Done, &waiting(&[])).unwrap();
        whole
    };
    let step = |whole: &mut Whole, records: &[(u16, u16)], answer: Answer| {
        whole.read(&Call::Step, &answer, &waiting(records))
    };
    // All, or none.
    assert_eq!(step(&mut posted(), &three, Answer::Accepted(None)), Ok(()));
    assert_eq!(step(&mut posted(), &[], Answer::Stored), Ok(()));
    // Half of it, in another order, with another record between or behind, without the answer, and with it alone.
    let [one, two, last] = three;
    let wrong: [&[(u16, u16)]; 4] = [&three[..2], &[two, one, last], &[one, (0, 0), two, last], &[]];
    for records in wrong {
        assert!(step(&mut posted(), records, Answer::Accepted(None)).is_err(), "{records:?}");
    }
    assert!(step(&mut posted(), &[one, two, last, (0, 0)], Answer::Accepted(None)).is_err());
    assert!(step(&mut posted(), &three, Answer::Stored).is_err());
    // A refused burst carries nothing; one comes in once.
    let mut whole = posted();
    let refused = Answer::Refused(Refusal { number: 20, place: (0, 0) });
    assert_eq!(whole.read(&burst(1), &refused, &waiting(&[])), Ok(()));
    assert_eq!(step(&mut whole, &three, Answer::Accepted(None)), Ok(()));
    let twice = [&three[..1], &three[..]].concat();
    assert!(step(&mut whole.clone(), &twice, Answer::Accepted(None)).is_err());
    // An event's commit takes the oldest, and nothing else goes.
    let committed = Answer::Committed(Body::Event(1));
    let mut store = waiting(&three);
    (store[PHASE], store[PENDING]) = (2, 4);
    assert_eq!(whole.clone().read(&Call::Step, &committed, &store), Ok(()));
    assert!(whole.read(&Call::Step, &Answer::Stored, &store).is_err());
}

// The boundary

/// The words of a burst are written.
unsafe extern "C" fn burst_written(
    program: *const u16,
    length: usize,
    store: *mut u16,
    store_length: usize,
    device: *mut u16,
    count: u16,
    burst: *const u16,
    answer: *mut u16,
) {
    standin::burst(program, length, store, store_length, device, count, burst, answer);
    *burst.cast_mut() ^= 1;
}

/// A word behind the device is written.
unsafe extern "C" fn burst_past_the_device(
    program: *const u16,
    length: usize,
    store: *mut u16,
    store_length: usize,
    device: *mut u16,
    count: u16,
    burst: *const u16,
    answer: *mut u16,
) {
    standin::burst(program, length, store, store_length, device, count, burst, answer);
    *device.add(DEVICE_WORDS) = 0;
}

/// The count is one of 8 bits.
unsafe extern "C" fn burst_of_eight_bits(
    program: *const u16,
    length: usize,
    store: *mut u16,
    store_length: usize,
    device: *mut u16,
    count: u16,
    burst: *const u16,
    answer: *mut u16,
) {
    standin::burst(program, length, store, store_length, device, count & 255, burst, answer);
}

/// The words behind the last event's data are left in the device.
unsafe extern "C" fn burst_with_all_words(
    program: *const u16,
    length: usize,
    store: *mut u16,
    store_length: usize,
    device: *mut u16,
    count: u16,
    burst: *const u16,
    answer: *mut u16,
) {
    standin::burst(program, length, store, store_length, device, count, burst, answer);
    if *answer == 0 {
        std::ptr::copy_nonoverlapping(burst, device.add(18), BURST_WORDS);
    }
}

/// Never.
unsafe extern "C" fn burst_refused(
    _: *const u16,
    _: usize,
    _: *mut u16,
    _: usize,
    _: *mut u16,
    _: u16,
    _: *const u16,
    answer: *mut u16,
) {
    std::slice::from_raw_parts_mut(answer, 5).copy_from_slice(&[6, 0, 33, 0, 0]);
}

#[test]
fn mistakes_at_the_boundary_are_caught() {
    let right = standin::FUNCTIONS;
    let wrong = [burst_written, burst_past_the_device, burst_of_eight_bits, burst_with_all_words, burst_refused];
    let same = |foreign: &Foreign, list: &Scenario| {
        compare::drive(&Reference, foreign, list, &mut Counts::default()).is_ok()
    };
    for (index, burst) in wrong.into_iter().enumerate() {
        let foreign = Foreign { functions: Functions { burst, ..right } };
        assert!(random_lists(300).any(|list| !same(&foreign, &list)), "mistake {index} isn't caught");
    }
    // A post is the function for posts, a burst the one for bursts.
    let foreign = Foreign { functions: Functions { burst: burst_refused, ..right } };
    let has_bursts = |list: &Scenario| list.calls.iter().any(|call| matches!(call, Call::Burst { .. }));
    let without: Vec<Scenario> = random_lists(300).filter(|list| !has_bursts(list)).collect();
    assert!(!without.is_empty() && without.iter().all(|list| same(&foreign, list)));
    let foreign = Foreign { functions: right };
    assert!(lists::lists().iter().all(|list| same(&foreign, list)));
}

#[test]
fn shortened_lists_have_short_bursts() {
    for (mistake, most) in [(Mistake::TailByOne, 2), (Mistake::DatumStoredAsEvent, 2), (Mistake::LengthFiveAsFour, 5)] {
        let fails = |list: &Scenario| {
            compare::drive(&Reference, &Mutant(mistake), list, &mut Counts::default()).is_err()
        };
        let list = random_lists(3000).find(fails).unwrap();
        let short = shorten::shorten(&list, &fails);
        let bursts = short.calls.iter().filter_map(|call| match call {
            Call::Burst { count, words } => Some((*count, *words)),
            _ => None,
        });
        let bursts: Vec<(u16, BurstWords)> = bursts.collect();
        assert_eq!(bursts.len(), 1, "{mistake:?}: {}", short.to_text());
        assert_eq!(bursts[0].0, most, "{mistake:?}");
        assert_eq!(bursts[0].1, Handler::new(bursts[0].0, &bursts[0].1).words, "{mistake:?}");
    }
}
