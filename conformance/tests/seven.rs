//! The place of refusal 7 where several rules are broken: found another way; every situation comes up, and every
//! mistake is caught, in the fixed lists and in random ones, each alone.

use conformance::compare::{self, Counts};
use conformance::generate;
use conformance::many::missing;
use conformance::mutants::{mistakes_about_the_lowest, Mistake, Mutant};
use conformance::reference::{broken, Reference, MEMORY};
use conformance::runtime::*;
use conformance::scenario::{Call, Machine, Outcome, Scenario};
use conformance::seven;
use std::collections::BTreeSet;

fn fixed_lists() -> impl Iterator<Item = Scenario> {
    seven::lists().into_iter()
}

/// Random lists with damage.
fn random_lists(seeds: u64) -> impl Iterator<Item = Scenario> {
    (0..seeds).map(|seed| generate::scenario(seed, true))
}

/// Show each call with the machine before and after it, and what it gave.
fn perform(list: &Scenario, mut show: impl FnMut(&Call, [&Machine; 2], Outcome)) {
    let mut machine = Machine::new(list);
    let Scenario { log_pairs, queue_records, .. } = *list;
    machine.call(&Reference, &Call::Format { log_pairs, queue_records });
    let mut kept = machine.clone();
    let mut before = machine.clone();
    for call in &list.calls {
        before.copy_from(&machine);
        match machine.call(&Reference, call) {
            Some(outcome) => show(call, [&before, &machine], outcome),
            None => machine.change(call, &mut kept),
        }
    }
}

/// The first word in rising order whose rule is broken: of all rules, or of those that need no row, log pair or record.
fn first_in_rising_order(Machine { program, store, .. }: &Machine, all: bool) -> Option<u16> {
    let [tasks, events, memory] = [program[1], program[2], program[3]];
    let [log_pairs, queue_records, log, queue] = [store[2], store[3], store[6], store[7]];
    let [phase, task, open, count] = [store[8], store[9], store[10], store[11]];
    let [pending, pending_open, head, tail, begun] = [store[12], store[13], store[14], store[15], store[16]];
    let number = |task: u16| program[8 + 3 * task as usize];
    let slots = queue_records + 1;
    let distance = |from: u16, to: u16| (to + slots - from) % slots;
    let fits_head = || pending == head || (distance(head, pending) == 1 && head != tail);
    let waits = |slot: u16| {
        let first = if phase == 2 { pending } else { head };
        distance(first, slot) < distance(first, tail)
    };
    let broken = |word: u16| match word {
        8 => phase > 2,
        9 => task >= tasks,
        10 => (phase == 2 && open != 0) || (all && phase == 0 && open != 0 && open != number(task)),
        11 => phase != 0 && count > log_pairs,
        12 if phase == 2 && pending <= queue_records => head <= queue_records && tail <= queue_records && !fits_head(),
        12 => phase == 2 || (phase == 1 && pending >= tasks),
        13 => all && phase == 1 && pending_open != 0 && pending_open != number(pending),
        14 => head > queue_records,
        15 => tail > queue_records,
        16 if begun == 2 && phase == 0 => {
            head <= queue_records && tail <= queue_records && (open != 0 || distance(head, tail) == 0)
        }
        16 => begun > 2,
        _ if word < log || word % 2 != log % 2 => false,
        _ if word < queue => all && phase != 0 && (word - log) / 2 < count && store[word as usize] >= memory,
        _ => all && waits((word - queue) / 2) && store[word as usize] >= events,
    };
    (8..store.len() as u16).find(|word| broken(*word))
}

#[test]
fn the_lowest_word_is_the_first_in_rising_order() {
    let mut refused = 0;
    for list in fixed_lists().chain(random_lists(600)) {
        perform(&list, |call, [before, machine], outcome| match (call, outcome.refusal()) {
            (_, Some(Refusal { number: 7, place })) => {
                // A word that a step uses, where the first look passes.
                let mut used = broken(&machine.program, &machine.store).all.into_iter();
                let used = used.find(|word| *call != Call::Boot && *word == place.0);
                assert_eq!(first_in_rising_order(machine, *call == Call::Boot).or(used), Some(place.0));
                refused += 1;
            }
            (Call::Boot, Some(Refusal { number: 26, .. })) => assert_eq!(first_in_rising_order(before, true), None),
            (Call::Boot, None) if !outcome.no_device() => assert_eq!(first_in_rising_order(before, true), None),
            (Call::Step | Call::Post { .. }, Some(Refusal { number: 8.., .. })) => {
                assert_eq!(first_in_rising_order(before, false), None)
            }
            (Call::Step | Call::Post { .. }, None) if !outcome.no_device() => {
                assert_eq!(first_in_rising_order(before, false), None)
            }
            _ => {}
        });
    }
    println!("{refused} refusals 7");
    assert!(refused > 20_000);
}

/// The pairs of control words that can be broken by themselves, and in which phases: 3 stands for none of them.
const PAIRS: [(u16, u16, &[u16]); 30] = [
    (8, 9, &[3]),
    (8, 14, &[3]),
    (8, 15, &[3]),
    (9, 10, &[2]),
    (9, 11, &[1, 2]),
    (9, 12, &[1, 2]),
    (9, 13, &[1]),
    (9, 14, &[0, 1, 2]),
    (9, 15, &[0, 1, 2]),
    (10, 11, &[2]),
    (10, 12, &[2]),
    (10, 14, &[0, 2]),
    (10, 15, &[0, 2]),
    (11, 12, &[1, 2]),
    (11, 13, &[1]),
    (11, 14, &[1, 2]),
    (11, 15, &[1, 2]),
    (12, 14, &[1, 2]),
    (12, 15, &[1, 2]),
    (13, 14, &[1]),
    (13, 15, &[1]),
    (14, 15, &[0, 1, 2]),
    (8, 16, &[3]),
    (9, 16, &[0, 1, 2]),
    (10, 16, &[0, 2]),
    (11, 16, &[1, 2]),
    (12, 16, &[1, 2]),
    (13, 16, &[1]),
    (14, 16, &[0, 1, 2]),
    (15, 16, &[0, 1, 2]),
];

#[test]
fn the_fixed_lists_have_every_pair_in_every_phase() {
    let mut met = [BTreeSet::new(), BTreeSet::new(), BTreeSet::new(), BTreeSet::new()];
    for list in fixed_lists() {
        perform(&list, |call, [_, machine], outcome| {
            let Some(Refusal { number: 7, place }) = outcome.refusal() else { return };
            let broken = broken(&machine.program, &machine.store);
            let (column, words) = match call {
                Call::Boot => (0, broken.all),
                Call::Step => (1, broken.early),
                Call::Run { .. } => (2, broken.early),
                _ => (3, broken.early),
            };
            if let [low, high] = words[..] {
                if high as usize >= MEMORY {
                    return;
                }
                assert_eq!(place, (low, 0));
                met[column].insert((low, high, machine.store[8].min(3)));
            }
        });
    }
    let all = || PAIRS.into_iter().flat_map(|(low, high, phases)| phases.iter().map(move |phase| (low, high, *phase)));
    // Step and post don't look at the rules that need a row: 10's in phase 0, and 13's.
    let early = || all().filter(|(low, high, phase)| !(*low == 10 && *phase == 0) && *low != 13 && *high != 13);
    assert_eq!(met, [all().collect(), early().collect(), early().collect(), early().collect()]);
    assert_eq!((all().count(), early().count()), (54, 46));
}

fn counts(lists: impl Iterator<Item = Scenario>) -> Counts {
    let mut counts = Counts::default();
    for list in lists {
        compare::drive(&Reference, &Reference, &list, &mut counts).unwrap();
    }
    counts
}

#[test]
fn every_situation_comes_up() {
    for (what, counts) in [("fixed", counts(fixed_lists())), ("random", counts(random_lists(3000)))] {
        println!("{what} lists, {} calls\n{}", counts.all_calls(), counts.several.table());
        assert_eq!(counts.several.missing(), [""; 0], "{what} lists");
        assert_eq!(counts.several.impossible(), 0, "{what} lists");
    }
    // Where none does, a comparison doesn't pass.
    let never = missing(&Counts::default());
    for call in ["boot", "step", "post", "run"] {
        let line = format!("{call}, 7 with several words: words 8 and 9; ");
        assert!(never.iter().any(|missed| missed.starts_with(&line)), "{call}");
    }
}

/// The calls until a mistake is caught.
fn caught(mistake: Mistake, lists: impl Iterator<Item = Scenario>) -> u64 {
    let mut counts = Counts::default();
    for list in lists {
        if compare::drive(&Reference, &Mutant(mistake), &list, &mut counts).is_err() {
            return counts.all_calls();
        }
    }
    panic!("{mistake:?} isn't caught");
}

#[test]
fn mistakes_about_the_lowest_word_are_caught() {
    for mistake in mistakes_about_the_lowest() {
        let fixed = caught(*mistake, fixed_lists());
        let random = caught(*mistake, random_lists(3000));
        println!("{mistake:?}: caught after {fixed} calls of the fixed lists, {random} of random ones");
        assert!(fixed <= 50_000 && random <= 100_000, "{mistake:?}");
    }
}
