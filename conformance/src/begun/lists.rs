//! Fixed lists about word 16, which every comparison starts with. Some are undamaged: over these each side is also held
//! alone against the serial run.

use crate::generate::code;
use crate::reference::*;
use crate::runtime::*;
use crate::scenario::{Call, Scenario};

type Code = Vec<[u16; 2]>;

/// A program of tasks with their transaction numbers, then events.
fn program(tasks: &[(u16, Code)], events: &[Code]) -> Vec<u16> {
    let bodies: Vec<(u16, &Code)> =
        tasks.iter().map(|(number, body)| (*number, body)).chain(events.iter().map(|body| (0, body))).collect();
    let mut words = vec![PROGRAM_MARK, tasks.len() as u16, events.len() as u16, MEMORY_WORDS, 0, 0];
    let mut start = 6 + 3 * bodies.len();
    for (number, body) in &bodies {
        words.extend([start as u16, body.len() as u16, *number]);
        start += 2 * body.len();
    }
    words.extend(bodies.iter().flat_map(|(_, body)| body.iter().flatten()));
    words[5] = words.len() as u16;
    words
}

/// M, L and Q of every program here.
const MEMORY_WORDS: u16 = 4;
const SIZES: (u16, u16) = (2, 3);

fn list(program: &[u16], calls: Vec<Call>) -> Scenario {
    let (log_pairs, queue_records) = SIZES;
    Scenario { seed: 0, program: program.to_vec(), log_pairs, queue_records, totals: Totals::default(), calls }
}

fn post(event: u16, datum: u16) -> Call {
    Call::Post { event, datum }
}

fn steps(count: usize) -> Vec<Call> {
    vec![Call::Step; count]
}

// ---------------------------------------------------------------------------------------------------------
// Undamaged lists

/// T0 and T1 of transaction 5, and T2, which goes back to T0. The first two and event 0 save a word twice. Event 0 saves
/// its data, event 1 adds it.
fn turns() -> Vec<u16> {
    let first =
        vec![code(SET, 1, 0, 7), code(SAVE, 1, 0, 0), code(SAVE, 1, 0, 0), code(SAVE, 0, 0, 1), code(GO, 0, 0, 1)];
    let second = vec![code(LOAD, 0, 0, 0), code(SAVE, 0, 0, 2), code(SAVE, 0, 0, 2), code(GO, 0, 0, 2)];
    let third = vec![code(GO, 0, 0, 0)];
    let saves = vec![code(SAVE, 0, 0, 3), code(SAVE, 0, 0, 3), code(DONE, 0, 0, 0)];
    let adds = vec![code(LOAD, 1, 0, 3), code(ADD, 0, 1, 0), code(SAVE, 0, 0, 3), code(DONE, 0, 0, 0)];
    program(&[(5, first), (5, second), (0, third)], &[saves, adds])
}

/// The steps of one round of T0, T1 and T2, and of one event.
const ROUND: usize = 16 + 14 + 9;

/// A post of either event after so many steps, then so many steps, a cut and a boot, another post, so many steps and
/// again a cut, and steps for two rounds.
fn cut_and_boot(before: usize, between: usize, again: usize) -> Vec<Call> {
    let mut calls = vec![Call::Boot];
    calls.extend(steps(before));
    calls.push(post(before as u16 % 2, if before % 3 == 0 { 0 } else { before as u16 }));
    calls.extend(steps(between));
    calls.extend([Call::Cut, Call::Boot, post(1, 9)]);
    calls.extend(steps(again));
    calls.extend([Call::Cut, Call::Boot]);
    calls.extend(steps(ROUND));
    calls.push(Call::Run { budget: ROUND as u32 });
    calls
}

/// A cut after each step of a round with an event in it, soon after the event and later.
fn cuts_everywhere() -> impl Iterator<Item = Scenario> {
    let program = turns();
    let between = [0, 1, 2, 3, 4, 5, 6, 8, 10, 13];
    let all = (0..ROUND + 2).flat_map(move |before| between.map(|between| (before, between)));
    all.map(move |(before, between)| list(&program, cut_and_boot(before, between, (before + between) % 5)))
}

/// A body that meets 23, and one that meets 24.
fn meets_23(end: [u16; 2]) -> Code {
    vec![code(SET, 1, 0, 65535), code(LOADX, 0, 1, 1), end]
}

fn meets_24(end: [u16; 2]) -> Code {
    vec![code(SAVE, 0, 0, 0), code(SAVE, 0, 0, 1), code(SAVE, 0, 0, 2), end]
}

/// Programs that meet 23 or 24: in a task, in a task inside a transaction, and in an event.
fn stuck_programs() -> Vec<Vec<u16>> {
    let mut programs = Vec::new();
    for meets in [meets_23, meets_24] {
        let task = |next: usize| meets(code(GO, 0, 0, next));
        let plain = |next: usize| vec![code(GO, 0, 0, next)];
        let event = vec![code(DONE, 0, 0, 0)];
        programs.push(program(&[(0, task(0))], &[event.clone()]));
        programs.push(program(&[(5, plain(1)), (5, task(0))], &[event]));
        programs.push(program(&[(0, plain(0))], &[meets(code(DONE, 0, 0, 0))]));
    }
    programs
}

/// To the refusal and again after cuts, by steps and by runs, with an event accepted before and between.
fn stuck() -> impl Iterator<Item = Scenario> {
    let by_steps = || [vec![post(0, 3)], steps(24), vec![Call::Cut, Call::Boot], steps(9)].concat();
    let by_runs = || vec![post(0, 4), Call::Run { budget: 60 }, Call::Cut, Call::Boot, Call::Run { budget: u32::MAX }];
    let lists = move |program: Vec<u16>| {
        let calls = [vec![Call::Boot], by_steps(), vec![Call::Cut, Call::Boot], by_steps()].concat();
        let runs = [vec![Call::Boot], by_runs(), vec![Call::Cut, Call::Boot], by_runs()].concat();
        [list(&program, calls), list(&program, runs)]
    };
    stuck_programs().into_iter().flat_map(lists)
}

// ---------------------------------------------------------------------------------------------------------
// Damaged lists

/// Words 8 to 16.
type Control = [u16; MEMORY - CONTROL];

/// Right ones of phase 0: records wait in slots 3 and 0, or none; no transaction is open, or T0's.
const RUNNING: [Control; 3] = [[0, 0, 0, 0, 0, 0, 3, 1, 0], [0, 0, 0, 0, 0, 0, 3, 3, 0], [0, 0, 5, 0, 0, 0, 3, 1, 0]];

/// These, right log addresses, and records of both events with data.
fn words(control: &Control) -> Vec<Call> {
    let log = MEMORY + MEMORY_WORDS as usize;
    let queue = log + 2 * SIZES.0 as usize;
    let log = [(log, 0), (log + 2, 2)];
    let queue = (queue..).zip([1, 4, 0, 8, 1, 0, 0, 77]);
    let control = (CONTROL..).zip(*control);
    control.chain(log).chain(queue).map(|(index, word)| Call::SetStore { index, word }).collect()
}

/// What may run in phase 0, half a SAVE and endings among it, and another event than the record's.
fn running_places() -> Vec<Place> {
    let mut places = vec![Place::NoBody { commit: 0 }, Place::NoBody { commit: 1 }];
    for (body, save, end) in [(Body::Task(0), 1, 4), (Body::Event(0), 0, 2), (Body::Event(1), 2, 3)] {
        places.extend([
            Place::Running { body, instruction: 0, ending: 0 },
            Place::Running { body, instruction: end, ending: 1 },
            Place::HalfSave { body, instruction: save },
        ]);
    }
    places
}

/// A boot from off, and a boot, a post, a burst, a step and a run on a device, each from the words as they are.
fn calls_on(device: Device) -> Vec<Call> {
    let burst = Call::Burst { count: 1, words: single(0, 6) };
    let on_it = [Call::Boot, post(0, 6), burst, Call::Step, Call::Run { budget: 3 }].map(|call| (device, call));
    let calls = [(Device::OFF, Call::Boot)].into_iter().chain(on_it);
    calls.flat_map(|(device, call)| [Call::SetDevice(device), call, Call::Restore]).collect()
}

/// In phase 0: everything that may run, on and off, with a handler at work and without, with every value of word 16.
fn held_against_the_device() -> impl Iterator<Item = Scenario> {
    let handler = Handler { made: 1, ..Handler::single(1, 5) };
    RUNNING.into_iter().map(move |control| {
        let mut calls = Vec::new();
        for begun in 0..4 {
            calls.extend(words(&control));
            calls.extend([Call::SetStore { index: BEGUN, word: begun }, Call::Keep]);
            calls.extend(calls_on(Device::OFF));
            for place in running_places() {
                let device = Device { place, ..Device::ON };
                calls.extend(calls_on(device));
                calls.extend(calls_on(Device { handler: Some(handler), ..device }));
            }
        }
        list(&turns(), calls)
    })
}

/// Right control words of phases 1 and 2, with the queue empty and not, and in phase 1 with word 10 at 0 and not.
const COMMITS: [Control; 6] = [
    [1, 0, 0, 2, 1, 5, 3, 1, 0],
    [1, 0, 5, 2, 1, 5, 3, 3, 0],
    [1, 1, 5, 1, 2, 0, 3, 1, 0],
    [2, 0, 0, 2, 0, 0, 3, 1, 0],
    [2, 0, 0, 2, 0, 0, 0, 0, 0],
    [2, 2, 0, 0, 1, 0, 0, 1, 0],
];

/// In phases 1 and 2: every place of a commit, with every value of word 16, and what comes after its last store.
fn in_commits() -> impl Iterator<Item = Scenario> {
    COMMITS.into_iter().map(|control| {
        let mut calls = Vec::new();
        for begun in 0..4 {
            calls.extend(words(&control));
            calls.extend([Call::SetStore { index: BEGUN, word: begun }, Call::Keep]);
            for commit in 0..=control[COUNT - CONTROL] + 4 {
                let device = Device { place: Place::NoBody { commit }, ..Device::ON };
                calls.extend(calls_on(device));
                for next in [Call::Step, post(0, 6), Call::Run { budget: 3 }] {
                    calls.extend([Call::SetDevice(device), Call::Step, next, Call::Cut, Call::Boot]);
                    calls.extend([Call::Step, Call::Restore]);
                }
            }
        }
        list(&turns(), calls)
    })
}

/// The undamaged lists: a cut after each step, and 23 and 24 again and again.
pub fn undamaged() -> Vec<Scenario> {
    cuts_everywhere().chain(stuck()).collect()
}

/// All lists: these, and every device and every place of a commit with every value of word 16.
pub fn lists() -> Vec<Scenario> {
    undamaged().into_iter().chain(held_against_the_device()).chain(in_commits()).collect()
}
