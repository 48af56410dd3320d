//! Fixed lists about bursts, which every comparison starts with. Some are undamaged: over these each side is also held
//! alone against the serial run.

use crate::generate::code;
use crate::reference::*;
use crate::runtime::*;
use crate::scenario::{Call, Scenario};

/// M, L and E of the program here.
const MEMORY_WORDS: u16 = 4;
const LOG_PAIRS: u16 = 2;
const EVENTS: u16 = 2;

/// A task that saves a word and goes on to itself; event 0 saves its data, event 1 adds it.
fn program() -> Vec<u16> {
    let task = vec![code(SET, 1, 0, 7), code(SAVE, 1, 0, 0), code(GO, 0, 0, 0)];
    let saves = vec![code(SAVE, 0, 0, 1), code(DONE, 0, 0, 0)];
    let adds = vec![code(LOAD, 1, 0, 2), code(ADD, 1, 0, 0), code(SAVE, 1, 0, 2), code(DONE, 0, 0, 0)];
    let bodies = [task, saves, adds];
    let mut words = vec![PROGRAM_MARK, 1, EVENTS, MEMORY_WORDS, 0, 0];
    let mut start = 6 + 3 * bodies.len();
    for body in &bodies {
        words.extend([start as u16, body.len() as u16, 0]);
        start += 2 * body.len();
    }
    words.extend(bodies.iter().flatten().flatten());
    words[5] = words.len() as u16;
    words
}

fn list(queue_records: u16, calls: Vec<Call>) -> Scenario {
    let (log_pairs, totals) = (LOG_PAIRS, Totals::default());
    Scenario { seed: 0, program: program(), log_pairs, queue_records, totals, calls }
}

fn post(event: u16, datum: u16) -> Call {
    Call::Post { event, datum }
}

/// Records of both events in turn, with data from here on.
fn words(first: u16) -> BurstWords {
    let mut words = [0; BURST_WORDS];
    for (position, pair) in words.chunks_mut(2).enumerate() {
        pair.copy_from_slice(&[(position as u16 + first) % EVENTS, first + 10 * position as u16]);
    }
    words
}

fn burst(count: u16, first: u16) -> Call {
    Call::Burst { count, words: words(first) }
}

fn steps(count: u16) -> Vec<Call> {
    vec![Call::Step; count as usize]
}

fn run(budget: u32) -> Call {
    Call::Run { budget }
}

// ---------------------------------------------------------------------------------------------------------
// Undamaged lists

/// The steps of an event 0 that is posted alone: three of the handler, then choosing, a SAVE of two, three stores, a
/// copy, three stores.
const SERVED: u32 = 3 + 10;

/// So many events posted and served, after which head and tail have moved so many slots.
fn served(many: u16) -> Vec<Call> {
    (0..many).flat_map(|number| [post(0, number), run(SERVED)]).collect()
}

/// Each length in rings of each size, from each slot on, with a cut after each store; then another burst from there.
fn cuts_everywhere() -> Vec<Scenario> {
    let mut lists = Vec::new();
    for queue_records in 1..=5 {
        for length in 1..=queue_records.min(4) {
            for start in 0..=queue_records {
                for made in 0..=2 * length + 1 {
                    let before = [vec![Call::Boot], served(start), vec![burst(length, 100)], steps(made)];
                    let again = [vec![Call::Cut, Call::Boot, burst(length, 200)], steps(2 * length + 1)];
                    let after = [steps(4), vec![run(70)]];
                    lists.push(list(queue_records, before.into_iter().chain(again).chain(after).flatten().collect()));
                }
            }
        }
    }
    lists
}

/// The same in runs, and while other records wait.
fn runs_everywhere() -> Vec<Scenario> {
    let mut lists = Vec::new();
    for (queue_records, waiting) in [(1, 0), (3, 0), (4, 0), (5, 0), (5, 1), (6, 2)] {
        for length in 1..=(queue_records - waiting).min(4) {
            for start in 0..=queue_records {
                let mut calls = [vec![Call::Boot], served(start)].concat();
                calls.extend((0..waiting).flat_map(|number| [post(1, number), run(3)]));
                calls.extend([burst(length, 100), run(2 * length as u32 + 1), burst(length, 300), run(5)]);
                calls.extend([Call::Cut, Call::Boot, run(9), burst(2, 400), burst(1, 500), run(90), burst(4, 600)]);
                calls.extend([run(3), Call::Cut, Call::Boot, run(60)]);
                lists.push(list(queue_records, calls));
            }
        }
    }
    lists
}

/// The steps of the task and of each event, once: commits of both kinds are among them.
const ROUND: u16 = 13 + 10 + 12;

/// A burst after each step of a round of task and events, accepted by steps or by a run; a cut soon after.
fn bursts_in_commits() -> Vec<Scenario> {
    let mut lists = Vec::new();
    for before in 0..ROUND + 3 {
        for length in 1..=4 {
            let start = || [vec![Call::Boot, burst(2, 50)], steps(5), steps(before), vec![burst(length, 100)]].concat();
            let cut = steps((before + length) % (2 * length + 2));
            lists.push(list(5, [start(), cut, vec![Call::Cut, Call::Boot, run(80)]].concat()));
            lists.push(list(6, [start(), steps(2 * length + 1), vec![Call::Cut, Call::Boot, run(80)]].concat()));
            lists.push(list(6, [start(), vec![run(2 * length as u32 + 1), burst(1, 300), run(80)]].concat()));
        }
    }
    lists
}

/// Bursts of all lengths, and of wrong ones, one after another, with cuts between them.
fn bursts_of_all_lengths() -> Vec<Scenario> {
    let all = |queue_records: u16| {
        let mut calls = vec![burst(2, 1), Call::Boot];
        for count in [0, 1, 5, 2, 6, 3, 65535, 4, 257] {
            calls.extend([burst(count, 100 * (count % 8)), burst(count, 7), Call::Step, burst(3, 8), run(9)]);
            calls.extend([burst(4, 9), run(40), Call::Cut, burst(count, 1), Call::Boot]);
        }
        list(queue_records, calls)
    };
    (1..=6).map(all).collect()
}

// ---------------------------------------------------------------------------------------------------------
// Damaged lists

/// Control words, log addresses and records that are right: in this phase, with head at its last slot, and so many slots
/// from there to tail. In phase 2 head is to move, or has moved.
#[derive(Clone, Copy)]
struct Queue {
    records: u16,
    phase: u16,
    to_move: bool,
    filled: u16,
}

impl Queue {
    fn words(&self) -> Vec<Call> {
        let (slots, head) = (self.records + 1, self.records);
        let tail = (head + self.filled) % slots;
        let pending = match (self.phase, self.to_move) {
            (2, true) => (head + 1) % slots,
            (2, false) => head,
            _ => 0,
        };
        let log = MEMORY + MEMORY_WORDS as usize;
        let queue = log + 2 * LOG_PAIRS as usize;
        let control = (CONTROL..).zip([self.phase, 0, 0, 1, pending, 0, head, tail, NOTHING_BEGUN]);
        let records = (0..2 * slots as usize).map(|offset| (queue + offset, (offset % 4 / 2) as u16));
        control.chain([(log, 1)]).chain(records).map(|(index, word)| Call::SetStore { index, word }).collect()
    }

    /// Every number of slots, in every phase.
    fn all(records: u16) -> Vec<Queue> {
        let phases = [(0, false), (1, false), (2, false), (2, true)];
        let filled = |(phase, to_move): (u16, bool)| {
            (to_move as u16..=records).map(move |filled| Queue { records, phase, to_move, filled })
        };
        phases.into_iter().flat_map(filled).collect()
    }
}

/// With one word another.
fn with(mut words: BurstWords, index: usize, word: u16) -> BurstWords {
    words[index] = word;
    words
}

/// Right words, and words with a bad event at each position, at two, and at all.
fn all_words() -> Vec<BurstWords> {
    let bad = [EVENTS, 65535, EVENTS + 1, 256];
    let right = words(1);
    let one = (0..MAX_BURST).map(|position| with(right, 2 * position, bad[position]));
    let two = [(0, 1), (1, 3), (2, 3)].map(|(one, other)| with(with(right, 2 * one, EVENTS), 2 * other, 9));
    [right].into_iter().chain(one).chain(two).chain([[65535; BURST_WORDS]]).collect()
}

/// Posts, and bursts of lengths right and wrong.
fn all_posts() -> Vec<Call> {
    let posts = [post(0, 5), post(EVENTS, 5), post(65535, 0)];
    let counts = [0, 1, 2, 3, 4, 5, 6, 257, 65535];
    let bursts = counts.into_iter().flat_map(|count| all_words().into_iter().map(move |words| (count, words)));
    posts.into_iter().chain(bursts.map(|(count, words)| Call::Burst { count, words })).collect()
}

/// Each call on a device from the words as they are kept.
fn each(device: Call, calls: impl IntoIterator<Item = Call>) -> Vec<Call> {
    calls.into_iter().flat_map(|call| [device.clone(), call, Call::Restore]).collect()
}

fn at_work(handler: Handler) -> Device {
    Device { handler: Some(handler), ..Device::ON }
}

/// All posts and bursts on devices off, on, at work and unlike, in every phase with every number of records.
fn posts_on_devices() -> Vec<Scenario> {
    let single = Handler { made: 1, ..Handler::single(1, 3) };
    let devices = [
        Device::ON,
        Device::OFF,
        at_work(single),
        at_work(Handler::new(0, &words(1))),
        Device { on: false, ..at_work(single) },
    ];
    let mut lists = Vec::new();
    for records in [1, 2, 3, 4, 6] {
        for queue in Queue::all(records) {
            let mut calls = [queue.words(), vec![Call::Keep]].concat();
            calls.extend(devices.iter().flat_map(|device| each(Call::SetDevice(*device), all_posts())));
            lists.push(list(records, calls));
        }
    }
    lists
}

/// Handlers of every length at every store and past the last, with a bad event at each position.
fn handlers() -> Vec<Handler> {
    let mut handlers = Vec::new();
    for length in [0, 1, 2, 3, 4, 5, 6, 65535] {
        let last = 2 * length.min(5);
        for made in (0..=last + 2).chain([65535]) {
            for words in all_words().iter().take(1 + MAX_BURST.min(length as usize)) {
                handlers.push(Handler { made, ..Handler::new(length, words) });
            }
        }
    }
    handlers
}

/// Each call on each of them, in every phase with every number of records.
fn handlers_at_work() -> Vec<Scenario> {
    let calls = || [Call::Step, post(0, 5), burst(2, 9), run(2), run(12), Call::Boot];
    let mut lists = Vec::new();
    for records in [1, 2, 3, 4, 6] {
        for queue in Queue::all(records) {
            let mut all = [queue.words(), vec![Call::Keep]].concat();
            let on = handlers().into_iter().map(at_work);
            all.extend(on.flat_map(|device| each(Call::SetDevice(device), calls())));
            let off = Device { on: false, ..at_work(Handler::new(2, &words(3))) };
            all.extend(each(Call::SetDevice(off), calls()));
            lists.push(list(records, all));
        }
    }
    lists
}

/// Words in the device's place that are none because of the handler.
fn stray_handlers() -> Scenario {
    let resting = Device::ON.to_words();
    let working = at_work(Handler { made: 3, ..Handler::new(2, &words(1)) }).to_words();
    let mut all = vec![vec![(15, 2)], vec![(15, 65535)], vec![(16, 1)], vec![(17, 1)]];
    all.extend((18..DEVICE_WORDS).map(|index| vec![(index, 1)]));
    let resting = all.into_iter().map(|changes| (resting, changes));
    let behind = (22..DEVICE_WORDS).map(|index| vec![(index, 65535)]);
    let shorter = [vec![(16, 0)], vec![(16, 1)], vec![(15, 0)], vec![(15, 3)], vec![(0, 2)]];
    let working = behind.chain(shorter).map(|changes| (working, changes));
    let mut calls = Vec::new();
    for (mut device, changes) in resting.chain(working) {
        changes.into_iter().for_each(|(index, word)| device[index] = word);
        let on_it = [Call::Boot, Call::Step, post(0, 1), burst(1, 1), burst(0, 1), run(u32::MAX), Call::Cut];
        calls.extend(each(Call::SetWords(device), on_it));
    }
    list(4, calls)
}

/// Bursts of lengths right and wrong where the program, the contents or the control words are wrong.
fn wrong_words() -> Scenario {
    let program = |index: usize, word: u16| Call::SetProgram { index, word };
    let store = |index: usize, word: u16| Call::SetStore { index, word };
    let wrong = [
        Call::ProgramLength(5),
        program(5, 0),
        program(0, 0),
        program(1, 33),
        program(4, 1),
        Call::StoreLength(7),
        Call::StoreLength(0),
        store(0, 0),
        store(3, 5),
        store(PHASE, 3),
        store(TAIL, 5),
        store(BEGUN, TASK_BEGUN),
    ];
    let mut calls = Vec::new();
    for change in wrong {
        for device in [Device::ON, Device::OFF, at_work(Handler::single(1, 3))] {
            for count in [0, 2, 4, 5, 65535] {
                calls.extend([change.clone(), Call::SetDevice(device), burst(count, 1), Call::Restore]);
            }
        }
    }
    list(4, calls)
}

/// Bursts that are accepted while the total is so close to its largest value, by steps and by a run.
fn totals_at_the_largest() -> Scenario {
    let mut calls = Vec::new();
    for below in 0..=6 {
        for length in 1..=4 {
            for by_run in [false, true] {
                let totals = Totals { committed: 1, accepted: u32::MAX - below, stores: 2 };
                calls.extend([Call::SetTotals(totals), Call::SetDevice(Device::ON), burst(length, 1)]);
                let stores = 2 * length + 1;
                calls.extend(if by_run { vec![run(stores as u32)] } else { steps(stores) });
                calls.extend([burst(1, 2), run(3), Call::Restore]);
            }
        }
    }
    list(5, calls)
}

/// The undamaged lists.
pub fn undamaged() -> Vec<Scenario> {
    let lists = [cuts_everywhere(), runs_everywhere(), bursts_in_commits(), bursts_of_all_lengths()];
    lists.into_iter().flatten().collect()
}

/// All lists: these, and posts, bursts and handlers on all kinds of devices and queues.
pub fn lists() -> Vec<Scenario> {
    let single = [stray_handlers(), wrong_words(), totals_at_the_largest()];
    let damaged = posts_on_devices().into_iter().chain(handlers_at_work()).chain(single);
    undamaged().into_iter().chain(damaged).collect()
}
