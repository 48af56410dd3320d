//! Fixed lists about records dropped from a full queue, which every comparison starts with. Some are undamaged: over these
//! each side is also held alone against the serial run.

use crate::generate::code;
use crate::reference::*;
use crate::runtime::*;
use crate::scenario::{Call, Scenario, Table};

/// M, L and E of the program here.
const MEMORY_WORDS: u16 = 4;
const LOG_PAIRS: u16 = 2;
const EVENTS: u16 = 2;

/// T0 and T1 of transaction 5, and T2, which goes back to T0. Event 0 saves its data, event 1 adds it.
fn program() -> Vec<u16> {
    let first = vec![code(SET, 1, 0, 7), code(SAVE, 1, 0, 0), code(GO, 0, 0, 1)];
    let second = vec![code(LOAD, 0, 0, 0), code(SAVE, 0, 0, 2), code(GO, 0, 0, 2)];
    let third = vec![code(GO, 0, 0, 0)];
    let saves = vec![code(SAVE, 0, 0, 1), code(DONE, 0, 0, 0)];
    let adds = vec![code(LOAD, 1, 0, 3), code(ADD, 1, 0, 0), code(SAVE, 1, 0, 3), code(DONE, 0, 0, 0)];
    let bodies = [(5, first), (5, second), (0, third), (0, saves), (0, adds)];
    let mut words = vec![PROGRAM_MARK, 3, EVENTS, MEMORY_WORDS, 0, 0];
    let mut start = 6 + 3 * bodies.len();
    for (number, body) in &bodies {
        words.extend([start as u16, body.len() as u16, *number]);
        start += 2 * body.len();
    }
    words.extend(bodies.iter().flat_map(|(_, body)| body.iter().flatten()));
    words[5] = words.len() as u16;
    words
}

/// The steps of T0, T1 and T2: choosing, instructions, four stores, a copy, four stores.
const ROUND: u16 = (1 + 3 + 4 + 5) + (1 + 3 + 4 + 5) + (1 + 4 + 4);

fn list(queue_records: u16, calls: Vec<Call>) -> Scenario {
    let (log_pairs, totals) = (LOG_PAIRS, Totals::default());
    Scenario { seed: 0, program: program(), log_pairs, queue_records, totals, calls }
}

fn post(event: u16, datum: u16) -> Call {
    Call::Post { event, datum }
}

fn burst(count: u16, datum: u16) -> Call {
    Call::Burst { count, words: [1, datum, 0, datum + 1, 1, datum + 2, 0, datum + 3] }
}

/// Line 3 raises event 1, line 4 nothing.
fn raise(line: u16, level: u16) -> Call {
    let table: Table = Table::from([3, 0, 65535, 1, 4, 0, 65535, 65535]);
    Call::Raise { table, line, level }
}

/// Of one event, by a post, a burst or a raise.
fn single(number: u16, datum: u16) -> Call {
    match number % 3 {
        0 => post(0, datum),
        1 => burst(1, datum),
        _ => raise(3, datum),
    }
}

fn steps(count: u16) -> Vec<Call> {
    vec![Call::Step; count as usize]
}

fn run(budget: u32) -> Call {
    Call::Run { budget }
}

/// The queue filled up from empty, with records of both events.
fn filled(queue_records: u16) -> Vec<Call> {
    (0..queue_records).flat_map(|number| [post(number % 2, 100 + number), run(3)]).collect()
}

/// The steps of a handler that drops.
const STORES: u16 = 4;

// ---------------------------------------------------------------------------------------------------------
// Undamaged lists

/// After each step of a round of tasks a full queue, a post, so many of its stores, a cut and a boot; then another, at once
/// or after a step.
fn cuts_everywhere() -> Vec<Scenario> {
    let mut lists = Vec::new();
    for queue_records in [1, 2, 3] {
        for before in 0..ROUND + 2 {
            for made in 0..=STORES {
                let start = [vec![Call::Boot], steps(before), filled(queue_records)];
                let cut = [vec![single(before + made, 500)], steps(made), vec![Call::Cut, Call::Boot]];
                let again = [steps(before % 2), vec![single(before, 600)], steps(STORES + 1), vec![run(45)]];
                lists.push(list(queue_records, start.into_iter().chain(cut).chain(again).flatten().collect()));
            }
        }
    }
    lists
}

/// A full queue, and after each step of the round in which its events are served three posts; a cut soon after.
fn served_events() -> Vec<Scenario> {
    let mut lists = Vec::new();
    for queue_records in [1, 2] {
        for before in 0..28 {
            for way in 0..3 {
                let three = (0..3).flat_map(|number| [vec![single(way, 200 + number)], steps(3)].concat());
                let start = [vec![Call::Boot], filled(queue_records), steps(before)].concat();
                let end = [Call::Cut, Call::Boot, run(60)];
                lists.push(list(queue_records, start.into_iter().chain(three).chain(end).collect()));
            }
        }
    }
    lists
}

/// In an event's commit, where head has moved, the queue filled up again, and posts to it.
fn filled_in_commits() -> Vec<Scenario> {
    let mut lists = Vec::new();
    for queue_records in 1..=3 {
        for before in 5..=10 {
            for way in 0..3 {
                let start = [vec![Call::Boot], filled(queue_records), steps(before)].concat();
                let again = [post(1, 9), run(3), single(way, 10), burst(2, 11), Call::Step, single(way, 20)];
                let end = [run(4), Call::Cut, Call::Boot, single(way, 30), run(70)];
                lists.push(list(queue_records, start.into_iter().chain(again).chain(end).collect()));
            }
        }
    }
    lists
}

/// So many records dropped one after another, round the ring, by steps and by runs; then the others are served. Before it a
/// burst with room for one of its two.
fn in_a_row() -> Vec<Scenario> {
    let mut lists = Vec::new();
    for (queue_records, many) in [(1, 5), (2, 7), (3, 9), (5, 13), (32, 70)] {
        for before in [0, 1, 10, 14] {
            let one_less = vec![burst(2, 60), post(1, 99), run(3)];
            let start = || [vec![Call::Boot], steps(before), filled(queue_records - 1), one_less.clone()].concat();
            let by_steps = (0..many).flat_map(|number| [vec![single(number, 300 + number)], steps(STORES)].concat());
            let by_runs = (0..many).flat_map(|number| [single(number, 300 + number), run(STORES as u32)]);
            let end = [run(30 * queue_records as u32), Call::Cut, Call::Boot, run(60)];
            lists.push(list(queue_records, start().into_iter().chain(by_steps).chain(end.clone()).collect()));
            lists.push(list(queue_records, start().into_iter().chain(by_runs).chain(end).collect()));
        }
    }
    lists
}

/// Longer bursts on a full queue, and between a post and its head store each of these calls, which are refused or none of
/// the serial run's list.
fn refused_between() -> Vec<Scenario> {
    let table: Table = Table::from([3, 0, 65535, 1]);
    let between = [
        post(0, 7),
        burst(1, 8),
        burst(4, 9),
        raise(3, 10),
        raise(4, 11),
        raise(5, 12),
        Call::Boot,
        post(EVENTS, 13),
        Call::Burst { count: 2, words: [0, 1, EVENTS, 2, 0, 0, 0, 0] },
        burst(0, 14),
        burst(5, 15),
        Call::LinesCheck { table },
        Call::Check,
        run(0),
    ];
    let mut lists = Vec::new();
    for queue_records in [1, 2] {
        for before in [0, 1, 9, 13, 14] {
            for end in [steps(STORES), vec![run(STORES as u32)], vec![Call::Step, Call::Cut, Call::Boot]] {
                let longer = vec![burst(2, 70), burst(3, 71), burst(4, 72)];
                let start = [vec![Call::Boot], steps(before), filled(queue_records), longer].concat();
                let one = |call: &Call| [&[single(before, 40), call.clone()], &end[..], &[post(1, 50)]].concat();
                let each = between.iter().flat_map(|call| [one(call), steps(STORES)].concat());
                let all = [vec![single(before + 1, 60)], between.to_vec(), end.clone(), vec![run(90)]].concat();
                lists.push(list(queue_records, start.into_iter().chain(each).chain(all).collect()));
            }
        }
    }
    lists
}

// ---------------------------------------------------------------------------------------------------------
// Damaged lists

/// Where the log starts, and where the event of a slot stands.
const LOG: usize = MEMORY + MEMORY_WORDS as usize;

fn event_word(slot: u16) -> usize {
    LOG + 2 * LOG_PAIRS as usize + 2 * slot as usize
}

/// Control words, log addresses and records that are right: in this phase with this in word 16, with head in a slot, so many
/// slots from there to tail. In phase 2 head is to move, or has moved.
#[derive(Clone, Copy)]
struct Queue {
    records: u16,
    phase: u16,
    begun: u16,
    to_move: bool,
    head: u16,
    filled: u16,
}

impl Queue {
    fn words(&self) -> Vec<Call> {
        let slots = self.records + 1;
        let pending = match (self.phase, self.to_move) {
            (2, true) => (self.head + 1) % slots,
            (2, false) => self.head,
            _ => 0,
        };
        let tail = (self.head + self.filled) % slots;
        let control = (CONTROL..).zip([self.phase, 0, 0, 1, pending, 0, self.head, tail, self.begun]);
        // Event 0 with data 1, event 1 with data 5, ..
        let word = |offset: u16| if offset % 2 == 0 { offset / 2 % 2 } else { 2 * offset - 1 };
        let records = (0..2 * slots).map(|offset| (event_word(0) + offset as usize, word(offset)));
        control.chain([(LOG, 1)]).chain(records).map(|(index, word)| Call::SetStore { index, word }).collect()
    }

    /// The device that is on with what word 16 says, or with a commit's first store to come.
    fn device(&self) -> Device {
        let body = match (self.phase, self.begun) {
            (0, TASK_BEGUN) => Body::Task(0),
            (0, EVENT_BEGUN) => Body::Event(self.head % 2),
            _ => return Device::ON,
        };
        Device { place: Place::Running { body, instruction: 0, ending: 0 }, ..Device::ON }
    }

    /// Every number of slots, in every phase, with everything in word 16.
    fn all(records: u16, head: u16) -> Vec<Queue> {
        let mut queues = Vec::new();
        for (phase, to_move) in [(0, false), (1, false), (2, false), (2, true)] {
            for begun in [NOTHING_BEGUN, TASK_BEGUN, EVENT_BEGUN] {
                for filled in to_move as u16..=records {
                    // In phase 0 a 2 needs a queue that isn't empty.
                    if phase != 0 || begun != EVENT_BEGUN || filled > 0 {
                        queues.push(Queue { records, phase, begun, to_move, head, filled });
                    }
                }
            }
        }
        queues
    }
}

/// Each call on a device from the words as they are kept.
fn each(device: Device, calls: impl IntoIterator<Item = Call>) -> Vec<Call> {
    calls.into_iter().flat_map(|call| [Call::SetDevice(device), call, Call::Restore]).collect()
}

/// Handlers that drop, or have dropped, at every store and past the last, with an event right and wrong.
fn handlers() -> Vec<Handler> {
    let records = [(1, 77), (0, 0), (EVENTS, 3), (65535, 1)];
    let dropping = records.map(Handler::dropping);
    let replacing = records.into_iter().flat_map(|record| [0, 1, 2, 3, 65535].map(|made| Handler::replacing(record, made)));
    dropping.into_iter().chain(replacing).collect()
}

/// What is asked of them.
fn calls_at_work() -> Vec<Call> {
    let posts = [post(0, 5), post(EVENTS, 5), burst(1, 6), burst(2, 7), burst(0, 8), raise(3, 9), raise(4, 9)];
    posts.into_iter().chain([Call::Step, run(1), run(5), run(9), Call::Boot]).collect()
}

/// Each of them, on and off, and posts with the handler at rest, in every phase with every number of records.
fn on_every_queue() -> Vec<Scenario> {
    let mut lists = Vec::new();
    for (records, head) in [(1, 0), (1, 1), (2, 2), (3, 0), (4, 3)] {
        for queue in Queue::all(records, head) {
            let mut calls = [queue.words(), vec![Call::Keep]].concat();
            let posts = [post(0, 5), burst(1, 6), raise(3, 7), burst(2, 8), burst(3, 9), burst(4, 1)];
            calls.extend(each(queue.device(), posts));
            let few = if records < 4 { 24 } else { 5 };
            for handler in handlers().into_iter().take(few) {
                calls.extend(each(Device { handler: Some(handler), ..queue.device() }, calls_at_work()));
            }
            for handler in handlers().into_iter().step_by(6).take(2) {
                calls.extend(each(Device { handler: Some(handler), ..Device::OFF }, calls_at_work()));
            }
            lists.push(list(records, calls));
        }
    }
    lists
}

/// Full queues with bad records: at head, elsewhere, both; drops by steps and by a run, and a handler that 25 meets first.
fn bad_records() -> Vec<Scenario> {
    let mut lists = Vec::new();
    for (records, head) in [(1, 0), (1, 1), (2, 1), (3, 3), (4, 2)] {
        for (phase, begun) in [(0, NOTHING_BEGUN), (0, TASK_BEGUN), (1, NOTHING_BEGUN), (1, TASK_BEGUN), (2, EVENT_BEGUN)] {
            let queue = Queue { records, phase, begun, to_move: false, head, filled: records };
            let other = (head + 1) % (records + 1);
            let words: Vec<Call> = queue.words();
            let bad = |slot: u16, word: u16| Call::SetStore { index: event_word(slot), word };
            for changes in [vec![bad(head, EVENTS)], vec![bad(head, 65535), bad(other, EVENTS)], vec![bad(other, 9)]] {
                let mut calls = [words.clone(), changes, vec![Call::Keep]].concat();
                for handler in [Handler::dropping((1, 4)), Handler::dropping((EVENTS, 4)), Handler::replacing((0, 4), 0)] {
                    let device = Device { handler: Some(handler), ..queue.device() };
                    calls.extend(each(device, [Call::Step, run(1), run(9), post(0, 1), burst(1, 2), raise(3, 3)]));
                }
                calls.extend(each(queue.device(), [post(0, 1), burst(1, 2), raise(3, 3)]));
                for call in [post(1, 6), burst(1, 6), raise(3, 6)] {
                    calls.extend([Call::SetDevice(queue.device()), call, Call::Step, run(3), Call::Restore]);
                }
                lists.push(list(records, calls));
            }
        }
    }
    lists
}

/// Handlers that have dropped, on records of which the one after tail may be anything: it isn't checked.
fn unchecked_records() -> Scenario {
    let records = 3;
    let mut calls = Vec::new();
    for filled in 0..records {
        let queue = Queue { records, phase: 0, begun: NOTHING_BEGUN, to_move: false, head: 2, filled };
        let slot = (2 + filled + 1) % (records + 1);
        for word in [0, 1, EVENTS, 65535] {
            calls.extend(queue.words());
            calls.extend([Call::SetStore { index: event_word(slot), word }, Call::Keep]);
            for made in 0..3 {
                let device = Device { handler: Some(Handler::replacing((1, 8), made)), ..Device::ON };
                calls.push(Call::SetDevice(device));
                calls.extend(steps(3 - made));
                calls.extend([Call::Restore, Call::SetDevice(device), run(3 - made as u32), Call::Restore]);
            }
        }
    }
    list(records, calls)
}

/// Words in the device's place that are none because of a handler that drops.
fn stray_handlers() -> Scenario {
    let dropping = Device { handler: Some(Handler::dropping((1, 5))), ..Device::ON }.to_words();
    let replacing = Device { handler: Some(Handler::replacing((1, 5), 2)), ..Device::ON }.to_words();
    let lengths = [0, 2, 3, 4, 5, 257, 65535].map(|length| (16, length));
    let behind: Vec<(usize, u16)> = (20..DEVICE_WORDS).map(|index| (index, 1)).collect();
    let works = [(15, 0), (15, 4), (15, 258), (15, 65535)];
    let made = [1, 2, 3, 65535].map(|made| (17, made));
    let of_both = || lengths.into_iter().chain(behind.clone()).chain(works);
    let dropping = of_both().chain(made).map(|change| (dropping, change));
    let replacing = of_both().map(|change| (replacing, change));
    let mut calls = Vec::new();
    for (mut device, (index, word)) in dropping.chain(replacing) {
        device[index] = word;
        let posts = [post(0, 1), burst(1, 1), burst(0, 1), raise(3, 1), raise(4, 1)];
        let on_it = posts.into_iter().chain([Call::Boot, Call::Step, run(9), Call::Cut]);
        calls.extend(on_it.flat_map(|call| [Call::SetWords(device), call, Call::Restore]));
    }
    list(1, calls)
}

/// Records replaced while the accepted total is so close to its largest value, by steps and by a run.
fn totals_at_the_largest() -> Scenario {
    let queue = Queue { records: 2, phase: 0, begun: NOTHING_BEGUN, to_move: false, head: 1, filled: 2 };
    let mut calls = [queue.words(), vec![Call::Keep]].concat();
    for below in 0..=3 {
        let totals = Totals { committed: 1, accepted: u32::MAX - below, stores: u32::MAX - 2 };
        for stores in [steps(STORES), vec![run(STORES as u32)]] {
            calls.extend([Call::SetTotals(totals), Call::SetDevice(Device::ON), post(1, 7)]);
            calls.extend(stores);
            calls.push(Call::Restore);
        }
    }
    list(2, calls)
}

/// The undamaged lists.
pub fn undamaged() -> Vec<Scenario> {
    let lists = [cuts_everywhere(), served_events(), filled_in_commits(), in_a_row(), refused_between()];
    lists.into_iter().flatten().collect()
}

/// All lists: these, and posts and handlers that drop on all kinds of devices and queues.
pub fn lists() -> Vec<Scenario> {
    let single = [unchecked_records(), stray_handlers(), totals_at_the_largest()];
    let damaged = on_every_queue().into_iter().chain(bad_records()).chain(single);
    undamaged().into_iter().chain(damaged).collect()
}
