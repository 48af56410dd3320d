//! Records dropped from a full queue with fixed answers, worked out by hand from request N7, for any implementation.

use crate::cases::{damaged, refused, refused_at, Bench, COUNTING, TWO_TASKS};
use crate::runtime::*;
use crate::scenario::{Call, Outcome};

/// Where the events of the slots start with L 3.
const QUEUE: usize = 27;

/// Line 2 posts event 1, line 3 nothing.
const TABLE: [u16; 8] = [2, 0, 65535, 1, 3, 0, 65535, 65535];

/// The program with two tasks and two events, with L 3: a full queue with head in this slot.
fn full(runtime: &dyn Runtime, queue_records: u16, head: u16) -> Bench<'_> {
    let mut bench = Bench::booted(runtime, &TWO_TASKS, 3, queue_records);
    let slots = queue_records + 1;
    (bench.store[14], bench.store[15]) = (head, (head + queue_records) % slots);
    for offset in 0..queue_records {
        put(&mut bench, (head + offset) % slots, old(offset));
    }
    bench
}

/// The records of that queue, the oldest first.
fn old(number: u16) -> Record {
    ((number + 1) % 2, 31 + number)
}

fn put(bench: &mut Bench, slot: u16, (event, datum): Record) {
    let at = QUEUE + 2 * slot as usize;
    (bench.store[at], bench.store[at + 1]) = (event, datum);
}

fn at_work(handler: Handler) -> Device {
    Device { handler: Some(handler), ..Device::ON }
}

fn stored(index: u16) -> StepAnswer {
    StepAnswer { answer: Answer::Stored, stored: Some(index) }
}

fn accepted(dropped: Option<Record>) -> StepAnswer {
    StepAnswer { answer: Answer::Accepted(dropped), stored: Some(15) }
}

/// Of one event, by a post, a burst and a raise.
fn singles(bench: &mut Bench, datum: u16) -> [Answer; 3] {
    let device = bench.device;
    let mut again = |call: &dyn Fn(&mut Bench) -> Answer| {
        bench.device = device;
        call(bench)
    };
    [
        again(&|bench| bench.post(1, datum)),
        again(&|bench| bench.burst(1, &[1, datum, 9, 9, 9, 9, 9, 9])),
        again(&|bench| bench.raise(&TABLE, 2, datum)),
    ]
}

pub fn a_full_queue_drops_its_oldest(runtime: &dyn Runtime) {
    let mut bench = Bench::counting(runtime);
    assert_eq!(bench.post(0, 77), Answer::Done);
    assert_eq!(bench.steps(3), Answer::Accepted(None));
    let before = bench.store.clone();
    assert_eq!(bench.post(0, 78), Answer::Done);
    assert_eq!((&bench.store, bench.device), (&before, at_work(Handler::dropping((0, 78)))));
    // "By storing head first": with Q 1 the queue is empty then.
    assert_eq!(bench.whole_step(), stored(14));
    assert_eq!((bench.store[14], bench.store[15]), (1, 1));
    assert_eq!(bench.device, at_work(Handler::replacing((0, 78), 0)));
    assert_eq!((bench.whole_step(), bench.device), (stored(23), at_work(Handler::replacing((0, 78), 1))));
    assert_eq!((bench.whole_step(), bench.device), (stored(24), at_work(Handler::replacing((0, 78), 2))));
    assert_eq!(bench.totals, Totals { committed: 0, accepted: 1, stores: 6 });
    // "The accepting answer gains the dropped record".
    assert_eq!((bench.whole_step(), bench.device), (accepted(Some((0, 77))), Device::ON));
    assert_eq!((bench.store[14], bench.store[15]), (1, 0));
    assert_eq!(bench.totals, Totals { committed: 0, accepted: 2, stores: 7 });
    // Chosen, two halves of SAVE, 11, 12, 8; a copy, 14, 16 and 8: the record that is left runs.
    assert_eq!(bench.step(), Answer::Chosen(Body::Event(0)));
    bench.steps(9);
    assert_eq!((bench.memory(), bench.store[14], bench.store[15]), (&[0, 78][..], 0, 0));
    assert_eq!(bench.step(), Answer::Chosen(Body::Task(0)));
}

pub fn drops_round_the_ring(runtime: &dyn Runtime) {
    for queue_records in [1, 2, 3, 32] {
        let slots = queue_records + 1;
        for head in [0, queue_records / 2, queue_records] {
            let mut bench = full(runtime, queue_records, head);
            for number in 0..2 * slots {
                let new = (number % 2, 900 + number);
                let mut expected = bench.store.clone();
                assert_eq!(bench.post(new.0, new.1), Answer::Done);
                assert_eq!(bench.whole_step(), stored(14));
                expected[14] = (head + number + 1) % slots;
                assert_eq!(bench.store, expected, "Q {queue_records}, drop {number}");
                let tail = (head + queue_records + number) % slots;
                let at = QUEUE as u16 + 2 * tail;
                assert_eq!([bench.whole_step(), bench.whole_step()], [stored(at), stored(at + 1)]);
                let dropped = match number.checked_sub(queue_records) {
                    Some(earlier) => (earlier % 2, 900 + earlier),
                    None => old(number),
                };
                assert_eq!(bench.whole_step(), accepted(Some(dropped)), "Q {queue_records}, drop {number}");
                (expected[at as usize], expected[at as usize + 1], expected[15]) = (new.0, new.1, (tail + 1) % slots);
                assert_eq!(bench.store, expected, "Q {queue_records}, drop {number}");
            }
        }
    }
}

pub fn events_that_remain_run_in_order(runtime: &dyn Runtime) {
    // The event doubles word 1 and adds its data.
    let mut program = COUNTING[..22].to_vec();
    program[10] = 5;
    program.extend([0x0810, 1, 0x0211, 0, 0x0210, 0, 0x0910, 1, 0x1000, 0]);
    program[5] = program.len() as u16;
    let mut bench = Bench::booted(runtime, &program, 1, 3);
    for datum in 1..=5 {
        assert_eq!(bench.post(0, datum), Answer::Done);
        let dropped = datum.checked_sub(3).filter(|dropped| *dropped > 0).map(|dropped| (0, dropped));
        assert_eq!(bench.steps(if dropped.is_some() { 4 } else { 3 }), Answer::Accepted(dropped));
    }
    assert_eq!(bench.totals.accepted, 5);
    for expected in [3, 10, 25] {
        bench.steps(13);
        assert_eq!((bench.store[8], bench.memory()[1]), (0, expected));
    }
    assert_eq!(bench.step(), Answer::Chosen(Body::Task(0)));
}

pub fn a_cut_while_a_record_is_dropped(runtime: &dyn Runtime) {
    for made in 0..=4 {
        let mut bench = full(runtime, 2, 0);
        assert_eq!(bench.post(1, 40), Answer::Done);
        bench.steps(made);
        assert_eq!(bench.recover(), 0);
        // From the head store on the old record is lost, and up to the tail store the new one.
        let queue = match made {
            0 => (0, 2),
            1..=3 => (1, 2),
            _ => (1, 0),
        };
        assert_eq!((bench.store[14], bench.store[15], bench.device), (queue.0, queue.1, Device::ON), "{made} stores");
        let (accepts, stores) = ((made == 4) as u32, made as u32);
        assert_eq!(bench.totals, Totals { committed: 0, accepted: accepts, stores }, "{made} stores");
        let first = if made == 0 { old(0) } else { old(1) };
        assert_eq!(bench.step(), Answer::Chosen(Body::Event(first.0)));
        assert_eq!(bench.device.registers[0], first.1);
        for _ in 0..40 {
            assert!(!matches!(bench.step(), Answer::Accepted(_)));
        }
    }
}

pub fn full_once_an_event_has_begun(runtime: &dyn Runtime) {
    let mut bench = Bench::counting(runtime);
    assert_eq!(bench.post(0, 77), Answer::Done);
    assert_eq!(bench.steps(3), Answer::Accepted(None));
    assert_eq!(bench.step(), Answer::Chosen(Body::Event(0)));
    // Two halves of SAVE, 11, 12, 8; one copy; head.
    for _ in 0..7 {
        assert_eq!(bench.post(0, 78), refused(21));
        bench.steps(1);
    }
    assert_eq!((bench.store[8], bench.store[14], bench.store[16]), (2, 1, 2));
    assert_eq!(bench.post(0, 78), Answer::Done);
    assert_eq!(bench.steps(3), Answer::Accepted(None));
    // Full again, with head moved, before and after the store of word 16.
    assert_eq!((bench.post(0, 79), bench.steps(1)), (refused(21), Answer::Stored));
    assert_eq!((bench.store[8], bench.store[16]), (2, 0));
    assert_eq!((bench.post(0, 79), bench.steps(1)), (refused(21), Answer::Stored));
    assert_eq!((bench.post(0, 79), bench.steps(4)), (Answer::Done, Answer::Accepted(Some((0, 78)))));
}

/// In a phase, with these words, at this place: what a single post meets.
type Met<'a> = (usize, &'a [(usize, u16)], Place, Answer);

pub fn where_a_post_drops(runtime: &dyn Runtime) {
    let no_body = |commit: u16| Place::NoBody { commit };
    let running = |body: Body| Place::Running { body, instruction: 0, ending: 0 };
    let (task, event) = (running(Body::Task(0)), running(Body::Event(0)));
    let mut table: Vec<Met> = vec![
        (0, &[], no_body(0), Answer::Done),
        (0, &[(16, 1)], task, Answer::Done),
        (0, &[(16, 1)], Place::HalfSave { body: Body::Task(0), instruction: 0 }, Answer::Done),
        (0, &[(16, 1)], Place::Running { body: Body::Task(0), instruction: 1, ending: 2 }, Answer::Done),
        // Inside an open transaction.
        (0, &[(10, 5)], no_body(0), Answer::Done),
        (0, &[(10, 5), (16, 1)], task, Answer::Done),
        (0, &[(16, 2)], event, refused(21)),
    ];
    // A task's commit, at each of its stores: two copies, 9, 10, 16 and 8.
    for commit in 0..6 {
        table.push((1, &[(16, 0)], no_body(commit), Answer::Done));
        table.push((1, &[(16, 1)], no_body(commit), Answer::Done));
        table.push((1, &[(16, 2)], no_body(commit), refused(21)));
    }
    // An event's, with head to move and moved.
    for commit in 0..5 {
        for words in [&[(16, 0)], &[(16, 1)], &[(16, 2)]] {
            table.push((2, words, no_body(commit), refused(21)));
        }
        for words in [&[(12, 3), (16, 0)], &[(12, 3), (16, 1)], &[(12, 3), (16, 2)]] {
            table.push((2, words, no_body(commit), refused(21)));
        }
    }
    for (phase, words, place, answer) in table {
        // Head 3, tail 2.
        let mut bench = damaged(runtime, phase, &[words, &[(15, 2)]].concat());
        bench.device = Device { place, ..Device::ON };
        let before = (bench.store.clone(), bench.device);
        assert_eq!(singles(&mut bench, 8), [answer; 3], "phase {phase}, {words:?}, {place:?}");
        let handler = (answer == Answer::Done).then_some(Handler::dropping((1, 8)));
        assert_eq!((bench.store, bench.device), (before.0, Device { handler, ..before.1 }));
    }
}

pub fn a_drop_where_a_task_has_begun(runtime: &dyn Runtime) {
    for before in 0..14 {
        let mut bench = Bench::booted(runtime, &TWO_TASKS, 3, 1);
        bench.steps(before);
        assert_eq!((bench.post(1, 7), bench.steps(3)), (Answer::Done, Answer::Accepted(None)));
        let (place, registers, control) = (bench.device.place, bench.device.registers, bench.store[8..14].to_vec());
        assert_eq!((bench.post(0, 8), bench.steps(4)), (Answer::Done, Answer::Accepted(Some((1, 7)))));
        // What the device runs goes on as it was.
        assert_eq!((bench.device.place, bench.device.registers), (place, registers), "after {before} steps");
        assert_eq!(bench.store[8..14], control, "after {before} steps");
    }
}

pub fn longer_bursts_drop_nothing(runtime: &dyn Runtime) {
    let words = [1, 51, 0, 52, 1, 53, 0, 54];
    for queue_records in [1, 2, 3, 4, 5] {
        for head in [0, queue_records] {
            for length in 2..=4 {
                let mut bench = full(runtime, queue_records, head);
                let before = bench.store.clone();
                assert_eq!(bench.burst(length, &words), refused(21), "Q {queue_records}, burst of {length}");
                assert_eq!((&bench.store, bench.device), (&before, Device::ON));
                // One slot too few.
                let taken = (queue_records + 1).saturating_sub(length);
                bench.store[15] = (head + taken) % (queue_records + 1);
                assert_eq!(bench.burst(length, &words), refused(21), "Q {queue_records}, burst of {length}");
            }
        }
    }
    let mut bench = full(runtime, 3, 1);
    assert_eq!((bench.burst(0, &words), bench.burst(5, &words)), (refused(33), refused(33)));
    assert_eq!(bench.burst(2, &[0, 1, 2, 1, 0, 0, 0, 0]), refused_at(8, 1, 0));
    assert_eq!((bench.post(2, 1), bench.burst(1, &[2; 8])), (refused(8), refused(8)));
}

pub fn refused_calls_before_the_head_store(runtime: &dyn Runtime) {
    let mut bench = full(runtime, 2, 1);
    assert_eq!(bench.post(0, 60), Answer::Done);
    let (store, device) = (bench.store.clone(), bench.device);
    for (handler, stores) in [(device.handler, 0), (Some(Handler::replacing((0, 60), 0)), 1)] {
        assert_eq!((bench.post(1, 61), bench.burst(1, &[1, 62, 0, 0, 0, 0, 0, 0])), (refused(20), refused(20)));
        assert_eq!((bench.burst(4, &[0; 8]), bench.raise(&TABLE, 2, 63)), (refused(20), refused(20)));
        assert_eq!((bench.raise(&TABLE, 3, 64), bench.boot()), (Answer::NothingPosted, refused(26)));
        assert_eq!((bench.post(2, 65), bench.burst(0, &[0; 8])), (refused(8), refused(33)));
        assert_eq!(bench.burst(3, &[0, 1, 0, 1, 2, 1, 0, 0]), refused_at(8, 2, 0));
        assert_eq!(bench.device, Device { handler, ..device });
        assert_eq!(bench.store[16..], store[16..]);
        assert_eq!(bench.whole_step(), stored(if stores == 0 { 14 } else { QUEUE as u16 }), "{stores} stores made");
    }
    assert_eq!((bench.whole_step(), bench.whole_step()), (stored(QUEUE as u16 + 1), accepted(Some(old(0)))));
}

/// What step, post, burst, raise and run meet on a handler at work.
fn meets<'a>(bench: impl Fn() -> Bench<'a>, unlike: bool, right: Answer, text: &str) {
    let answer = |right: Answer| if unlike { refused(25) } else { right };
    assert_eq!(bench().step(), answer(right), "step, {text}");
    assert_eq!(bench().post(1, 9), answer(refused(20)), "post, {text}");
    assert_eq!(bench().burst(2, &[0; 8]), answer(refused(20)), "burst, {text}");
    assert_eq!(bench().raise(&TABLE, 2, 9), answer(refused(20)), "raise, {text}");
    let Bench { runtime, program, mut store, mut device, mut totals } = bench();
    let run = runtime.run(&program, &mut store, &mut device, &mut totals, 1);
    let end = if unlike { End::Refused(Refusal { number: 25, place: (0, 0) }) } else { End::Spent };
    assert_eq!(run, RunAnswer { steps: !unlike as u32, end }, "run, {text}");
}

/// On a queue of three with head in slot 3: this handler in a phase, with these words, at this place.
fn handler_meets(runtime: &dyn Runtime, handler: Handler, met: Met, unlike: bool) {
    let (phase, words, place, right) = met;
    let device = Device { place, ..at_work(handler) };
    let bench = || Bench { device, ..damaged(runtime, phase, words) };
    meets(bench, unlike, right, &format!("{handler:?}, phase {phase}, {words:?}, {place:?}"));
}

/// In a phase, with these words, at this place: whether 25 meets a handler.
type Unlike<'a> = (usize, &'a [(usize, u16)], Place, bool);

const IDLE: Place = Place::NoBody { commit: 0 };

pub fn a_handler_about_to_drop_unlike_its_store(runtime: &dyn Runtime) {
    let running = |body: Body| Place::Running { body, instruction: 0, ending: 0 };
    let (task, event) = (running(Body::Task(0)), running(Body::Event(0)));
    let table: [Unlike; 20] = [
        (0, &[(15, 2)], IDLE, false),
        (0, &[(15, 2), (16, 1)], task, false),
        (0, &[(15, 2), (10, 5), (16, 1)], task, false),
        (1, &[(15, 2), (16, 0)], IDLE, false),
        (1, &[(15, 2), (16, 1)], Place::NoBody { commit: 5 }, false),
        // "A full queue".
        (0, &[(15, 1)], IDLE, true),
        (0, &[(15, 0), (16, 1)], task, true),
        (0, &[(15, 3)], IDLE, true),
        (1, &[(15, 1)], IDLE, true),
        // "Neither word 16 nor the phase at 2".
        (0, &[(15, 2), (16, 2)], event, true),
        (1, &[(15, 2), (16, 2)], IDLE, true),
        (2, &[(15, 2), (16, 0)], IDLE, true),
        (2, &[(15, 2), (16, 1)], IDLE, true),
        (2, &[(15, 2), (16, 2)], IDLE, true),
        (2, &[(15, 2), (12, 3), (16, 0)], IDLE, true),
        (2, &[(15, 2), (12, 3), (16, 1)], IDLE, true),
        (2, &[(15, 2), (12, 3), (16, 2)], IDLE, true),
        // What 25 asks of any device.
        (0, &[(15, 2), (16, 1)], IDLE, true),
        (0, &[(15, 2)], Place::NoBody { commit: 1 }, true),
        (1, &[(15, 2)], Place::NoBody { commit: 6 }, true),
    ];
    for (phase, words, place, unlike) in table {
        handler_meets(runtime, Handler::dropping((1, 9)), (phase, words, place, Answer::Stored), unlike);
        // "Or its event not below E".
        for event in [2, 3, 65535] {
            handler_meets(runtime, Handler::dropping((event, 9)), (phase, words, place, Answer::Stored), true);
        }
    }
}

pub fn a_handler_that_has_dropped_unlike_its_store(runtime: &dyn Runtime) {
    let event = Place::Running { body: Body::Event(0), instruction: 0, ending: 0 };
    let rooms: [Unlike; 8] = [
        (0, &[], IDLE, false),
        (0, &[(15, 3)], IDLE, false),
        (0, &[(16, 2)], event, false),
        (1, &[(15, 0)], IDLE, false),
        (2, &[(12, 3), (16, 0)], IDLE, false),
        (0, &[(15, 2)], IDLE, true),
        (1, &[(15, 2)], IDLE, true),
        (2, &[(15, 2)], IDLE, true),
    ];
    for (phase, words, place, unlike) in rooms {
        for made in 0..=2 {
            let right = if made == 2 { Answer::Accepted(Some((0, 0))) } else { Answer::Stored };
            handler_meets(runtime, Handler::replacing((1, 9), made), (phase, words, place, right), unlike);
            handler_meets(runtime, Handler::replacing((2, 9), made), (phase, words, place, right), true);
        }
        // Past its tail store.
        for made in [3, 4, 256, 65535] {
            handler_meets(runtime, Handler::replacing((1, 9), made), (phase, words, place, Answer::Stored), true);
        }
    }
    // Off unlike its fixed value; a boot looks at no handler.
    for handler in [Handler::dropping((1, 9)), Handler::replacing((1, 9), 1)] {
        let mut off = Bench { device: Device { on: false, ..at_work(handler) }, ..full(runtime, 2, 0) };
        assert_eq!((off.step(), off.post(0, 1), off.burst(0, &[0; 8])), (refused(25), refused(25), refused(25)));
        assert_eq!((off.boot(), off.device), (Answer::Done, Device::ON));
    }
}

pub fn the_record_to_drop(runtime: &dyn Runtime) {
    for head in 0..=3 {
        let at = QUEUE as u16 + 2 * head;
        let bad = |slots: &[u16]| {
            let mut bench = full(runtime, 3, head);
            slots.iter().for_each(|slot| put(&mut bench, (head + slot) % 4, (2, 5)));
            bench
        };
        // 7 at its event word, whatever other records are; a post looks at none.
        for slots in [&[0][..], &[0, 1], &[0, 2], &[0, 1, 2]] {
            let mut bench = bad(slots);
            assert_eq!(bench.post(1, 9), Answer::Done);
            let before = (bench.store.clone(), bench.device);
            assert_eq!(bench.whole_step(), StepAnswer { answer: refused_at(7, at, 0), stored: None });
            let Bench { program, store, device, totals, .. } = &mut bench;
            let run = runtime.run(program, store, device, totals, 9);
            let end = End::Refused(Refusal { number: 7, place: (at, 0) });
            assert_eq!(run, RunAnswer { steps: 0, end });
            assert_eq!((bench.store, bench.device, bench.totals), (before.0, before.1, Totals::default()));
        }
        for slots in [&[1][..], &[2], &[1, 2]] {
            let mut bench = bad(slots);
            assert_eq!((bench.post(1, 9), bench.whole_step()), (Answer::Done, stored(14)));
            assert_eq!(bench.steps(3), Answer::Accepted(Some(old(0))));
        }
        // 25 before it, and control words.
        let mut bench = Bench { device: at_work(Handler::dropping((2, 9))), ..bad(&[0]) };
        assert_eq!(bench.step(), refused(25));
        bench.device = at_work(Handler::dropping((1, 9)));
        bench.store[9] = 2;
        assert_eq!(bench.step(), refused_at(7, 9, 0));
    }
}

pub fn the_dropped_record_when_it_is_named(runtime: &dyn Runtime) {
    // It isn't checked, and is what stands in the slot after tail then.
    for dropped in [(0, 1), (1, 0), (2, 7), (65535, 65535), (9, 8)] {
        for made in 0..=2 {
            let mut bench = full(runtime, 3, 1);
            bench.store[14] = 2;
            put(&mut bench, 1, dropped);
            bench.device = at_work(Handler::replacing((1, 9), made));
            assert_eq!(bench.steps(3 - made as usize), Answer::Accepted(Some(dropped)));
            assert_eq!((bench.store[14], bench.store[15], bench.totals.accepted), (2, 1, 1));
        }
    }
    // Of a handler that has dropped nothing, none.
    let mut bench = full(runtime, 3, 1);
    bench.store[14] = 2;
    assert_eq!((bench.post(1, 9), bench.steps(3)), (Answer::Done, Answer::Accepted(None)));
}

pub fn the_accepted_total_of_replaced_records(runtime: &dyn Runtime) {
    for below in 0..=3u32 {
        let mut bench = full(runtime, 2, 2);
        bench.totals = Totals { committed: 3, accepted: u32::MAX - below, stores: u32::MAX - 2 };
        assert_eq!(bench.post(0, 9), Answer::Done);
        let mut run = Bench { store: bench.store.clone(), program: bench.program.clone(), ..bench };
        assert_eq!(bench.steps(4), Answer::Accepted(Some(old(0))));
        let expected = Totals { committed: 3, accepted: u32::MAX - below.saturating_sub(1), stores: u32::MAX };
        assert_eq!(bench.totals, expected);
        // "Run passes nothing on": no record is told, and it goes on.
        let Bench { program, store, device, totals, .. } = &mut run;
        assert_eq!(runtime.run(program, store, device, totals, 4), RunAnswer { steps: 4, end: End::Spent });
        assert_eq!((&run.store, run.totals), (&bench.store, expected));
    }
    let mut bench = full(runtime, 2, 2);
    assert_eq!(bench.post(0, 9), Answer::Done);
    let Bench { program, store, device, totals, .. } = &mut bench;
    assert_eq!(runtime.run(program, store, device, totals, 5), RunAnswer { steps: 5, end: End::Spent });
    assert_eq!(bench.store[16], 2);
}

pub fn words_that_are_no_handler_that_drops(runtime: &dyn Runtime) {
    let bench = full(runtime, 2, 0);
    let dropping = at_work(Handler::dropping((1, 9))).to_words();
    let replacing = at_work(Handler::replacing((1, 9), 2)).to_words();
    assert_eq!(dropping[15..], [2, 1, 0, 1, 9, 0, 0, 0, 0, 0, 0]);
    assert_eq!(replacing[15..], [3, 1, 2, 1, 9, 0, 0, 0, 0, 0, 0]);
    let lengths = [0, 2, 3, 4, 5, 257, 65535].map(|length| (16, length));
    let behind: Vec<(usize, u16)> = (20..DEVICE_WORDS).map(|index| (index, 1)).collect();
    let others = [(15, 4), (15, 65535), (15, 0)];
    let of_both = || lengths.into_iter().chain(behind.clone()).chain(others);
    let stores = [1, 2, 3, 65535].map(|made| (17, made));
    let dropping = of_both().chain(stores).map(|change| (dropping, change));
    for (mut words, (index, word)) in dropping.chain(of_both().map(|change| (replacing, change))) {
        words[index] = word;
        assert_eq!(Device::from_words(&words), None);
        let (mut store, mut device, mut totals) = (bench.store.clone(), words, bench.totals);
        let raise = Call::Raise { table: TABLE.into(), line: 2, level: 1 };
        let calls = [Call::Boot, Call::Step, Call::Post { event: 0, datum: 1 }, raise, Call::Run { budget: 9 }];
        for call in &calls {
            let outcome = runtime.stray(call, &TWO_TASKS, &mut store, &mut device, &mut totals);
            assert!(outcome.no_device(), "{call:?} on {words:?} answers {outcome:?}");
            assert_eq!((&store, device, totals), (&bench.store, words, bench.totals));
        }
        let cut = runtime.stray(&Call::Cut, &TWO_TASKS, &mut store, &mut device, &mut totals);
        assert_eq!((cut, device), (Outcome::Answer(Answer::Done), Device::OFF.to_words()));
    }
    // With any number of stores made, a handler that has dropped is a device's.
    for made in [0, 3, 65535] {
        let device = at_work(Handler::replacing((65535, 0), made));
        assert_eq!(Device::from_words(&device.to_words()), Some(device));
    }
}
