//! Bursts with fixed answers, worked out by hand from request N6, for any implementation.

use crate::cases::{damaged, refused, refused_at, Bench, COUNTING, TWO_TASKS};
use crate::runtime::*;
use crate::scenario::{Call, Outcome};

/// Of the program with two tasks and two events.
const WORDS: BurstWords = [1, 11, 0, 12, 1, 13, 0, 14];

/// Where the events of the slots start with L 3.
const QUEUE: usize = 27;

/// The program with two tasks and two events, with L 3.
fn two_events(runtime: &dyn Runtime, queue_records: u16) -> Bench<'_> {
    Bench::booted(runtime, &TWO_TASKS, 3, queue_records)
}

/// The same with an empty queue whose head and tail are there.
fn standing_at(runtime: &dyn Runtime, queue_records: u16, slot: u16) -> Bench<'_> {
    let mut bench = two_events(runtime, queue_records);
    (bench.store[14], bench.store[15]) = (slot, slot);
    bench
}

fn handler(length: u16, made: u16) -> Handler {
    Handler { made, ..Handler::new(length, &WORDS) }
}

fn at_work(handler: Handler) -> Device {
    Device { handler: Some(handler), ..Device::ON }
}

pub fn the_stores_of_a_burst(runtime: &dyn Runtime) {
    for length in 1..=4 {
        let mut bench = two_events(runtime, 6);
        assert_eq!(bench.burst(length, &WORDS), Answer::Done);
        assert_eq!(bench.device, at_work(handler(length, 0)));
        assert_eq!(bench.totals, Totals::default());
        // "Each event and then its data".
        for made in 0..2 * length {
            let index = QUEUE as u16 + made;
            assert_eq!(bench.whole_step(), StepAnswer { answer: Answer::Stored, stored: Some(index) });
            assert_eq!(bench.store[index as usize], WORDS[made as usize]);
            assert_eq!(bench.device, at_work(handler(length, made + 1)));
            assert_eq!((bench.store[14], bench.store[15], bench.totals.accepted), (0, 0, 0));
        }
        // ".. and then accepted by one tail store"; "the accepted total rises by the burst's length".
        assert_eq!(bench.whole_step(), StepAnswer { answer: Answer::Accepted(None), stored: Some(15) });
        assert_eq!((bench.store[14], bench.store[15], bench.device), (0, length, Device::ON));
        let stores = 2 * length as u32 + 1;
        assert_eq!(bench.totals, Totals { committed: 0, accepted: length as u32, stores });
    }
}

pub fn a_burst_round_the_ring(runtime: &dyn Runtime) {
    for slot in 0..5 {
        for length in 1..=4 {
            let mut bench = standing_at(runtime, 4, slot);
            let before = bench.store.clone();
            assert_eq!(bench.burst(length, &WORDS), Answer::Done);
            assert_eq!(bench.steps(2 * length as usize + 1), Answer::Accepted(None));
            let mut expected = before;
            for record in 0..length as usize {
                let at = QUEUE + 2 * ((slot as usize + record) % 5);
                expected[at..at + 2].copy_from_slice(&WORDS[2 * record..2 * record + 2]);
            }
            expected[15] = (slot + length) % 5;
            assert_eq!(bench.store, expected, "burst of {length} from slot {slot}");
        }
    }
}

pub fn a_burst_is_served_in_order(runtime: &dyn Runtime) {
    // The event doubles word 1 and adds its data.
    let mut program = COUNTING[..22].to_vec();
    program[10] = 5;
    program.extend([0x0810, 1, 0x0211, 0, 0x0210, 0, 0x0910, 1, 0x1000, 0]);
    program[5] = program.len() as u16;
    let mut bench = Bench::booted(runtime, &program, 1, 5);
    assert_eq!(bench.burst(4, &[0, 1, 0, 2, 0, 3, 0, 4]), Answer::Done);
    assert_eq!(bench.steps(9), Answer::Accepted(None));
    assert_eq!(bench.post(0, 5), Answer::Done);
    assert_eq!(bench.steps(3), Answer::Accepted(None));
    // Chosen, LOAD, ADD, ADD, a SAVE of two steps, 11, 12 and 8; one copy, 14, 16 and 8.
    for expected in [1, 4, 11, 26, 57] {
        bench.steps(13);
        assert_eq!((bench.store[8], bench.memory()[1]), (0, expected));
    }
    assert_eq!(bench.step(), Answer::Chosen(Body::Task(0)));
}

pub fn a_cut_in_a_burst(runtime: &dyn Runtime) {
    for length in 1..=4 {
        for made in 0..=2 * length {
            let mut bench = two_events(runtime, 4);
            assert_eq!(bench.burst(length, &WORDS), Answer::Done);
            bench.steps(made as usize);
            // Several events or none: none.
            assert_eq!(bench.recover(), 0);
            assert_eq!((bench.store[14], bench.store[15], bench.device), (0, 0, Device::ON));
            assert_eq!(bench.totals, Totals { committed: 0, accepted: 0, stores: made as u32 });
            assert_eq!(bench.step(), Answer::Chosen(Body::Task(0)));
            for _ in 0..40 {
                assert!(!matches!(bench.step(), Answer::Accepted(_)));
            }
        }
        let mut bench = two_events(runtime, 4);
        bench.burst(length, &WORDS);
        bench.steps(2 * length as usize + 1);
        assert_eq!(bench.recover(), 0);
        assert_eq!((bench.store[14], bench.store[15]), (0, length));
        assert_eq!(bench.step(), Answer::Chosen(Body::Event(1)));
    }
}

pub fn a_post_is_a_burst_of_one(runtime: &dyn Runtime) {
    let (mut post, mut burst) = (two_events(runtime, 1), two_events(runtime, 1));
    assert_eq!(post.post(1, 11), Answer::Done);
    assert_eq!(burst.burst(1, &[1, 11, 65535, 5, 2, 6, 65535, 7]), Answer::Done);
    assert_eq!(post.device, at_work(handler(1, 0)));
    assert_eq!(burst.device, post.device);
    assert_eq!((post.post(0, 9), burst.burst(1, &WORDS)), (refused(20), refused(20)));
    assert_eq!((post.steps(3), burst.steps(3)), (Answer::Accepted(None), Answer::Accepted(None)));
    assert_eq!((&post.store, post.totals), (&burst.store, burst.totals));
    // A full queue: both drop, until its event has begun.
    assert_eq!((post.post(1, 11), burst.burst(1, &WORDS)), (Answer::Done, Answer::Done));
    assert_eq!((post.device, burst.device), (at_work(Handler::dropping((1, 11))), at_work(Handler::dropping((1, 11)))));
    (post.device, burst.device) = (Device::ON, Device::ON);
    assert_eq!((post.steps(1), burst.steps(1)), (Answer::Chosen(Body::Event(1)), Answer::Chosen(Body::Event(1))));
    assert_eq!((post.post(0, 9), burst.burst(1, &WORDS)), (refused(21), refused(21)));
    assert_eq!((post.post(2, 9), burst.burst(1, &[2; BURST_WORDS])), (refused(8), refused(8)));
}

/// 33 for lengths out of range, of any events, and this before it.
fn lengths(bench: &mut Bench, answer: Answer) {
    let (store, device) = (bench.store.clone(), bench.device);
    for count in [0, 5, 6, 8, 256, 257, 260, 32769, 65535] {
        for words in [WORDS, [2; BURST_WORDS], [65535; BURST_WORDS]] {
            assert_eq!(bench.burst(count, &words), answer, "burst of {count}");
        }
    }
    assert_eq!((&bench.store, bench.device, bench.totals), (&store, device, Totals::default()));
}

pub fn lengths_of_a_burst(runtime: &dyn Runtime) {
    // "Checked just before 8": before 20 and 21, too.
    lengths(&mut two_events(runtime, 6), refused(33));
    lengths(&mut Bench { device: at_work(handler(4, 3)), ..two_events(runtime, 6) }, refused(33));
    lengths(&mut damaged(runtime, 0, &[(15, 2)]), refused(33));
    lengths(&mut full(runtime), refused(33));
    // Behind all else that a step looks at first.
    lengths(&mut Bench { device: Device::OFF, ..two_events(runtime, 6) }, refused(22));
    lengths(&mut Bench { device: Device { log_count: 4, ..Device::ON }, ..two_events(runtime, 6) }, refused(25));
    lengths(&mut Bench { device: at_work(handler(4, 9)), ..two_events(runtime, 6) }, refused(25));
    lengths(&mut damaged(runtime, 0, &[(14, 4)]), refused_at(7, 14, 0));
    lengths(&mut damaged(runtime, 0, &[(0, 4)]), refused(6));
    for (index, word, number, place) in [(5, 31, 1, 0), (0, 4, 2, 0), (1, 33, 3, 1)] {
        let mut bench = two_events(runtime, 6);
        bench.program[index] = word;
        lengths(&mut bench, refused_at(number, place, 0));
    }
}

/// A full queue, and its event begun: nothing is dropped.
fn full(runtime: &dyn Runtime) -> Bench<'_> {
    let place = Place::Running { body: Body::Event(0), instruction: 0, ending: 0 };
    Bench { device: Device { place, ..Device::ON }, ..damaged(runtime, 0, &[(15, 2), (16, 2)]) }
}

/// With these words another.
fn with(changes: &[(usize, u16)]) -> BurstWords {
    let mut words = WORDS;
    for (index, word) in changes {
        words[*index] = *word;
    }
    words
}

/// Of each length, with the first bad event at each position: 8 there; and of shorter bursts this.
fn events<'a>(bench: impl Fn() -> Bench<'a>, shorter: Answer) {
    for length in 1..=4u16 {
        for position in 0..4u16 {
            let at = 2 * position as usize;
            for words in [with(&[(at, 2)]), with(&[(at, 65535)]), with(&[(at, 3), (6, 2)])] {
                let answer = if position < length { refused_at(8, position, 0) } else { shorter };
                let mut bench = bench();
                let room = 3 - (bench.store[15] + 4 - bench.store[14]) % 4;
                let drops = room == 0 && length == 1;
                let long = shorter == Answer::Done && position >= length && length > room && !drops;
                let answer = if long { refused(21) } else { answer };
                assert_eq!(bench.burst(length, &words), answer, "burst of {length}, position {position}");
            }
        }
    }
}

pub fn events_of_a_burst(runtime: &dyn Runtime) {
    // Room for three.
    events(|| two_events(runtime, 3), Answer::Done);
    // 8 before 20 and before 21.
    events(|| Bench { device: at_work(handler(2, 1)), ..two_events(runtime, 3) }, refused(20));
    events(|| full(runtime), refused(21));
    // 8 before a drop.
    events(|| damaged(runtime, 0, &[(15, 2)]), Answer::Done);
    // 22 before it.
    let mut off = Bench { device: Device::OFF, ..two_events(runtime, 3) };
    assert_eq!(off.burst(3, &with(&[(2, 2)])), refused(22));
    // A program without events.
    let mut none = two_events(runtime, 3);
    none.program[2] = 0;
    assert_eq!((none.burst(1, &[0; BURST_WORDS]), none.burst(4, &[0; BURST_WORDS])), (refused(8), refused(8)));
    // Data may be anything, and so may the words behind the last.
    let mut bench = two_events(runtime, 3);
    assert_eq!(bench.burst(2, &[1, 65535, 0, 2, 65535, 65535, 2, 2]), Answer::Done);
    let words = [1, 65535, 0, 2, 0, 0, 0, 0];
    assert_eq!(bench.device, at_work(Handler { words, ..handler(2, 0) }));
}

/// The device with the event at head begun.
fn begun<'a, 'b>(bench: &'a mut Bench<'b>) -> &'a mut Bench<'b> {
    bench.store[16] = 2;
    let body = Body::Event(bench.store[QUEUE + 2 * bench.store[14] as usize]);
    bench.device = Device { place: Place::Running { body, instruction: 0, ending: 0 }, ..Device::ON };
    bench
}

pub fn room_for_a_burst(runtime: &dyn Runtime) {
    for queue_records in 1..=5 {
        for slot in [0, queue_records] {
            for waiting in 0..=queue_records {
                for length in 1..=4 {
                    let mut bench = standing_at(runtime, queue_records, slot);
                    bench.store[15] = (slot + waiting) % (queue_records + 1);
                    // A single one drops where the queue is full.
                    let done = waiting + length <= queue_records || length == 1;
                    let answer = if done { Answer::Done } else { refused(21) };
                    let text = format!("burst of {length}, {waiting} of {queue_records} wait");
                    assert_eq!(bench.burst(length, &WORDS), answer, "{text}");
                    // A full queue with its event begun takes none.
                    if waiting == queue_records {
                        assert_eq!(begun(&mut bench).burst(length, &WORDS), refused(21), "{text}");
                    }
                    if waiting < queue_records {
                        // 20 before 21.
                        bench.device = at_work(handler(1, 0));
                        assert_eq!(bench.burst(length, &WORDS), refused(20), "{text}");
                    }
                }
            }
        }
    }
}

pub fn room_in_an_events_commit(runtime: &dyn Runtime) {
    // Head 3, tail 1, word 12 at 0: two slots of three are taken until head has moved.
    for (head, room) in [(3, 1), (0, 2)] {
        for length in 1..=4 {
            let mut bench = damaged(runtime, 2, &[(14, head)]);
            let answer = if length <= room { Answer::Done } else { refused(21) };
            assert_eq!(bench.burst(length, &WORDS), answer, "head {head}, burst of {length}");
            // So for a handler at work.
            let answer = if length <= room { Answer::Stored } else { refused(25) };
            bench.device = at_work(handler(length, 0));
            assert_eq!(bench.step(), answer, "head {head}, burst of {length}");
        }
    }
    // In phase 1 word 12 is a task.
    let mut bench = damaged(runtime, 1, &[]);
    assert_eq!((bench.burst(2, &WORDS), bench.burst(1, &WORDS)), (refused(21), Answer::Done));
}

/// What step, post, burst and run meet on a handler at work, of a store with room for so many of six.
fn meets(runtime: &dyn Runtime, room: u16, handler: Handler, unlike: bool) {
    let mut store = standing_at(runtime, 6, 5).store;
    store[15] = (5 + 6 - room) % 7;
    let bench = || Bench { store: store.clone(), device: at_work(handler), ..two_events(runtime, 6) };
    let answer = |right: Answer| if unlike { refused(25) } else { right };
    let accepts = handler.made as u32 == 2 * handler.length as u32;
    let text = format!("{handler:?}, room {room}");
    assert_eq!(bench().step(), answer(if accepts { Answer::Accepted(None) } else { Answer::Stored }), "step, {text}");
    assert_eq!(bench().post(1, 9), answer(refused(20)), "post, {text}");
    assert_eq!(bench().burst(3, &WORDS), answer(refused(20)), "burst, {text}");
    let Bench { program, mut store, mut device, mut totals, .. } = bench();
    let run = runtime.run(&program, &mut store, &mut device, &mut totals, 1);
    let end = if unlike { End::Refused(Refusal { number: 25, place: (0, 0) }) } else { End::Spent };
    assert_eq!(run, RunAnswer { steps: !unlike as u32, end }, "run, {text}");
}

pub fn a_handler_unlike_its_store(runtime: &dyn Runtime) {
    for length in 1..=4 {
        for made in 0..=2 * length {
            // Its whole length, however much of it is stored.
            for room in 0..=6 {
                meets(runtime, room, handler(length, made), length > room);
            }
            // Each event, stored or not.
            for position in 0..length as usize {
                let words = with(&[(2 * position, 2)]);
                meets(runtime, 6, Handler { made, ..Handler::new(length, &words) }, true);
            }
        }
        // Past its tail store.
        for made in [2 * length + 1, 2 * length + 2, 256, 65535] {
            meets(runtime, 6, handler(length, made), true);
        }
    }
    for (length, made) in [(0, 0), (0, 1), (5, 0), (5, 10), (6, 4), (257, 0), (32769, 2), (65535, 0), (65535, 65535)] {
        meets(runtime, 6, handler(length, made), true);
    }
    // Off unlike its fixed value; a boot looks at no handler.
    let mut off = Bench { device: Device { on: false, ..at_work(handler(2, 1)) }, ..two_events(runtime, 6) };
    assert_eq!((off.step(), off.post(0, 1), off.burst(0, &WORDS)), (refused(25), refused(25), refused(25)));
    assert_eq!((off.boot(), off.device), (Answer::Done, Device::ON));
}

pub fn the_accepted_total(runtime: &dyn Runtime) {
    for below in 0..=5u32 {
        for length in 1..=4 {
            let mut bench = two_events(runtime, 4);
            bench.totals.accepted = u32::MAX - below;
            assert_eq!(bench.burst(length, &WORDS), Answer::Done);
            let mut run = Bench { store: bench.store.clone(), program: bench.program.clone(), ..bench };
            assert_eq!(bench.steps(2 * length as usize + 1), Answer::Accepted(None));
            let expected = u32::MAX - below.saturating_sub(length as u32);
            assert_eq!(bench.totals.accepted, expected, "{below} below, burst of {length}");
            let Bench { program, store, device, totals, .. } = &mut run;
            let stores = 2 * length as u32 + 1;
            let answer = runtime.run(program, store, device, totals, stores);
            assert_eq!(answer, RunAnswer { steps: stores, end: End::Spent });
            assert_eq!((totals.accepted, &run.store), (expected, &bench.store), "{below} below, burst of {length}");
        }
    }
}

pub fn words_that_are_no_handler(runtime: &dyn Runtime) {
    let bench = two_events(runtime, 4);
    let working = at_work(handler(2, 1)).to_words();
    assert_eq!(working[15..], [1, 2, 1, 1, 11, 0, 12, 0, 0, 0, 0]);
    // At work: a word behind the last data; as a shorter burst; with a handler of 2. At rest: any word of a burst.
    let mut all: Vec<[u16; DEVICE_WORDS]> = Vec::new();
    for (index, word) in [(22, 1), (23, 1), (24, 65535), (25, 1), (16, 1), (16, 0), (15, 0), (15, 2), (15, 65535)] {
        all.push(working);
        all.last_mut().expect("pushed")[index] = word;
    }
    for index in 16..DEVICE_WORDS {
        all.push(Device::ON.to_words());
        all.last_mut().expect("pushed")[index] = 1;
    }
    let burst = |count: u16| Call::Burst { count, words: WORDS };
    let calls = [Call::Boot, Call::Step, Call::Post { event: 9, datum: 1 }, burst(0), burst(2), Call::Run { budget: 9 }];
    for words in all {
        assert_eq!(Device::from_words(&words), None);
        let (mut store, mut device, mut totals) = (bench.store.clone(), words, bench.totals);
        for call in &calls {
            let outcome = runtime.stray(call, &TWO_TASKS, &mut store, &mut device, &mut totals);
            assert!(outcome.no_device(), "{call:?} on {words:?} answers {outcome:?}");
            assert_eq!((&store, device, totals), (&bench.store, words, bench.totals));
        }
        let cut = runtime.stray(&Call::Cut, &TWO_TASKS, &mut store, &mut device, &mut totals);
        assert_eq!((cut, device), (Outcome::Answer(Answer::Done), Device::OFF.to_words()));
    }
    // Of a length out of range every word is a device's.
    for length in [4, 5, 65535] {
        let mut words = working;
        words[16..].fill(65535);
        words[16] = length;
        let expected = Handler { made: 65535, words: [65535; BURST_WORDS], ..Handler::new(length, &WORDS) };
        assert_eq!(Device::from_words(&words), Some(at_work(expected)));
    }
}
