//! The counting program of the paper and the cases under it, for any implementation. A case that fails panics
//! with what differs; `all` catches that and prints the case's name.

use crate::begun::cases as begun;
use crate::bursts::cases as bursts;
use crate::drops::cases as drops;
use crate::lines::cases as lines;
use crate::reference::{store_length, DONE, GO, JLT, JUMP, LOADX, MEMORY, SAVE, SET, SHR};
use crate::runtime::*;
use crate::scenario::{Call, Outcome};

pub const COUNTING: [u16; 26] = [
    0xC0B1, 0x0001, 0x0001, 0x0002, 0x0000, 0x001A, // contents
    0x000C, 0x0005, 0x0000, // the task's row
    0x0016, 0x0002, 0x0000, // the event's row
    0x0800, 0x0000, 0x0010, 0x0001, 0x0201, 0x0000, 0x0900, 0x0000, 0x0F00, 0x0000, // adds 1 to word 0
    0x0900, 0x0001, 0x1000, 0x0000, // saves its data in word 1
];

pub(crate) fn refused(number: u16) -> Answer {
    Answer::Refused(Refusal { number, place: (0, 0) })
}

pub(crate) fn refused_at(number: u16, first: u16, second: u16) -> Answer {
    Answer::Refused(Refusal { number, place: (first, second) })
}

fn with(changes: &[(usize, u16)]) -> Vec<u16> {
    let mut program = COUNTING.to_vec();
    for (index, word) in changes {
        program[*index] = *word;
    }
    program
}

/// A program, a formatted store, a device and totals.
pub(crate) struct Bench<'a> {
    pub runtime: &'a dyn Runtime,
    pub program: Vec<u16>,
    pub store: Vec<u16>,
    pub device: Device,
    pub totals: Totals,
}

impl<'a> Bench<'a> {
    pub fn new(runtime: &'a dyn Runtime, program: &[u16], log_pairs: u16, queue_records: u16) -> Bench<'a> {
        let length = store_length(program[3] as usize, log_pairs as usize, queue_records as usize);
        let mut store = vec![0xAAAA; length];
        assert_eq!(runtime.format(program, log_pairs, queue_records, &mut store), Answer::Done);
        Bench { runtime, program: program.to_vec(), store, device: Device::OFF, totals: Totals::default() }
    }

    /// Formatted and booted.
    pub fn booted(runtime: &'a dyn Runtime, program: &[u16], log_pairs: u16, queue_records: u16) -> Bench<'a> {
        let mut bench = Bench::new(runtime, program, log_pairs, queue_records);
        assert_eq!(bench.boot(), Answer::Done);
        bench
    }

    pub fn counting(runtime: &'a dyn Runtime) -> Bench<'a> {
        Bench::booted(runtime, &COUNTING, 1, 1)
    }

    pub fn boot(&mut self) -> Answer {
        self.runtime.boot(&self.program, &mut self.store, &mut self.device)
    }

    pub fn step(&mut self) -> Answer {
        self.whole_step().answer
    }

    pub fn whole_step(&mut self) -> StepAnswer {
        self.runtime.step(&self.program, &mut self.store, &mut self.device, &mut self.totals)
    }

    pub fn steps(&mut self, count: usize) -> Answer {
        let mut answer = Answer::Done;
        for _ in 0..count {
            answer = self.step();
            assert!(!matches!(answer, Answer::Refused(_)), "{answer:?}");
        }
        answer
    }

    pub fn post(&mut self, event: u16, datum: u16) -> Answer {
        self.runtime.post(&self.program, &mut self.store, &mut self.device, event, datum)
    }

    pub fn burst(&mut self, count: u16, words: &BurstWords) -> Answer {
        self.runtime.burst(&self.program, &mut self.store, &mut self.device, count, words)
    }

    pub fn raise(&mut self, table: &[u16], line: u16, level: u16) -> Answer {
        self.runtime.raise(&self.program, &mut self.store, &mut self.device, table, line, level)
    }

    pub fn cut(&mut self) {
        assert_eq!(self.runtime.cut(&mut self.device), Answer::Done);
        assert_eq!(self.device, Device::OFF);
    }

    /// A cut, a boot, then steps while the phase isn't 0; the number of steps.
    pub fn recover(&mut self) -> usize {
        self.cut();
        assert_eq!(self.boot(), Answer::Done);
        let mut steps = 0;
        while self.store[8] != 0 {
            assert_eq!(self.step(), Answer::Stored);
            steps += 1;
            assert!(steps < 100, "recovery doesn't end");
        }
        steps
    }

    pub fn memory(&self) -> &[u16] {
        &self.store[MEMORY..MEMORY + self.program[3] as usize]
    }
}

/// A program of one task with these instructions.
pub(crate) fn one_task(memory: u16, code: &[(u16, u16, u16, u16)]) -> Vec<u16> {
    let mut program = vec![0xC0B1, 1, 0, memory, 0, 0, 9, code.len() as u16, 0];
    for (opcode, a, b, k) in code {
        program.push(opcode * 256 + a * 16 + b);
        program.push(*k);
    }
    program[5] = program.len() as u16;
    program
}

fn accepted_and_lengths(runtime: &dyn Runtime) {
    assert_eq!(runtime.check(&COUNTING), Answer::Done);
    assert_eq!(runtime.check(&with(&[(5, 0x001B)])), refused(1));
    assert_eq!(runtime.check(&COUNTING[..5]), refused(1));
}

fn tasks_and_last_instruction(runtime: &dyn Runtime) {
    assert_eq!(runtime.check(&with(&[(1, 33)])), refused_at(3, 1, 0));
    assert_eq!(runtime.check(&with(&[(24, 0x0200), (25, 0)])), refused_at(5, 1, 1));
}

fn load_address(runtime: &dyn Runtime) {
    assert_eq!(runtime.check(&with(&[(13, 1)])), Answer::Done);
    assert_eq!(runtime.check(&with(&[(13, 2)])), refused_at(5, 0, 0));
}

fn nine_steps_and_ten(runtime: &dyn Runtime) {
    let mut bench = Bench::counting(runtime);
    bench.steps(9);
    bench.recover();
    assert_eq!(bench.memory(), [0, 0]);

    let mut bench = Bench::counting(runtime);
    assert_eq!(bench.steps(10), Answer::Committed(Body::Task(0)));
    assert_eq!(bench.recover(), 5);
    assert_eq!(bench.memory(), [1, 0]);

    let mut bench = Bench::counting(runtime);
    bench.steps(14);
    assert_eq!(bench.store[8], 1);
    assert_eq!(bench.step(), Answer::Stored);
    assert_eq!(bench.store[8], 0);
    assert_eq!(bench.memory(), [1, 0]);
    assert_eq!(bench.totals, Totals { committed: 1, accepted: 0, stores: 12 });
}

fn each_of_fifteen_steps(runtime: &dyn Runtime) {
    let mut bench = Bench::counting(runtime);
    let (answers, stored): (Vec<Answer>, Vec<Option<u16>>) =
        (0..15).map(|_| bench.whole_step()).map(|step| (step.answer, step.stored)).unzip();
    let mut expected = vec![Answer::Chosen(Body::Task(0))];
    expected.extend([Answer::Worked; 3]);
    expected.extend([Answer::Stored; 5]);
    expected.push(Answer::Committed(Body::Task(0)));
    expected.extend([Answer::Stored; 5]);
    assert_eq!(answers, expected);
    // The log's address and value; 11, 12, 13 and 8; memory 0; 9, 10, 16 and 8. Words 12, 13, 9 and 10 stay 0.
    let words = [19, 20, 11, 12, 13, 8, 17, 9, 10, 16, 8].map(Some);
    assert_eq!(stored[..4], [Some(16), None, None, None]);
    assert_eq!(stored[4..], words);
}

fn post_and_three_steps(runtime: &dyn Runtime) {
    let mut bench = Bench::counting(runtime);
    assert_eq!(bench.post(0, 77), Answer::Done);
    assert_eq!(bench.steps(3), Answer::Accepted(None));
    // A further post drops this event, until it has begun.
    let device = bench.device;
    assert_eq!(bench.post(0, 78), Answer::Done);
    assert_eq!(bench.device, Device { handler: Some(Handler::dropping((0, 78))), ..device });
    bench.device = device;
    assert_eq!(bench.step(), Answer::Chosen(Body::Event(0)));
    // Then it is refused until the event's commit has moved head.
    let mut steps = 0;
    while bench.store[14] == 0 {
        assert_eq!(bench.post(0, 78), refused(21));
        bench.steps(1);
        steps += 1;
        assert!(steps < 100, "the event isn't served");
    }
    // Two halves of SAVE, 11, 12, 8; one copy; head.
    assert_eq!(steps, 7);
    assert_eq!(bench.post(0, 78), Answer::Done);
}

fn post_while_a_handler_is_at_work(runtime: &dyn Runtime) {
    let mut bench = Bench::counting(runtime);
    assert_eq!(bench.post(0, 1), Answer::Done);
    bench.steps(1);
    assert_eq!(bench.post(0, 2), refused(20));

    let mut bench = Bench::counting(runtime);
    assert_eq!(bench.post(0, 1), Answer::Done);
    bench.steps(2);
    bench.recover();
    assert_eq!(bench.store[14], bench.store[15]);
    assert_eq!(bench.totals.accepted, 0);
    // No answer accepted comes later either.
    for _ in 0..100 {
        assert!(!matches!(bench.step(), Answer::Accepted(_)));
    }
}

fn cut_after_the_head_store(runtime: &dyn Runtime) {
    let mut bench = Bench::counting(runtime);
    bench.post(0, 77);
    bench.steps(3);
    // Chosen, two halves of SAVE, 11, 12, 8; one copy; head.
    bench.steps(8);
    assert_eq!((bench.store[8], bench.store[14], bench.store[16]), (2, 1, 2));
    assert_eq!(bench.recover(), 4);
    assert_eq!((bench.store[8], bench.store[14], bench.store[15], bench.store[16]), (0, 1, 1, 0));
    assert_eq!(bench.memory(), [0, 77]);
}

fn shift_right(runtime: &dyn Runtime) {
    let shift = |word: u16, k: u16| {
        let program = one_task(1, &[(SET, 0, 0, word), (SHR, 0, 0, k), (GO, 0, 0, 0)]);
        let mut bench = Bench::booted(runtime, &program, 1, 1);
        bench.steps(3);
        bench.device.registers[0]
    };
    assert_eq!(shift(0x8000, 15), 0xFFFF);
    assert_eq!(shift(0x7FFF, 15), 0);
    assert_eq!(shift(0xFFFF, 1), 0xFFFF);
    assert_eq!(shift(0x8001, 0), 0x8001);
    let program = one_task(1, &[(SET, 0, 0, 1), (SHR, 0, 0, 16), (GO, 0, 0, 0)]);
    assert_eq!(runtime.check(&program), refused_at(5, 0, 1));
}

fn less_than(runtime: &dyn Runtime) {
    let less = |a: u16, b: u16| {
        let code = [(SET, 1, 0, a), (SET, 2, 0, b), (JLT, 1, 2, 4), (JUMP, 0, 0, 3), (GO, 0, 0, 0)];
        let mut bench = Bench::booted(runtime, &one_task(1, &code), 1, 1);
        bench.steps(4);
        bench.device.place == Place::Running { body: Body::Task(0), instruction: 4, ending: 0 }
    };
    assert!(less(0x8000, 0));
    assert!(!less(0x7FFF, 0x8000));
    assert!(less(0x8000, 0x7FFF));
    assert!(!less(5, 5));
}

fn index_out_of_range(runtime: &dyn Runtime) {
    let program = one_task(2, &[(SET, 3, 0, 0xFFFF), (LOADX, 0, 3, 1), (GO, 0, 0, 0)]);
    let mut bench = Bench::booted(runtime, &program, 1, 1);
    bench.steps(2);
    assert_eq!(bench.step(), refused(23));
    assert_eq!(bench.step(), refused(23));
    // A cut doesn't help: the task is taken up, and comes there again.
    bench.recover();
    assert_eq!(bench.steps(1), Answer::Worked);
    assert_eq!(bench.step(), refused(23));
}

fn log_of_one_pair(runtime: &dyn Runtime) {
    let twice = one_task(2, &[(SAVE, 0, 0, 1), (SAVE, 0, 0, 1), (GO, 0, 0, 0)]);
    let mut bench = Bench::booted(runtime, &twice, 1, 1);
    // Chosen, two halves, one overwriting step, four ending stores.
    assert_eq!(bench.steps(8), Answer::Committed(Body::Task(0)));

    let two = one_task(2, &[(SAVE, 0, 0, 1), (SAVE, 0, 0, 0), (GO, 0, 0, 0)]);
    let mut bench = Bench::booted(runtime, &two, 1, 1);
    bench.steps(3);
    assert_eq!(bench.step(), refused(24));
    assert_eq!(bench.step(), refused(24));
    bench.recover();
    bench.steps(2);
    assert_eq!(bench.step(), refused(24));
}

fn store_of_25_words(runtime: &dyn Runtime) {
    // Accepted: formatting, boot, a post and steps.
    let mut bench = Bench::new(runtime, &COUNTING, 1, 1);
    assert_eq!(bench.store.len(), 25);
    assert_eq!(bench.boot(), Answer::Done);
    assert_eq!(bench.post(0, 7), Answer::Done);
    assert_eq!(bench.steps(3), Answer::Accepted(None));
    // Of 24, and of 26: 6 from each call that has a store, and nothing changes.
    let off = Refusal { number: 6, place: (0, 0) };
    for length in [24, 26] {
        let mut short = bench.store.clone();
        short.resize(length, 0);
        let before = short.clone();
        let mut totals = bench.totals;
        assert_eq!(runtime.format(&COUNTING, 1, 1, &mut short), refused(6));
        let mut device = Device::OFF;
        assert_eq!(runtime.boot(&COUNTING, &mut short, &mut device), refused(6));
        assert_eq!(device, Device::OFF);
        let mut device = bench.device;
        let step = runtime.step(&COUNTING, &mut short, &mut device, &mut totals);
        assert_eq!(step, StepAnswer { answer: refused(6), stored: None });
        assert_eq!(runtime.post(&COUNTING, &mut short, &mut device, 0, 7), refused(6));
        let run = runtime.run(&COUNTING, &mut short, &mut device, &mut totals, 9);
        assert_eq!(run, RunAnswer { steps: 0, end: End::Refused(off) });
        assert_eq!((device, totals, short), (bench.device, bench.totals, before));
    }
}

fn formatting(runtime: &dyn Runtime) {
    let bench = Bench::new(runtime, &COUNTING, 1, 1);
    let mut expected = vec![0xC0A2, 2, 1, 1, 8, 17, 19, 21];
    expected.resize(25, 0);
    assert_eq!(bench.store, expected);
    for (log_pairs, queue_records) in [(0, 1), (65, 1), (1, 0), (1, 33)] {
        let mut store = vec![0; 25];
        assert_eq!(runtime.format(&COUNTING, log_pairs, queue_records, &mut store), refused(9));
    }
}

fn budgets(runtime: &dyn Runtime) {
    let mut bench = Bench::new(runtime, &COUNTING, 1, 1);
    let run = |bench: &mut Bench, budget: u32| {
        runtime.run(&bench.program, &mut bench.store, &mut bench.device, &mut bench.totals, budget)
    };
    // A budget of 0 looks at nothing.
    let nothing = runtime.run(&[], &mut [], &mut bench.device, &mut bench.totals, 0);
    assert_eq!(nothing, RunAnswer { steps: 0, end: End::Spent });
    let off = Refusal { number: 22, place: (0, 0) };
    assert_eq!(run(&mut bench, u32::MAX), RunAnswer { steps: 0, end: End::Refused(off) });
    assert_eq!(bench.boot(), Answer::Done);
    assert_eq!(run(&mut bench, 30), RunAnswer { steps: 30, end: End::Spent });
    assert_eq!(bench.memory(), [2, 0]);
}

fn the_largest_budget(runtime: &dyn Runtime) {
    let two = one_task(2, &[(SAVE, 0, 0, 1), (SAVE, 0, 0, 0), (GO, 0, 0, 0)]);
    let full = End::Refused(Refusal { number: 24, place: (0, 0) });
    for budget in [4, 5, u32::MAX - 1, u32::MAX] {
        let mut bench = Bench::booted(runtime, &two, 1, 1);
        let Bench { program, store, device, totals, .. } = &mut bench;
        // Chosen and the two halves of the first SAVE; the second is refused.
        assert_eq!(runtime.run(program, store, device, totals, budget), RunAnswer { steps: 3, end: full });
        assert_eq!(runtime.run(program, store, device, totals, 1), RunAnswer { steps: 0, end: full });
        assert_eq!(*totals, Totals { committed: 0, accepted: 0, stores: 3 });
    }
}

fn totals_stay_at_the_largest_value(runtime: &dyn Runtime) {
    let mut bench = Bench::counting(runtime);
    bench.totals = Totals { committed: u32::MAX - 1, accepted: u32::MAX, stores: u32::MAX - 2 };
    assert_eq!(bench.post(0, 7), Answer::Done);
    // Accepted, the event committed, the task committed twice.
    let Bench { program, store, device, totals, .. } = &mut bench;
    let run = runtime.run(program, store, device, totals, 3 + 10 + 30);
    assert_eq!(run, RunAnswer { steps: 43, end: End::Spent });
    assert_eq!(*totals, Totals { committed: u32::MAX, accepted: u32::MAX, stores: u32::MAX });
    assert_eq!(bench.memory(), [2, 7]);
}

fn words_that_are_no_device(runtime: &dyn Runtime) {
    let bench = Bench::counting(runtime);
    let on = bench.device.to_words();
    // On as 2; a place, a kind and a handler out of range; and words that their case doesn't have.
    let one: [&[(usize, u16)]; 14] = [
        &[(0, 2)],
        &[(0, 65535)],
        &[(9, 3)],
        &[(10, 1)],
        &[(9, 1), (10, 2)],
        &[(11, 1)],
        &[(12, 1)],
        &[(9, 2), (13, 1)],
        &[(15, 2)],
        &[(16, 1)],
        &[(17, 1)],
        &[(18, 1)],
        &[(15, 1), (25, 1)],
        &[(15, 65535)],
    ];
    for changes in one {
        let mut words = on;
        for (index, word) in changes {
            words[*index] = *word;
        }
        assert_eq!(Device::from_words(&words), None);
        let (mut store, mut device, mut totals) = (bench.store.clone(), words, bench.totals);
        let (post, burst) = (Call::Post { event: 0, datum: 1 }, Call::Burst { count: 1, words: single(0, 1) });
        let calls = [Call::Boot, Call::Step, post, burst, Call::Cut, Call::Run { budget: u32::MAX }];
        for call in calls.iter().filter(|call| call.looks_at_device()) {
            let outcome = runtime.stray(call, &COUNTING, &mut store, &mut device, &mut totals);
            assert!(outcome.no_device(), "{call:?} on {words:?} answers {outcome:?}");
            if let Outcome::Run(answer) = outcome {
                assert_eq!(answer.steps, 0);
            }
            assert_eq!((&store, device, totals), (&bench.store, words, bench.totals));
        }
    }
}

/// T 2, E 2, M 4; task 0 has transaction number 5. With L and Q 3 the log addresses are words 21, 23 and 25, and the
/// events of the ring's slots words 27, 29, 31 and 33.
pub(crate) const TWO_TASKS: [u16; 30] = [
    0xC0B1, 2, 2, 4, 0, 30, // contents
    18, 2, 5, 22, 2, 0, // the tasks' rows
    26, 1, 0, 28, 1, 0, // the events' rows
    0x0900, 0, 0x0F00, 1, 0x0900, 1, 0x0F00, 0, // the tasks: SAVE, GO
    0x1000, 0, 0x1000, 0, // the events: DONE
];

/// Right words 8 to 16 for each phase. Records wait in slots 3 and 0; in phase 2, where 12 is the slot after 14, in
/// slot 0.
const RIGHT: [[u16; 9]; 3] = [
    [0, 0, 0, 0, 0, 0, 3, 1, 0],
    [1, 0, 0, 2, 0, 5, 3, 1, 1],
    [2, 0, 0, 2, 0, 0, 3, 1, 2],
];

/// A store with right control words, but for these words.
pub(crate) fn damaged<'a>(runtime: &'a dyn Runtime, phase: usize, words: &[(usize, u16)]) -> Bench<'a> {
    let mut bench = Bench::new(runtime, &TWO_TASKS, 3, 3);
    bench.store[8..MEMORY].copy_from_slice(&RIGHT[phase]);
    assert_eq!(bench.boot(), Answer::Done);
    for (index, word) in words {
        bench.store[*index] = *word;
    }
    bench
}

/// In a phase, with these words: the place that a boot names, and the one that a step, a post and a run name.
pub(crate) type Places<'a> = (usize, &'a [(usize, u16)], u16, u16);

/// Off or on: 7 comes before 22, 25 and 26.
pub(crate) fn places(runtime: &dyn Runtime, table: &[Places]) {
    for (phase, words, at_boot, at_step) in table {
        for device in [Device::OFF, Device::ON] {
            let mut bench = damaged(runtime, *phase, words);
            bench.device = device;
            let before = bench.store.clone();
            let text = format!("phase {phase}, {words:?}, {device:?}");
            assert_eq!(bench.boot(), refused_at(7, *at_boot, 0), "boot, {text}");
            assert_eq!(bench.step(), refused_at(7, *at_step, 0), "step, {text}");
            assert_eq!(bench.post(0, 9), refused_at(7, *at_step, 0), "post, {text}");
            let end = End::Refused(Refusal { number: 7, place: (*at_step, 0) });
            let run = runtime.run(&bench.program, &mut bench.store, &mut bench.device, &mut bench.totals, 9);
            assert_eq!(run, RunAnswer { steps: 0, end }, "run, {text}");
            assert_eq!((bench.store, bench.device, bench.totals), (before, device, Totals::default()), "{text}");
        }
    }
}

fn the_lowest_of_several_words(runtime: &dyn Runtime) {
    let table: [Places; 17] = [
        // "8 at most 2"; the rules of 10 to 13 need it.
        (0, &[(8, 3), (9, 2), (10, 6), (11, 4), (12, 4), (13, 6), (14, 4), (15, 4)], 8, 8),
        (2, &[(8, 65535), (15, 4)], 8, 8),
        // "9 below T"; 10's rule in phase 0 needs it.
        (0, &[(9, 2), (10, 6)], 9, 9),
        (0, &[(9, 65535), (14, 4)], 9, 9),
        (1, &[(9, 2), (13, 6), (15, 65535)], 9, 9),
        // "10 is 0 or the transaction number of task 9" needs a row: step and post don't look at it first.
        (0, &[(10, 6), (14, 4)], 10, 14),
        (0, &[(10, 6), (15, 4)], 10, 15),
        // "In phase 2, 10 is 0" needs none.
        (2, &[(10, 5), (11, 4), (15, 4)], 10, 10),
        // "In phases 1 and 2, 11 at most L", and then no log address is looked at.
        (1, &[(11, 4), (12, 2), (21, 4)], 11, 11),
        (2, &[(11, 65535), (14, 4), (15, 4)], 11, 11),
        // "In phase 1, 12 below T and 13 is 0 or task 12's number; 10 is free."
        (1, &[(12, 2), (13, 6)], 12, 12),
        (1, &[(12, 2), (14, 4), (15, 4)], 12, 12),
        (1, &[(13, 6), (14, 4)], 13, 14),
        (1, &[(10, 6), (13, 6), (15, 4)], 13, 15),
        // In phase 0, 11, 12 and 13 are free.
        (0, &[(11, 4), (12, 4), (13, 6), (14, 4), (15, 4)], 14, 14),
        // A control word, a log address and a record.
        (1, &[(15, 4), (21, 4), (27, 2)], 15, 15),
        (2, &[(9, 2), (23, 4), (27, 2)], 9, 9),
    ];
    places(runtime, &table);
}

fn word_12_in_phase_2(runtime: &dyn Runtime) {
    let table: [Places; 9] = [
        // "At most Q needs no other word".
        (2, &[(12, 4), (14, 4)], 12, 12),
        (2, &[(12, 4), (15, 4)], 12, 12),
        (2, &[(12, 65535), (14, 65535), (15, 65535)], 12, 12),
        (2, &[(9, 2), (10, 1), (11, 4), (12, 4), (14, 4), (15, 4)], 9, 9),
        // "The rest needs 14 and 15": 2 is neither 3 nor the slot after it.
        (2, &[(12, 2), (14, 4)], 14, 14),
        (2, &[(12, 2), (15, 4)], 15, 15),
        (2, &[(12, 2), (27, 2)], 12, 12),
        // "The slot after it with the queue not empty": 14 and 15 are 3.
        (2, &[(15, 3), (21, 4)], 12, 12),
        (2, &[(15, 3), (11, 4)], 11, 11),
    ];
    places(runtime, &table);
}

/// What a boot names, and what a step answers that uses one word, on this device.
type Used<'a> = (usize, &'a [(usize, u16)], u16, Place, Answer);

fn the_word_that_a_step_uses(runtime: &dyn Runtime) {
    let no_body = |commit: u16| Place::NoBody { commit };
    let running = |body: Body| Place::Running { body, instruction: 0, ending: 0 };
    let (task, event) = (running(Body::Task(0)), running(Body::Event(0)));
    let table: [Used; 13] = [
        // The record at head is in slot 3, the lowest in slot 0. Slots 1 and 2 don't wait.
        (0, &[(33, 2), (27, 2)], 27, no_body(0), refused_at(7, 33, 0)),
        (0, &[(16, 2), (33, 2), (27, 2)], 27, event, refused_at(7, 33, 0)),
        (0, &[(29, 2), (31, 2), (33, 2)], 33, no_body(0), refused_at(7, 33, 0)),
        (0, &[(27, 2)], 27, no_body(0), Answer::Chosen(Body::Event(0))),
        // Word 10 by the row of task 9: choosing reads none, the task's first instruction does.
        (0, &[(10, 6), (27, 2), (33, 2)], 10, no_body(0), Answer::Chosen(Body::Task(0))),
        (0, &[(10, 6), (16, 1), (27, 2), (33, 2)], 10, task, refused_at(7, 10, 0)),
        (0, &[(16, 1), (27, 2), (33, 2)], 27, task, Answer::Stored),
        // "The first n log addresses below M", of which a step copies one; the third isn't among them.
        (1, &[(13, 6), (21, 4), (23, 4), (27, 2)], 13, no_body(0), refused_at(7, 21, 0)),
        (1, &[(13, 6), (21, 4), (23, 4), (27, 2)], 13, no_body(1), refused_at(7, 23, 0)),
        (1, &[(13, 6), (21, 4), (23, 4), (27, 2)], 13, no_body(2), Answer::Stored),
        (1, &[(21, 4), (23, 65535), (25, 4)], 21, no_body(1), refused_at(7, 23, 0)),
        (2, &[(23, 4), (27, 2)], 23, no_body(1), refused_at(7, 23, 0)),
        // In phase 2 the records start at word 12.
        (2, &[(25, 4), (27, 65535), (33, 2)], 27, no_body(1), Answer::Stored),
    ];
    for (phase, words, at_boot, place, answer) in table {
        let mut bench = damaged(runtime, phase, words);
        assert_eq!(bench.boot(), refused_at(7, at_boot, 0), "boot, phase {phase}, {words:?}");
        bench.device = Device { place, ..Device::ON };
        // A post uses none of these words.
        let device = bench.device;
        assert_eq!(bench.post(0, 9), Answer::Done, "post, phase {phase}, {words:?}, {place:?}");
        bench.device = device;
        assert_eq!(bench.step(), answer, "step, phase {phase}, {words:?}, {place:?}");
    }
    // A run meets the second pair after a step; word 13 isn't used.
    let Bench { program, mut store, mut device, mut totals, .. } = damaged(runtime, 1, &[(13, 6), (23, 4), (27, 2)]);
    let end = End::Refused(Refusal { number: 7, place: (23, 0) });
    assert_eq!(runtime.run(&program, &mut store, &mut device, &mut totals, 9), RunAnswer { steps: 1, end });
}

fn an_event_ends_with_done_only(runtime: &dyn Runtime) {
    assert_eq!(runtime.check(&with(&[(24, GO * 256)])), refused_at(5, 1, 1));
    assert_eq!(runtime.check(&with(&[(20, DONE * 256)])), refused_at(5, 0, 4));
}

/// The cases by name.
pub const CASES: [(&str, fn(&dyn Runtime)); 64] = [
    ("accepted and lengths", accepted_and_lengths),
    ("tasks and last instruction", tasks_and_last_instruction),
    ("load address", load_address),
    ("nine steps and ten", nine_steps_and_ten),
    ("each of fifteen steps", each_of_fifteen_steps),
    ("post and three steps", post_and_three_steps),
    ("post while a handler is at work", post_while_a_handler_is_at_work),
    ("cut after the head store", cut_after_the_head_store),
    ("shift right", shift_right),
    ("less than", less_than),
    ("index out of range", index_out_of_range),
    ("log of one pair", log_of_one_pair),
    ("store of 25 words", store_of_25_words),
    ("formatting", formatting),
    ("budgets", budgets),
    ("the largest budget", the_largest_budget),
    ("totals stay at the largest value", totals_stay_at_the_largest_value),
    ("words that are no device", words_that_are_no_device),
    ("the lowest of several words", the_lowest_of_several_words),
    ("word 12 in phase 2", word_12_in_phase_2),
    ("the word that a step uses", the_word_that_a_step_uses),
    ("an event ends with done only", an_event_ends_with_done_only),
    ("a begun task is taken up", begun::a_begun_task_is_taken_up),
    ("a begun event is taken up", begun::a_begun_event_is_taken_up),
    ("nothing is taken up in a commit", begun::nothing_is_taken_up_in_a_commit),
    ("the rules of word 16", begun::the_rules_of_word_16),
    ("the device and word 16", begun::the_device_and_word_16),
    ("a last store that leaves word 16", begun::a_last_store_that_leaves_word_16),
    ("right line tables", lines::right_tables),
    ("wrong rows of a line table", lines::wrong_rows),
    ("the 65th row of a line table", lines::the_65th_row),
    ("uncovered levels", lines::uncovered_levels),
    ("levels covered twice", lines::levels_covered_twice),
    ("gaps before overlaps", lines::gaps_before_overlaps),
    ("what a raise posts", lines::what_a_raise_posts),
    ("what a raise meets first", lines::what_a_raise_meets_first),
    ("a raise without a device", lines::a_raise_without_a_device),
    ("the stores of a burst", bursts::the_stores_of_a_burst),
    ("a burst round the ring", bursts::a_burst_round_the_ring),
    ("a burst is served in order", bursts::a_burst_is_served_in_order),
    ("a cut in a burst", bursts::a_cut_in_a_burst),
    ("a post is a burst of one", bursts::a_post_is_a_burst_of_one),
    ("lengths of a burst", bursts::lengths_of_a_burst),
    ("events of a burst", bursts::events_of_a_burst),
    ("room for a burst", bursts::room_for_a_burst),
    ("room in an event's commit", bursts::room_in_an_events_commit),
    ("a handler unlike its store", bursts::a_handler_unlike_its_store),
    ("the accepted total", bursts::the_accepted_total),
    ("words that are no handler", bursts::words_that_are_no_handler),
    ("a full queue drops its oldest", drops::a_full_queue_drops_its_oldest),
    ("drops round the ring", drops::drops_round_the_ring),
    ("events that remain run in order", drops::events_that_remain_run_in_order),
    ("a cut while a record is dropped", drops::a_cut_while_a_record_is_dropped),
    ("full once an event has begun", drops::full_once_an_event_has_begun),
    ("where a post drops", drops::where_a_post_drops),
    ("a drop where a task has begun", drops::a_drop_where_a_task_has_begun),
    ("longer bursts drop nothing", drops::longer_bursts_drop_nothing),
    ("refused calls before the head store", drops::refused_calls_before_the_head_store),
    ("a handler about to drop unlike its store", drops::a_handler_about_to_drop_unlike_its_store),
    ("a handler that has dropped unlike its store", drops::a_handler_that_has_dropped_unlike_its_store),
    ("the record to drop", drops::the_record_to_drop),
    ("the dropped record when it is named", drops::the_dropped_record_when_it_is_named),
    ("the accepted total of replaced records", drops::the_accepted_total_of_replaced_records),
    ("words that are no handler that drops", drops::words_that_are_no_handler_that_drops),
];

/// Every case on an implementation. Whether all hold.
pub fn all(runtime: &dyn Runtime) -> bool {
    let before = std::panic::take_hook();
    std::panic::set_hook(Box::new(|what| println!("{what}")));
    let mut well = true;
    for (name, case) in CASES {
        let held = std::panic::catch_unwind(std::panic::AssertUnwindSafe(|| case(runtime)));
        if held.is_err() {
            println!("FAILED: case {name}");
            well = false;
        }
    }
    std::panic::set_hook(before);
    well
}
