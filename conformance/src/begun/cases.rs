//! Word 16 with fixed answers, worked out by hand from request N4, for any implementation.

use crate::cases::{damaged, places, refused, refused_at, Bench, Places};
use crate::runtime::*;

const TASK: Body = Body::Task(0);
const EVENT: Body = Body::Event(0);

/// A body at its first instruction, with this in register 0.
fn at_first(body: Body, datum: u16) -> Device {
    let mut device = Device { place: Place::Running { body, instruction: 0, ending: 0 }, ..Device::ON };
    device.registers[0] = datum;
    device
}

/// A cut and a boot, which leave the store as it is.
fn cut_and_boot(bench: &mut Bench) {
    let before = bench.store.clone();
    bench.cut();
    assert_eq!(bench.boot(), Answer::Done);
    assert_eq!(bench.store, before);
}

pub fn a_begun_task_is_taken_up(runtime: &dyn Runtime) {
    let mut bench = Bench::counting(runtime);
    assert_eq!(bench.whole_step(), StepAnswer { answer: Answer::Chosen(TASK), stored: Some(16) });
    assert_eq!(bench.store[16], 1);
    // "An event accepted while a task is begun now runs after that task, cut or no cut."
    assert_eq!(bench.post(0, 7), Answer::Done);
    assert_eq!(bench.steps(3), Answer::Accepted(None));
    for steps in [0, 1, 5, 8] {
        bench.steps(steps);
        cut_and_boot(&mut bench);
        assert_eq!(bench.device, at_first(TASK, 0));
    }
    assert_eq!(bench.steps(9), Answer::Committed(TASK));
    assert_eq!(bench.recover(), 5);
    assert_eq!((bench.store[16], bench.memory()), (0, &[1, 0][..]));
    assert_eq!(bench.step(), Answer::Chosen(EVENT));
    // Choosing; a post's; a pair; a pair and 11 to 13; a pair, 11 to 13 and 8; recovery; choosing.
    assert_eq!(bench.totals, Totals { committed: 1, accepted: 1, stores: 1 + 3 + 2 + 5 + 6 + 5 + 1 });
}

pub fn a_begun_event_is_taken_up(runtime: &dyn Runtime) {
    let mut bench = Bench::counting(runtime);
    bench.post(0, 7);
    bench.steps(3);
    assert_eq!(bench.whole_step(), StepAnswer { answer: Answer::Chosen(EVENT), stored: Some(16) });
    assert_eq!(bench.store[16], 2);
    for steps in [0, 1, 2, 4] {
        bench.steps(steps);
        cut_and_boot(&mut bench);
        assert_eq!(bench.device, at_first(EVENT, 7));
    }
    assert_eq!(bench.steps(5), Answer::Committed(EVENT));
    // One copy, 14, 16 and 8.
    let stored: Vec<Option<u16>> = (0..4).map(|_| bench.whole_step().stored).collect();
    assert_eq!(stored, [18, 14, 16, 8].map(Some));
    assert_eq!((bench.store[16], bench.memory()), (0, &[0, 7][..]));
    cut_and_boot(&mut bench);
    assert_eq!(bench.device, Device::ON);
    assert_eq!(bench.step(), Answer::Chosen(TASK));
}

pub fn nothing_is_taken_up_in_a_commit(runtime: &dyn Runtime) {
    for phase in [1, 2] {
        for begun in [0, 1, 2] {
            // Records wait; and none does, with word 12 at head.
            for words in [vec![(16, begun)], vec![(12, 3 - 3 * (phase % 2) as u16), (15, 3), (16, begun)]] {
                let mut bench = damaged(runtime, phase, &words);
                assert_eq!(bench.post(0, 7), Answer::Done);
                cut_and_boot(&mut bench);
                assert_eq!(bench.device, Device::ON);
                // Two copies, 9 and 10 or 14, and then 0 in word 16, whatever was in it.
                bench.steps(if phase == 1 { 4 } else { 3 });
                assert_eq!(bench.store[16], begun);
                assert_eq!(bench.whole_step(), StepAnswer { answer: Answer::Stored, stored: Some(16) });
                assert_eq!(bench.store[16], 0);
                assert_eq!(bench.whole_step(), StepAnswer { answer: Answer::Stored, stored: Some(8) });
            }
        }
    }
}

pub fn the_rules_of_word_16(runtime: &dyn Runtime) {
    let table: [Places; 25] = [
        // "Word 16 at most 2", in every phase.
        (0, &[(16, 3)], 16, 16),
        (1, &[(16, 3)], 16, 16),
        (2, &[(16, 65535)], 16, 16),
        // "In phase 0 a 2 needs a queue not empty": 14 and 15 are 3.
        (0, &[(15, 3), (16, 2)], 16, 16),
        // ".. and word 10 at 0": 5 is task 0's number, 6 isn't, which a step doesn't look at first.
        (0, &[(10, 5), (16, 2)], 16, 16),
        (0, &[(10, 5), (15, 3), (16, 2)], 16, 16),
        (0, &[(10, 6), (16, 2)], 10, 16),
        (0, &[(10, 6), (16, 3)], 10, 16),
        // It needs 8, 14 and 15.
        (0, &[(8, 3), (15, 3), (16, 2)], 8, 8),
        (0, &[(14, 4), (16, 2)], 14, 14),
        (0, &[(10, 5), (15, 4), (16, 2)], 15, 15),
        // With each other word.
        (0, &[(8, 3), (16, 3)], 8, 8),
        (0, &[(9, 2), (16, 3)], 9, 9),
        (0, &[(9, 2), (15, 3), (16, 2)], 9, 9),
        (2, &[(10, 5), (16, 3)], 10, 10),
        (1, &[(11, 4), (16, 3)], 11, 11),
        (1, &[(12, 2), (16, 3)], 12, 12),
        (2, &[(12, 4), (16, 3)], 12, 12),
        (1, &[(13, 6), (16, 3)], 13, 16),
        (0, &[(14, 4), (16, 3)], 14, 14),
        (1, &[(15, 4), (16, 3)], 15, 15),
        (2, &[(15, 4), (16, 3)], 15, 15),
        (0, &[(16, 3), (27, 2)], 16, 16),
        (1, &[(16, 3), (21, 4)], 16, 16),
        (2, &[(16, 3), (23, 4), (27, 2)], 16, 16),
    ];
    places(runtime, &table);
}

pub fn the_device_and_word_16(runtime: &dyn Runtime) {
    // What word 16 says and what runs. The record at head is event 0's.
    let devices = [Device::ON, at_first(TASK, 0), at_first(EVENT, 0)];
    let handler = Some(Handler::single(1, 5));
    for begun in 0..3 {
        for (runs, device) in devices.iter().enumerate() {
            let bench = |device: Device| Bench { device, ..damaged(runtime, 0, &[(16, begun as u16)]) };
            let steps = [Answer::Chosen(EVENT), Answer::Stored, Answer::Stored];
            let answer = |right: Answer| if runs == begun { right } else { refused(25) };
            assert_eq!(bench(*device).post(0, 9), answer(Answer::Done), "runs {runs}, word 16 {begun}");
            assert_eq!(bench(*device).step(), answer(steps[runs]), "runs {runs}, word 16 {begun}");
            let busy = Device { handler, ..*device };
            assert_eq!(bench(busy).step(), answer(Answer::Stored), "runs {runs}, word 16 {begun}");
            assert_eq!(bench(busy).post(0, 9), answer(refused(20)), "runs {runs}, word 16 {begun}");
        }
        let mut off = Bench { device: Device::OFF, ..damaged(runtime, 0, &[(16, begun as u16)]) };
        assert_eq!((off.step(), off.post(0, 9)), (refused(22), refused(22)));
        assert_eq!(off.boot(), Answer::Done);
        assert_eq!(off.device, devices[begun]);
    }
    // Which event runs is looked at late, by a step alone.
    let mut other = Bench { device: at_first(Body::Event(1), 0), ..damaged(runtime, 0, &[(16, 2)]) };
    assert_eq!(other.step(), refused(25));
    assert_eq!(other.post(0, 9), Answer::Done);
}

pub fn a_last_store_that_leaves_word_16(runtime: &dyn Runtime) {
    // Two pairs: the last store is the sixth of phase 1 and the fifth of phase 2.
    let at_last = |phase: usize, words: &[(usize, u16)]| {
        let device = Device { place: Place::NoBody { commit: if phase == 1 { 5 } else { 4 } }, ..Device::ON };
        Bench { device, ..damaged(runtime, phase, words) }
    };
    // In phase 2 the record in slot 0 is next, so a 2 stands; without records it doesn't.
    let table: [(usize, &[(usize, u16)], Answer, Answer); 5] = [
        (1, &[(16, 1)], refused(25), Answer::Done),
        (1, &[(16, 2)], refused(25), Answer::Done),
        (2, &[(16, 1)], refused(25), Answer::Done),
        (2, &[(16, 2)], refused(25), Answer::Done),
        (1, &[(15, 3), (16, 2)], refused_at(7, 16, 0), refused_at(7, 16, 0)),
    ];
    for (phase, words, after, at_boot) in table {
        let mut bench = at_last(phase, words);
        assert_eq!(bench.whole_step(), StepAnswer { answer: Answer::Stored, stored: Some(8) });
        assert_eq!((bench.step(), bench.post(0, 9)), (after, after), "phase {phase}, {words:?}");
        bench.cut();
        assert_eq!(bench.boot(), at_boot, "phase {phase}, {words:?}");
        let mut run = at_last(phase, words);
        let Bench { program, store, device, totals, .. } = &mut run;
        let Answer::Refused(refusal) = after else { unreachable!("refused") };
        let expected = RunAnswer { steps: 1, end: End::Refused(refusal) };
        assert_eq!(runtime.run(program, store, device, totals, 9), expected, "phase {phase}, {words:?}");
    }
}
