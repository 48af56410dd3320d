//! An implementation behind C functions: plain pointers and words on one side, the trait on the other. Nothing
//! is linked here; whoever has the functions, from a static library say, fills in `Functions`.
//!
//! The shapes are those of include/runtime.h. A device is 26 words (`Device::to_words`), totals are three 32-bit
//! numbers (committed, accepted, stores). An answer is five words: case, kind of body (0 task, 1 event), number,
//! and a place of two words. Cases: 0 done, 1 chosen, 2 worked, 3 stored, 4 committed, 5 accepted, 6 refused,
//! 7 spent (of a run), 8 no device, 9 nothing posted (of a raise). Behind accepted come whether a record was dropped
//! (1, or 0), its event and its data. Words that a case doesn't have are 0. A step's answer has a sixth word: the index
//! of the word that it stored, or `NO_STORE`.

use crate::runtime::*;
use crate::scenario::{Call, Outcome};

pub const ANSWER_WORDS: usize = 5;

pub const STEP_WORDS: usize = 6;

/// In the place of a word's index: no word was stored.
pub const NO_STORE: u16 = 65535;

#[derive(Clone, Copy)]
pub struct Functions {
    /// program, its length, answer
    pub check: unsafe extern "C" fn(*const u16, usize, *mut u16),
    /// program, its length, L, Q, store, its length, answer
    pub format: unsafe extern "C" fn(*const u16, usize, u16, u16, *mut u16, usize, *mut u16),
    /// program, its length, store, its length, device, answer
    pub boot: unsafe extern "C" fn(*const u16, usize, *mut u16, usize, *mut u16, *mut u16),
    /// program, its length, store, its length, device, totals, answer of six words
    pub step: unsafe extern "C" fn(*const u16, usize, *mut u16, usize, *mut u16, *mut u32, *mut u16),
    /// program, its length, store, its length, device, event, datum, answer
    pub post: unsafe extern "C" fn(*const u16, usize, *mut u16, usize, *mut u16, u16, u16, *mut u16),
    /// program, its length, store, its length, device, count, burst of eight words, answer
    pub burst: unsafe extern "C" fn(*const u16, usize, *mut u16, usize, *mut u16, u16, *const u16, *mut u16),
    /// device, answer
    pub cut: unsafe extern "C" fn(*mut u16, *mut u16),
    /// program, its length, store, its length, device, totals, budget, answer; the steps made
    pub run: unsafe extern "C" fn(*const u16, usize, *mut u16, usize, *mut u16, *mut u32, u32, *mut u16) -> u32,
    /// table, its length, answer
    pub lines_check: unsafe extern "C" fn(*const u16, usize, *mut u16),
    /// program, its length, store, its length, device, table, its length, line, level, answer
    pub raise: Raise,
}

pub type Raise =
    unsafe extern "C" fn(*const u16, usize, *mut u16, usize, *mut u16, *const u16, usize, u16, u16, *mut u16);

/// Numbers that no call returns. They stand for words that are no answer of the call, for words that come back
/// and are no device, and for a word written outside device, totals or answer, or in the table or the burst.
pub const NO_ANSWER: u16 = 65535;
pub const BAD_DEVICE: u16 = 65534;
pub const OUTSIDE: u16 = 65533;

/// What stands before and behind the lent words and, before a call, in the answer.
const GUARD: u16 = 0xA5C3;

pub struct Foreign {
    pub functions: Functions,
}

pub fn answer_words(answer: &Answer) -> [u16; ANSWER_WORDS] {
    let body_words = |case: u16, body: &Body| match body {
        Body::Task(number) => [case, 0, *number, 0, 0],
        Body::Event(number) => [case, 1, *number, 0, 0],
    };
    match answer {
        Answer::Done => [0; 5],
        Answer::Chosen(body) => body_words(1, body),
        Answer::Worked => [2, 0, 0, 0, 0],
        Answer::Stored => [3, 0, 0, 0, 0],
        Answer::Committed(body) => body_words(4, body),
        Answer::Accepted(None) => [5, 0, 0, 0, 0],
        Answer::Accepted(Some((event, datum))) => [5, 1, *event, *datum, 0],
        Answer::Refused(refusal) => [6, 0, refusal.number, refusal.place.0, refusal.place.1],
        Answer::NoDevice => [8, 0, 0, 0, 0],
        Answer::NothingPosted => [9, 0, 0, 0, 0],
    }
}

pub fn step_words(step: &StepAnswer) -> [u16; STEP_WORDS] {
    let [case, kind, number, first, second] = answer_words(&step.answer);
    [case, kind, number, first, second, step.stored.unwrap_or(NO_STORE)]
}

pub fn end_words(end: &End) -> [u16; ANSWER_WORDS] {
    match end {
        End::Spent => [7, 0, 0, 0, 0],
        End::Refused(refusal) => answer_words(&Answer::Refused(*refusal)),
        End::NoDevice => answer_words(&Answer::NoDevice),
    }
}

fn wrong(number: u16, words: &[u16]) -> Refusal {
    Refusal { number, place: (words[0], words[1]) }
}

/// The answer of these words, or none.
pub fn answer_from_words(words: &[u16; ANSWER_WORDS]) -> Option<Answer> {
    let body = if words[1] == 0 { Body::Task(words[2]) } else { Body::Event(words[2]) };
    let answer = match words[0] {
        0 => Answer::Done,
        1 => Answer::Chosen(body),
        2 => Answer::Worked,
        3 => Answer::Stored,
        4 => Answer::Committed(body),
        5 => Answer::Accepted((words[1] != 0).then_some((words[2], words[3]))),
        6 => Answer::Refused(Refusal { number: words[2], place: (words[3], words[4]) }),
        8 => Answer::NoDevice,
        _ => Answer::NothingPosted,
    };
    (answer_words(&answer) == *words).then_some(answer)
}

fn end_from_words(words: &[u16; ANSWER_WORDS]) -> Option<End> {
    if *words == end_words(&End::Spent) {
        return Some(End::Spent);
    }
    match answer_from_words(words)? {
        Answer::Refused(refusal) => Some(End::Refused(refusal)),
        Answer::NoDevice => Some(End::NoDevice),
        _ => None,
    }
}

/// A call's table with a guard before and behind it; nothing for a call without one.
fn guarded(call: &Call) -> Vec<u16> {
    call.table().map(|table| [&[GUARD], &table[..], &[GUARD]].concat()).unwrap_or_default()
}

/// What is lent to a call besides program and store, each with a guard before and behind it.
struct Lent {
    device: [u16; DEVICE_WORDS + 2],
    totals: [u32; 5],
    answer: [u16; STEP_WORDS + 2],
    table: Vec<u16>,
    burst: [u16; BURST_WORDS + 2],
}

/// A call's burst with a guard before and behind it; guards alone for a call without one.
fn guarded_burst(call: &Call) -> [u16; BURST_WORDS + 2] {
    let mut lent = [GUARD; BURST_WORDS + 2];
    if let Call::Burst { words, .. } = call {
        lent[1..=BURST_WORDS].copy_from_slice(words);
    }
    lent
}

impl Lent {
    fn new(call: &Call, words: &[u16; DEVICE_WORDS], totals: &Totals) -> Lent {
        let mut device = [GUARD; DEVICE_WORDS + 2];
        device[1..=DEVICE_WORDS].copy_from_slice(words);
        let Totals { committed, accepted, stores } = *totals;
        let totals = [GUARD as u32, committed, accepted, stores, GUARD as u32];
        let burst = guarded_burst(call);
        Lent { device, totals, answer: [GUARD; STEP_WORDS + 2], table: guarded(call), burst }
    }

    /// Make the call; of a run, the steps made.
    fn call(&mut self, functions: &Functions, call: &Call, program: &[u16], store: &mut [u16]) -> Option<u32> {
        let Functions { check, format, boot, step, post, burst, cut, run, lines_check, raise } = *functions;
        let (code, length) = (program.as_ptr(), program.len());
        let (words, many) = (store.as_mut_ptr(), store.len());
        let (table, table_length) = (self.table.as_ptr().wrapping_add(1), self.table.len().saturating_sub(2));
        // Safety: the pointers are those of slices and arrays that live through the call, with their lengths.
        unsafe {
            let d = self.device.as_mut_ptr().add(1);
            let t = self.totals.as_mut_ptr().add(1);
            let answer = self.answer.as_mut_ptr().add(1);
            match call {
                Call::Check => check(code, length, answer),
                Call::Format { log_pairs, queue_records } => {
                    format(code, length, *log_pairs, *queue_records, words, many, answer)
                }
                Call::Boot => boot(code, length, words, many, d, answer),
                Call::Step => step(code, length, words, many, d, t, answer),
                Call::Post { event, datum } => post(code, length, words, many, d, *event, *datum, answer),
                Call::Burst { count, .. } => {
                    burst(code, length, words, many, d, *count, self.burst.as_ptr().add(1), answer)
                }
                Call::Cut => cut(d, answer),
                Call::Run { budget } => return Some(run(code, length, words, many, d, t, *budget, answer)),
                Call::LinesCheck { .. } => lines_check(table, table_length, answer),
                Call::Raise { line, level, .. } => {
                    raise(code, length, words, many, d, table, table_length, *line, *level, answer)
                }
                _ => unreachable!("a change isn't a call"),
            }
        }
        None
    }

    /// Whether a word outside was written, or one of the table or the burst.
    fn outside(&self, call: &Call) -> bool {
        let told = if *call == Call::Step { STEP_WORDS } else { ANSWER_WORDS };
        let guards = [self.device[0], self.device[DEVICE_WORDS + 1], self.answer[0], self.answer[told + 1]];
        guards != [GUARD; 4]
            || [self.totals[0], self.totals[4]] != [GUARD as u32; 2]
            || (call.table().is_some() && self.table != guarded(call))
            || self.burst != guarded_burst(call)
    }
}

impl Foreign {
    /// A call on flat words, whatever they are.
    fn flat(
        &self,
        call: &Call,
        program: &[u16],
        store: &mut [u16],
        device: &mut [u16; DEVICE_WORDS],
        totals: &mut Totals,
    ) -> Outcome {
        let mut lent = Lent::new(call, device, totals);
        let steps = lent.call(&self.functions, call, program, store);
        device.copy_from_slice(&lent.device[1..=DEVICE_WORDS]);
        *totals = Totals { committed: lent.totals[1], accepted: lent.totals[2], stores: lent.totals[3] };
        let outside = lent.outside(call);
        let mut answer = [0; ANSWER_WORDS];
        answer.copy_from_slice(&lent.answer[1..=ANSWER_WORDS]);
        let stored = (lent.answer[STEP_WORDS] != NO_STORE).then_some(lent.answer[STEP_WORDS]);
        let single = |answer: Answer| match call {
            Call::Step => Outcome::Step(StepAnswer { answer, stored }),
            _ => Outcome::Answer(answer),
        };
        match steps {
            None if outside => single(Answer::Refused(wrong(OUTSIDE, &answer))),
            None => single(answer_from_words(&answer).unwrap_or(Answer::Refused(wrong(NO_ANSWER, &answer)))),
            Some(steps) if outside => {
                Outcome::Run(RunAnswer { steps, end: End::Refused(wrong(OUTSIDE, &answer)) })
            }
            Some(steps) => {
                let end = end_from_words(&answer).unwrap_or(End::Refused(wrong(NO_ANSWER, &answer)));
                Outcome::Run(RunAnswer { steps, end })
            }
        }
    }

    /// A call on a device; the words that come back must be a device's.
    fn valued(
        &self,
        call: &Call,
        program: &[u16],
        store: &mut [u16],
        device: &mut Device,
        totals: &mut Totals,
    ) -> Outcome {
        let mut words = device.to_words();
        let outcome = self.flat(call, program, store, &mut words, totals);
        let bad = Refusal { number: BAD_DEVICE, place: (0, 0) };
        match (Device::from_words(&words), outcome) {
            (Some(new), _) => {
                *device = new;
                outcome
            }
            (None, Outcome::Answer(_)) => Outcome::Answer(Answer::Refused(bad)),
            (None, Outcome::Step(step)) => Outcome::Step(StepAnswer { answer: Answer::Refused(bad), ..step }),
            (None, Outcome::Run(answer)) => Outcome::Run(RunAnswer { end: End::Refused(bad), ..answer }),
        }
    }

    fn answer(
        &self,
        call: &Call,
        program: &[u16],
        store: &mut [u16],
        device: &mut Device,
        totals: &mut Totals,
    ) -> Answer {
        self.valued(call, program, store, device, totals).answer().expect("only a run answers as one")
    }
}

impl Runtime for Foreign {
    fn check(&self, program: &[u16]) -> Answer {
        self.answer(&Call::Check, program, &mut [], &mut Device::OFF.clone(), &mut Totals::default())
    }

    fn format(&self, program: &[u16], log_pairs: u16, queue_records: u16, store: &mut [u16]) -> Answer {
        let call = Call::Format { log_pairs, queue_records };
        self.answer(&call, program, store, &mut Device::OFF.clone(), &mut Totals::default())
    }

    fn boot(&self, program: &[u16], store: &mut [u16], device: &mut Device) -> Answer {
        self.answer(&Call::Boot, program, store, device, &mut Totals::default())
    }

    fn step(&self, program: &[u16], store: &mut [u16], device: &mut Device, totals: &mut Totals) -> StepAnswer {
        match self.valued(&Call::Step, program, store, device, totals) {
            Outcome::Step(step) => step,
            _ => unreachable!("a step answers as one"),
        }
    }

    fn post(&self, program: &[u16], store: &mut [u16], device: &mut Device, event: u16, datum: u16) -> Answer {
        self.answer(&Call::Post { event, datum }, program, store, device, &mut Totals::default())
    }

    fn burst(
        &self,
        program: &[u16],
        store: &mut [u16],
        device: &mut Device,
        count: u16,
        words: &BurstWords,
    ) -> Answer {
        self.answer(&Call::Burst { count, words: *words }, program, store, device, &mut Totals::default())
    }

    fn cut(&self, device: &mut Device) -> Answer {
        self.answer(&Call::Cut, &[], &mut [], device, &mut Totals::default())
    }

    fn run(
        &self,
        program: &[u16],
        store: &mut [u16],
        device: &mut Device,
        totals: &mut Totals,
        budget: u32,
    ) -> RunAnswer {
        match self.valued(&Call::Run { budget }, program, store, device, totals) {
            Outcome::Run(answer) => answer,
            _ => unreachable!("a run answers as one"),
        }
    }

    fn lines_check(&self, table: &[u16]) -> Answer {
        let call = Call::LinesCheck { table: table.into() };
        self.answer(&call, &[], &mut [], &mut Device::OFF.clone(), &mut Totals::default())
    }

    fn raise(
        &self,
        program: &[u16],
        store: &mut [u16],
        device: &mut Device,
        table: &[u16],
        line: u16,
        level: u16,
    ) -> Answer {
        let call = Call::Raise { table: table.into(), line, level };
        self.answer(&call, program, store, device, &mut Totals::default())
    }

    fn stray(
        &self,
        call: &Call,
        program: &[u16],
        store: &mut [u16],
        words: &mut [u16; DEVICE_WORDS],
        totals: &mut Totals,
    ) -> Outcome {
        self.flat(call, program, store, words, totals)
    }
}
