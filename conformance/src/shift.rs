//! Request N5, SHR: every word by every k on both sides, by a step and by a run, and every other k, which is refused. The
//! sides are compared after every call, and each is held against an arithmetic shift, so that a mistake of both shows,
//! too. Beside it what must come up, and what SHR comes to by each mistake about it.

pub mod mutants;
pub mod situations;

use crate::cases::one_task;
use crate::compare::{self, Counts, Difference, Pair};
use crate::reference::{ADD, GO, JUMP, JZ, MOV, SAVE, SET, SHR};
use crate::runtime::*;
use crate::scenario::{call_text, outcome_text, Call, Machine, Outcome, Scenario, LARGE_BUDGET};
use crate::selfrun;
use situations::{Shifts, SHIFTS, WORDS};
use std::iter::{once, repeat_n};

// ---------------------------------------------------------------------------------------------------------
// The calls

/// The registers: 1, which is added; the word; and the copy of it that is shifted.
const ONE: u16 = 0;
const WORD: u16 = 1;
const COPY: u16 = 2;

/// One task, which goes through all words and shifts a copy of each by each k.
fn every_word() -> Vec<u16> {
    let mut code = vec![(SET, ONE, 0, 1)];
    code.extend((0..SHIFTS as u16).flat_map(|k| [(MOV, COPY, WORD, 0), (SHR, COPY, 0, k)]));
    let end = code.len() as u16 + 3;
    code.extend([(ADD, WORD, ONE, 0), (JZ, WORD, 0, end), (JUMP, 0, 0, 1), (GO, 0, 0, 0)]);
    one_task(1, &code)
}

/// The steps for one word: its copies and shifts, then ADD, JZ and JUMP; for the last word, in the place of JUMP, the first
/// of the eight stores that end the task.
pub const ROUND: usize = 2 * SHIFTS + 3;

fn start() -> impl Iterator<Item = Call> {
    [Call::Check, Call::Format { log_pairs: 1, queue_records: 1 }, Call::Boot].into_iter()
}

/// The whole task by steps: it is chosen, SET, a round for each word, stores.
pub fn by_steps() -> impl Iterator<Item = Call> {
    start().chain(repeat_n(Call::Step, 2 + WORDS * ROUND + 7))
}

/// The same by runs. Each but the first and the last ends with a shift or with a round.
pub fn by_runs() -> impl Iterator<Item = Call> {
    let run = |budget: u32| Call::Run { budget };
    let round = move |_| repeat_n(run(2), SHIFTS).chain(once(run(3)));
    start().chain(once(run(2))).chain((0..WORDS).flat_map(round)).chain(once(run(7)))
}

/// A task whose SHR comes third, after choosing and SET, and the index of its k.
fn one_shift() -> Vec<u16> {
    one_task(1, &[(SET, COPY, 0, 1), (SHR, COPY, 0, 0), (GO, 0, 0, 0)])
}

const K: usize = 12;

/// The calls on a SHR that is refused.
const REFUSED_CALLS: [Call; 3] = [Call::Check, Call::Step, Call::Run { budget: 2 }];

// ---------------------------------------------------------------------------------------------------------
// What they must come to

/// The SHR that a call ends with: its word, its k and its register, and the device that it leaves.
struct Shift {
    word: u16,
    k: u16,
    register: usize,
    left: Device,
}

/// An instruction of the only task.
fn instruction(program: &[u16], index: u16) -> Option<(u16, usize, usize, u16)> {
    let at = program[6] as usize + 2 * index as usize;
    let (word, k) = (*program.get(at)?, *program.get(at + 1)?);
    Some((word / 256, (word / 16 % 16) as usize, (word % 16) as usize, k))
}

impl Shift {
    /// A step's own instruction, or the one behind the MOV that a run of two steps begins with.
    fn of(machine: &Machine, call: &Call) -> Option<Shift> {
        let Place::Running { body, instruction: index, ending: 0 } = machine.device.place else { return None };
        let registers = &machine.device.registers;
        let next = || instruction(&machine.program, index + 1);
        let (steps, register, word, k) = match (call, instruction(&machine.program, index)?) {
            (Call::Step, (SHR, a, _, k)) => (1, a, registers[a], k),
            (Call::Run { budget: 2 }, (MOV, a, b, _)) => match next()? {
                (SHR, same, _, k) if same == a => (2, a, registers[b], k),
                _ => return None,
            },
            _ => return None,
        };
        let place = Place::Running { body, instruction: index + steps, ending: 0 };
        let mut left = Device { place, ..machine.device };
        left.registers[register] = (word as i16 >> k) as u16;
        Some(Shift { word, k, register, left })
    }

    /// A task that shifts this word alone, saves what it becomes and ends: by steps, or by runs.
    fn alone(&self, call: &Call) -> Scenario {
        let code = [(SET, COPY, 0, self.word), (SHR, COPY, 0, self.k), (SAVE, COPY, 0, 0), (GO, 0, 0, 0)];
        let calls = match call {
            Call::Run { .. } => vec![Call::Boot, Call::Run { budget: 3 }, Call::Run { budget: 6 }],
            _ => once(Call::Boot).chain(repeat_n(Call::Step, 9)).collect(),
        };
        list(&one_task(1, &code), calls)
    }
}

/// What a step or a run answers that ends with a shift.
fn shifted_outcome(call: &Call) -> Outcome {
    match call {
        Call::Run { budget } => Outcome::Run(RunAnswer { steps: *budget, end: End::Spent }),
        _ => Outcome::Step(StepAnswer { answer: Answer::Worked, stored: None }),
    }
}

/// What a call answers that meets a SHR with another k, in instruction 1 of body 0.
fn refused_outcome(call: &Call) -> Outcome {
    let refusal = Refusal { number: 5, place: (0, 1) };
    match call {
        Call::Step => Outcome::Step(StepAnswer { answer: Answer::Refused(refusal), stored: None }),
        Call::Run { .. } => Outcome::Run(RunAnswer { steps: 0, end: End::Refused(refusal) }),
        _ => Outcome::Answer(Answer::Refused(refusal)),
    }
}

// ---------------------------------------------------------------------------------------------------------
// The comparison

/// What differs or isn't the paper's, with a list that replays it and where this list fails.
#[derive(Debug)]
pub struct Failure {
    pub what: String,
    pub text: String,
    pub list: Scenario,
    pub difference: Option<Difference>,
}

fn list(program: &[u16], calls: Vec<Call>) -> Scenario {
    let totals = Totals::default();
    Scenario { seed: 0, program: program.to_vec(), log_pairs: 1, queue_records: 1, totals, calls }
}

/// Both sides with the calls made, and what came up.
struct Watch<'a> {
    pair: Pair<'a>,
    /// The steps since the boot.
    steps: u32,
    shifts: &'a mut Shifts,
}

impl<'a> Watch<'a> {
    fn new(first: &'a dyn Runtime, second: &'a dyn Runtime, program: &[u16], shifts: &'a mut Shifts) -> Watch<'a> {
        Watch { pair: Pair::new(first, second, &list(program, Vec::new())), steps: 0, shifts }
    }

    fn compare(&mut self, call: &Call) -> Result<Outcome, Difference> {
        self.shifts.calls += 1;
        self.pair.call(None, call, &mut |_, _, _| ())
    }

    /// A call of the list; where it ends with a shift, also held against that.
    fn call(&mut self, call: &Call) -> Result<(), Box<Failure>> {
        let shift = Shift::of(&self.pair.first.1, call);
        let compared = self.compare(call);
        let devices = [self.pair.first.1.device, self.pair.second.1.device];
        let wrong = match (compared, &shift) {
            (Err(difference), _) => Some(difference.text),
            (Ok(outcome), Some(shift)) if (outcome, devices) != (shifted_outcome(call), [shift.left; 2]) => {
                Some(outcome_text(&outcome))
            }
            _ => None,
        };
        if let Some(text) = wrong {
            return Err(self.failure(call, shift, text));
        }
        if let Some(Shift { word, k, .. }) = shift {
            self.shifts.shifted(call, word, k);
        }
        self.steps += match call {
            Call::Step => 1,
            Call::Run { budget } => *budget,
            _ => 0,
        };
        Ok(())
    }

    /// A call on the SHR of `one_shift` with a k that is refused.
    fn refused(&mut self, call: &Call, k: u16) -> Result<(), Box<Failure>> {
        self.pair.first.1.program[K] = k;
        self.pair.second.1.program[K] = k;
        let expected = refused_outcome(call);
        let text = match self.compare(call) {
            Ok(outcome) if outcome == expected => {
                self.shifts.refused(call, k);
                return Ok(());
            }
            Ok(outcome) => outcome_text(&outcome),
            Err(difference) => difference.text,
        };
        let what = format!("SHR by {k}, {}", call_text(call));
        let text = format!("{} expected; {text}", outcome_text(&expected));
        let change = Call::SetProgram { index: K, word: k };
        let list = list(&one_shift(), vec![Call::Boot, Call::Step, Call::Step, change, call.clone()]);
        Err(Box::new(Failure { what, text, difference: self.driven(&list), list }))
    }

    /// Where a list fails: in the comparison, or, if it is undamaged, on a side alone.
    fn driven(&self, list: &Scenario) -> Option<Difference> {
        let (first, second, mut counts) = (self.pair.first.0, self.pair.second.0, Counts::default());
        let mut driven = compare::drive(first, second, list, &mut counts);
        if list.calls.iter().all(Call::takes_device) {
            driven = driven.and_then(|_| selfrun::drive(first, list, &mut counts));
            driven = driven.and_then(|_| selfrun::drive(second, list, &mut counts));
        }
        driven.err()
    }

    /// The calls up to this one.
    fn until(&self, call: &Call) -> Scenario {
        let run = |budget: u32| Call::Run { budget };
        let whole = repeat_n(run(LARGE_BUDGET), (self.steps / LARGE_BUDGET) as usize);
        let rest = [run(self.steps % LARGE_BUDGET), call.clone()];
        list(&self.pair.first.1.program, once(Call::Boot).chain(whole).chain(rest).collect())
    }

    /// A failure at a call, with the list of its shift alone, where that fails too, else of all calls up to it.
    fn failure(&self, call: &Call, shift: Option<Shift>, text: String) -> Box<Failure> {
        let Some(shift) = shift else {
            let (what, list) = (format!("{}, {} steps after the boot", call_text(call), self.steps), self.until(call));
            return Box::new(Failure { what, text, difference: self.driven(&list), list });
        };
        let devices = [self.pair.first.1.device, self.pair.second.1.device, shift.left];
        let [one, two, right] = devices.map(|device| device.registers[shift.register]);
        let what = format!("SHR of hex {:04X} by {}, {}", shift.word, shift.k, call_text(call));
        let text = format!("first side hex {one:04X}, second side hex {two:04X}, hex {right:04X} expected; {text}");
        let mut list = shift.alone(call);
        let mut difference = self.driven(&list);
        if difference.is_none() {
            list = self.until(call);
            difference = self.driven(&list);
        }
        Box::new(Failure { what, text, list, difference })
    }
}

/// Compare two implementations over calls of the task with every word, and count the words by k that came up.
pub fn shifted(
    first: &dyn Runtime,
    second: &dyn Runtime,
    mut calls: impl Iterator<Item = Call>,
    shifts: &mut Shifts,
) -> Result<(), Box<Failure>> {
    let mut watch = Watch::new(first, second, &every_word(), shifts);
    calls.try_for_each(|call| watch.call(&call))
}

/// Compare them over a SHR with each of these k, which are refused, and count the k that were.
pub fn refused(
    first: &dyn Runtime,
    second: &dyn Runtime,
    mut each_k: impl Iterator<Item = u16>,
    shifts: &mut Shifts,
) -> Result<(), Box<Failure>> {
    let mut watch = Watch::new(first, second, &one_shift(), shifts);
    start().chain(repeat_n(Call::Step, 2)).try_for_each(|call| watch.call(&call))?;
    each_k.try_for_each(|k| REFUSED_CALLS.iter().try_for_each(|call| watch.refused(call, k)))
}

/// How many programs `drive` formats.
pub const PROGRAMS: u64 = 3;

/// Every word by every k, and every other k.
pub fn drive(first: &dyn Runtime, second: &dyn Runtime, shifts: &mut Shifts) -> Result<(), Box<Failure>> {
    shifted(first, second, by_steps(), shifts)?;
    shifted(first, second, by_runs(), shifts)?;
    refused(first, second, SHIFTS as u16..=u16::MAX, shifts)
}
