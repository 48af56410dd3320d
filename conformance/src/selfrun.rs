//! One implementation over an undamaged list: demand 3, bursts whole or not at all, what is dropped, and whose turn it is
//! after every call, at most one store for each step, the totals, run against single steps, and only the refusals that such
//! a list may meet.

use crate::compare::{word_difference, Counts, Difference};
use crate::drops::mutants::Rule;
use crate::reference::PHASE;
use crate::runtime::*;
use crate::scenario::{Call, Machine, Outcome, Scenario};
use crate::serial::{demand_3, Expected, Serial, Whole};
use crate::turn::Turn;

/// Whether an undamaged list may meet this refusal.
fn expected_refusal(call: &Call, number: u16) -> bool {
    match call {
        Call::Boot => number == 26,
        Call::Step => matches!(number, 22..=24),
        Call::Post { .. } => matches!(number, 8 | 20 | 21 | 22),
        Call::Burst { .. } => matches!(number, 8 | 20 | 21 | 22 | 33),
        Call::LinesCheck { .. } => about_the_table(number),
        Call::Raise { .. } => matches!(number, 8 | 20 | 21 | 22) || about_the_table(number),
        _ => false,
    }
}

fn about_the_table(number: u16) -> bool {
    matches!(number, 30..=32)
}

/// Whether a call is one of demand 3's list: a boot, a step, a post or a cut. A raise is where it posts.
fn in_the_list(call: &Call, answer: &Answer) -> bool {
    match (call, answer) {
        (Call::Check | Call::LinesCheck { .. }, _) | (Call::Raise { .. }, Answer::NothingPosted) => false,
        (Call::Raise { .. }, Answer::Refused(refusal)) => !about_the_table(refusal.number),
        _ => true,
    }
}

struct Watch<'a> {
    runtime: &'a dyn Runtime,
    machine: Machine,
    serial: Serial,
    turn: Turn,
    whole: Whole,
    before: Vec<u16>,
    copy: Vec<u16>,
    recovering: bool,
    /// A refusal 23 or 24 that every step repeats until a cut, save for handler steps.
    stuck: Option<Refusal>,
}

/// The number of stores that an answer tells.
fn stores_of(answer: &Answer) -> usize {
    match answer {
        Answer::Chosen(_) | Answer::Stored | Answer::Committed(_) | Answer::Accepted(_) => 1,
        _ => 0,
    }
}

impl<'a> Watch<'a> {
    /// Of a formatted store.
    fn new(runtime: &'a dyn Runtime, machine: Machine, serial: Serial) -> Watch<'a> {
        Watch {
            runtime,
            machine,
            serial,
            turn: Turn::default(),
            whole: Whole::default(),
            before: Vec::new(),
            copy: Vec::new(),
            recovering: false,
            stuck: None,
        }
    }
}

impl Watch<'_> {
    /// Perform one call that isn't a run, and hold it against everything.
    fn call(&mut self, call: &Call, counts: &mut Counts) -> Result<Answer, String> {
        self.before.clear();
        self.before.extend_from_slice(&self.machine.store);
        let Machine { device, totals, .. } = self.machine;
        let phase = self.machine.store[PHASE];
        let Some(outcome) = self.machine.call(self.runtime, call) else {
            return Err("not a call".into());
        };
        let Some(answer) = outcome.answer() else {
            return Err("not a single call".into());
        };
        counts.add(call, &device, phase, self.recovering, &outcome);
        self.hold_stores(&outcome, &answer)?;
        if in_the_list(call, &answer) {
            self.whole.read(call, &answer, &self.machine.store).map_err(|text| format!("{answer:?}: {text}"))?;
        }
        self.hold_totals(&totals, &answer, counts)?;
        self.hold_refusal(call, &device, &answer)?;
        match (call, answer) {
            (Call::Boot, Answer::Done) => self.recovering = phase != 0,
            (Call::Cut, _) => self.recovering = false,
            _ if self.machine.store[PHASE] == 0 => self.recovering = false,
            _ => {}
        }
        self.turn.read(&answer, &self.machine.device, &self.serial)?;
        if in_the_list(call, &answer) {
            self.serial.read(&self.machine.program, call, &answer)?;
        }
        self.demand_3().map_err(|text| format!("{answer:?}: {text}"))?;
        Ok(answer)
    }

    fn demand_3(&mut self) -> Result<(), String> {
        let Machine { program, store, device, .. } = &self.machine;
        let expected = Expected { serial: &self.serial, turn: &self.turn, whole: &self.whole };
        demand_3(self.runtime, program, store, device, expected, &mut self.copy)
    }

    /// At most the one store that the answer tells.
    fn hold_stores(&self, outcome: &Outcome, answer: &Answer) -> Result<(), String> {
        let changed = self.before.iter().zip(&self.machine.store).filter(|(x, y)| x != y).count();
        if changed > stores_of(answer) {
            return Err(format!("{answer:?}: {}", word_difference(&self.before, &self.machine.store)));
        }
        match outcome {
            Outcome::Step(step) => self.told(step, stores_of(answer)),
            _ => Ok(()),
        }
    }

    /// The totals after a call that found these.
    fn hold_totals(&self, totals: &Totals, answer: &Answer, counts: &mut Counts) -> Result<(), String> {
        let mut expected = *totals;
        expected.stores = expected.stores.saturating_add(stores_of(answer) as u32);
        if let Answer::Committed(_) = answer {
            expected.committed = expected.committed.saturating_add(1);
            counts.committed += 1;
        }
        if let Answer::Accepted(_) = answer {
            let length = self.serial.carried().len();
            expected.accepted = expected.accepted.saturating_add(length as u32);
            counts.accepted += length as u64;
        }
        if self.machine.totals != expected {
            return Err(format!("{answer:?}: totals {:?}, {expected:?} expected", self.machine.totals));
        }
        Ok(())
    }

    /// Only the refusals that such a list may meet; after 23 or 24 the same again. The device is as the call found it.
    fn hold_refusal(&mut self, call: &Call, device: &Device, answer: &Answer) -> Result<(), String> {
        if let Answer::Refused(refusal) = answer {
            if !expected_refusal(call, refusal.number) {
                return Err(format!("{refusal:?} on an undamaged list"));
            }
        }
        if matches!(answer, Answer::Refused(_) | Answer::NothingPosted) && self.machine.device != *device {
            return Err(format!("{answer:?} changed the device"));
        }
        if let (Call::Step, None, Some(refusal)) = (call, device.handler, self.stuck) {
            if *answer != Answer::Refused(refusal) {
                return Err(format!("{answer:?} after {refusal:?} without a cut"));
            }
        }
        match (call, answer) {
            (Call::Step, Answer::Refused(refusal)) if refusal.number >= 23 => self.stuck = Some(*refusal),
            (Call::Cut, _) => self.stuck = None,
            _ => {}
        }
        Ok(())
    }

    /// A step tells a word where it made a store, and no other word has changed.
    fn told(&self, step: &StepAnswer, stores: usize) -> Result<(), String> {
        let others = self.before.iter().zip(&self.machine.store).enumerate().filter(|(index, (x, y))| {
            x != y && step.stored != Some(*index as u16)
        });
        if step.stored.is_some() as usize != stores || others.count() > 0 {
            return Err(format!("{step:?}: {}", word_difference(&self.before, &self.machine.store)));
        }
        Ok(())
    }

    /// A run: on a copy whole, then by single steps, which must come to the same.
    fn run(&mut self, budget: u32, counts: &mut Counts) -> Result<(), String> {
        let mut whole = self.machine.clone();
        let call = Call::Run { budget };
        let Some(Outcome::Run(answer)) = whole.call(self.runtime, &call) else {
            return Err("not a run".into());
        };
        counts.add(&call, &self.machine.device, self.machine.store[PHASE], false, &Outcome::Run(answer));
        let mut inner = Counts::default();
        let mut steps = 0;
        let mut end = End::Spent;
        while steps < budget {
            if let Answer::Refused(refusal) = self.call(&Call::Step, &mut inner)? {
                end = End::Refused(refusal);
                break;
            }
            steps += 1;
        }
        counts.committed += inner.committed;
        counts.accepted += inner.accepted;
        if answer != (RunAnswer { steps, end }) {
            return Err(format!("{answer:?}; by single steps {steps}, {end:?}"));
        }
        if whole != self.machine {
            return Err(format!("{answer:?}; run and single steps leave different states"));
        }
        Ok(())
    }
}

/// Drive one implementation over an undamaged scenario.
pub fn drive(runtime: &dyn Runtime, scenario: &Scenario, counts: &mut Counts) -> Result<(), Difference> {
    drive_by(Rule::Right, runtime, scenario, counts)
}

/// The same with a serial run that drops records by this rule.
pub fn drive_by(
    rule: Rule,
    runtime: &dyn Runtime,
    scenario: &Scenario,
    counts: &mut Counts,
) -> Result<(), Difference> {
    counts.scenarios += 1;
    let start = |text: String| Difference { index: None, text };
    let mut machine = Machine::new(scenario);
    let format = Call::Format { log_pairs: scenario.log_pairs, queue_records: scenario.queue_records };
    for call in [Call::Check, format] {
        let outcome = machine.call(runtime, &call).expect("a call of the runtime");
        counts.add(&call, &machine.device, 0, false, &outcome);
        if outcome != Outcome::Answer(Answer::Done) {
            return Err(start(format!("{call:?} answers {outcome:?}")));
        }
    }
    let serial = Serial::by(rule, &machine.program, scenario.queue_records);
    let mut watch = Watch::new(runtime, machine, serial);
    watch.demand_3().map_err(start)?;
    for (index, call) in scenario.calls.iter().enumerate() {
        let result = match watch.machine.affordable(runtime, call) {
            Call::Run { budget } => watch.run(budget, counts),
            _ if call.kind().is_some() => watch.call(call, counts).map(|_| ()),
            _ => Err("a change in an undamaged list".into()),
        };
        result.map_err(|text| Difference { index: Some(index), text })?;
    }
    Ok(())
}
