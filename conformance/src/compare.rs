//! The comparing driver: two implementations perform the same list of calls, and after every call the answer,
//! the store, the device state and the totals must be equal, and after a step the word that it stored. A refused
//! call, one without a device and a raise that posts nothing must have changed nothing. Also the counts of what came up.

use crate::begun::situations::{Begun, Found, Past};
use crate::bursts::situations::{Bursts, Gone};
use crate::drops::situations::{Drops, Trace};
use crate::lines::situations::Lines;
use crate::reference::PHASE;
use crate::runtime::*;
use crate::scenario::{outcome_text, Call, Machine, Outcome, Scenario, CALL_KINDS, CALL_NAMES, LARGE_BUDGET};
use crate::seven::Several;
use crate::shift::situations::Shifts;

/// Where and how two implementations differ, or one breaks a demand.
#[derive(Clone, Debug)]
pub struct Difference {
    /// The call's index in the list; none for the check and the formatting before it.
    pub index: Option<usize>,
    pub text: String,
}

/// What came up in the lists.
#[derive(Clone, Debug, Default)]
pub struct Counts {
    pub scenarios: u64,
    /// By `CALL_NAMES`.
    pub calls: [u64; CALL_KINDS],
    pub run_steps: u64,
    /// By `CALL_NAMES`, then by number.
    pub refusals: [ByNumber; CALL_KINDS],
    /// By `CALL_NAMES`: calls with words in the device's place that stand for no device state.
    pub no_device: [u64; CALL_KINDS],
    /// By `CALL_NAMES`: raises that posted nothing, and said so.
    pub nothing_posted: [u64; CALL_KINDS],
    pub committed: u64,
    pub accepted: u64,
    /// Records dropped, by a head store before an event's.
    pub dropped: u64,
    /// Cuts while the phase is 1 or 2, and of these the ones after a boot into that phase.
    pub cuts_in_commit: u64,
    pub cuts_in_recovery: u64,
    pub cuts_in_half_save: u64,
    pub cuts_in_ending: u64,
    pub cuts_in_handler: u64,
    /// Of these, cuts after a record was dropped.
    pub cuts_after_drop: u64,
    /// Runs with a budget of 0, of 1, and of 2 to the 32 less 1: refused at once, and after some steps.
    pub runs_of_0: u64,
    pub runs_of_1: u64,
    pub largest_at_once: u64,
    pub largest_later: u64,
    /// Steps, runs among them, that made a store while a total was at its largest value.
    pub at_largest: u64,
    /// Refusals 7 with several rules broken.
    pub several: Several,
    /// Line tables and raises.
    pub lines: Lines,
    /// Word 16.
    pub begun: Begun,
    /// Bursts.
    pub bursts: Bursts,
    /// Records dropped from a full queue.
    pub drops: Drops,
    /// SHR of every word by every k, apart from the lists.
    pub shifts: Shifts,
}

/// Above every number of the papers.
const NUMBERS: usize = 35;

/// Counts by number.
#[derive(Clone, Copy, Debug)]
pub struct ByNumber(pub [u64; NUMBERS]);

impl Default for ByNumber {
    fn default() -> ByNumber {
        ByNumber([0; NUMBERS])
    }
}

impl Counts {
    pub fn all_calls(&self) -> u64 {
        self.calls.iter().sum()
    }

    /// Count a call by what it found and what it gave.
    pub fn add(&mut self, call: &Call, device: &Device, phase: u16, recovering: bool, outcome: &Outcome) {
        let Some(kind) = call.kind() else { return };
        self.calls[kind] += 1;
        if let Some(refusal) = outcome.refusal() {
            self.refusals[kind].0[(refusal.number as usize).min(NUMBERS - 1)] += 1;
        }
        self.no_device[kind] += outcome.no_device() as u64;
        self.nothing_posted[kind] += outcome.nothing_posted() as u64;
        if let (Outcome::Run(answer), Call::Run { budget }) = (outcome, call) {
            self.run_steps += answer.steps as u64;
            let refused = outcome.refusal().is_some();
            self.runs_of_0 += (*budget == 0) as u64;
            self.runs_of_1 += (*budget == 1) as u64;
            self.largest_at_once += (*budget == u32::MAX && refused && answer.steps == 0) as u64;
            self.largest_later += (*budget == u32::MAX && refused && answer.steps > 0) as u64;
        }
        let dropping = device.on && device.handler.is_some_and(|handler| handler.work == Work::Dropping);
        let steps = matches!(outcome, Outcome::Run(RunAnswer { steps: 1.., .. }));
        self.dropped += (dropping && (steps || outcome.answer() == Some(Answer::Stored))) as u64;
        if *call == Call::Cut {
            let ending = matches!(device.place, Place::Running { ending, .. } if ending > 0);
            let half = matches!(device.place, Place::HalfSave { .. });
            self.cuts_in_commit += (device.on && phase != 0) as u64;
            self.cuts_in_recovery += (device.on && phase != 0 && recovering) as u64;
            self.cuts_in_half_save += half as u64;
            self.cuts_in_ending += ending as u64;
            self.cuts_in_handler += device.handler.is_some() as u64;
            self.cuts_after_drop += device.handler.is_some_and(|handler| handler.work == Work::Replacing) as u64;
        }
    }

    /// Count what a call added to the totals, and a store with a total at its largest value.
    fn add_totals(&mut self, before: &Totals, after: &Totals, stored: bool) {
        self.committed += (after.committed - before.committed) as u64;
        self.accepted += (after.accepted - before.accepted) as u64;
        let full = [before.committed, before.accepted, before.stores].contains(&u32::MAX);
        self.at_largest += (full && stored) as u64;
    }

    /// Add what came up elsewhere.
    pub fn add_all(&mut self, other: &Counts) {
        self.scenarios += other.scenarios;
        for kind in 0..CALL_NAMES.len() {
            self.calls[kind] += other.calls[kind];
            self.no_device[kind] += other.no_device[kind];
            self.nothing_posted[kind] += other.nothing_posted[kind];
            for number in 0..NUMBERS {
                self.refusals[kind].0[number] += other.refusals[kind].0[number];
            }
        }
        for (sum, more) in self.singles_mut().into_iter().zip(other.singles()) {
            *sum += more.1;
        }
        self.several.add_all(&other.several);
        self.lines.add_all(&other.lines);
        self.begun.add_all(&other.begun);
        self.bursts.add_all(&other.bursts);
        self.drops.add_all(&other.drops);
        self.shifts.add_all(&other.shifts);
    }

    /// The counts that are one number each, with their names.
    pub fn singles(&self) -> [(&'static str, u64); 15] {
        [
            ("steps in runs", self.run_steps),
            ("bodies committed", self.committed),
            ("events accepted", self.accepted),
            ("events dropped", self.dropped),
            ("cuts in a commit", self.cuts_in_commit),
            ("cuts in a commit after a boot into it", self.cuts_in_recovery),
            ("cuts in half a SAVE", self.cuts_in_half_save),
            ("cuts between ending stores", self.cuts_in_ending),
            ("cuts with a handler at work", self.cuts_in_handler),
            ("cuts after an event was dropped", self.cuts_after_drop),
            ("runs, budget 0", self.runs_of_0),
            ("runs, budget 1", self.runs_of_1),
            ("runs, budget 4294967295, refused at once", self.largest_at_once),
            ("runs, budget 4294967295, refused after steps", self.largest_later),
            ("stores with a total at 4294967295", self.at_largest),
        ]
    }

    fn singles_mut(&mut self) -> [&mut u64; 15] {
        [
            &mut self.run_steps,
            &mut self.committed,
            &mut self.accepted,
            &mut self.dropped,
            &mut self.cuts_in_commit,
            &mut self.cuts_in_recovery,
            &mut self.cuts_in_half_save,
            &mut self.cuts_in_ending,
            &mut self.cuts_in_handler,
            &mut self.cuts_after_drop,
            &mut self.runs_of_0,
            &mut self.runs_of_1,
            &mut self.largest_at_once,
            &mut self.largest_later,
            &mut self.at_largest,
        ]
    }

    /// The table: for each call how often it was made, met words that are no device, and each refusal.
    pub fn table(&self) -> String {
        let wide = |kind: usize| CALL_NAMES.get(kind).map_or(0, |name| name.len() + 1).max(9);
        let mut text = format!("{:>15}", "");
        for (kind, name) in CALL_NAMES.iter().chain(&["all"]).enumerate() {
            text.push_str(&format!("{name:>0$}", wide(kind)));
        }
        text.push('\n');
        let mut row = |name: String, counts: [u64; CALL_KINDS]| {
            text.push_str(&format!("{name:>15}"));
            for (kind, count) in counts.into_iter().enumerate() {
                let count = if count == 0 { ".".into() } else { count.to_string() };
                text.push_str(&format!("{count:>0$}", wide(kind)));
            }
            text.push_str(&format!("{:>9}\n", counts.iter().sum::<u64>()));
        };
        row("calls".into(), self.calls);
        row("no device".into(), self.no_device);
        row("nothing posted".into(), self.nothing_posted);
        for number in refusal_numbers() {
            row(format!("refused {number:>2}"), self.refusals.map(|by_number| by_number.0[number]));
        }
        text
    }
}

/// The numbers of the papers: 1 to 9, 20 to 26, 30 to 33.
pub fn refusal_numbers() -> Vec<usize> {
    (1..=9).chain(20..=26).chain(30..=33).collect()
}

/// Which numbers a call may return, by `CALL_NAMES`.
pub const POSSIBLE: [&[usize]; CALL_KINDS] = [
    &[1, 2, 3, 4, 5],
    &[1, 2, 3, 4, 5, 6, 9],
    &[1, 2, 3, 4, 5, 6, 7, 26],
    &[1, 2, 3, 4, 5, 6, 7, 22, 23, 24, 25],
    &[1, 2, 3, 6, 7, 8, 20, 21, 22, 25],
    &[],
    &[1, 2, 3, 4, 5, 6, 7, 22, 23, 24, 25],
    &[30, 31, 32],
    &[1, 2, 3, 6, 7, 8, 20, 21, 22, 25, 30, 31, 32],
    &[1, 2, 3, 6, 7, 8, 20, 21, 22, 25, 33],
];

/// The first index at which two slices differ, as text.
pub fn word_difference(a: &[u16], b: &[u16]) -> String {
    if a.len() != b.len() {
        return format!("lengths {} and {}", a.len(), b.len());
    }
    for (index, (x, y)) in a.iter().zip(b).enumerate() {
        if x != y {
            return format!("word {index} is {x} and {y}");
        }
    }
    "no difference".into()
}

/// Buffers for a machine's words before a call, without the program.
#[derive(Default)]
struct Before {
    store: Vec<u16>,
    device: [u16; DEVICE_WORDS],
    totals: Totals,
}

impl Before {
    fn take(&mut self, machine: &Machine) {
        self.store.clear();
        self.store.extend_from_slice(&machine.store);
        self.device = machine.device_words();
        self.totals = machine.totals;
    }

    fn equals(&self, machine: &Machine) -> bool {
        self.device == machine.device_words() && self.totals == machine.totals && self.store == machine.store
    }
}

/// What is told of a list, call by call: the index in it (none for the check and the formatting before it), the call, and
/// what each side gave; nothing for a change.
pub type Tell<'a> = &'a mut dyn FnMut(Option<usize>, &Call, Option<[&Outcome; 2]>);

/// Where two sides part after a call, if they do.
fn part(outcomes: [&Outcome; 2], left: &Machine, right: &Machine) -> Option<String> {
    let [outcome, other] = outcomes;
    if outcome != other {
        return Some(format!("the answers differ: {} and {}", outcome_text(outcome), outcome_text(other)));
    }
    if left.store != right.store {
        return Some(format!("the stores differ: {}", word_difference(&left.store, &right.store)));
    }
    let (words, others) = (left.device_words(), right.device_words());
    if words != others {
        return Some(format!("the devices differ: {}; {words:?} and {others:?}", word_difference(&words, &others)));
    }
    if left.totals != right.totals {
        return Some(format!("the totals differ: {:?} and {:?}", left.totals, right.totals));
    }
    None
}

/// A refusal, a call without a device, or a raise that posts nothing must not have changed anything; in a run, the steps
/// before it stand.
fn broken_refusal(side: &str, outcome: &Outcome, before: &Before, machine: &Machine) -> Option<String> {
    let some_steps = matches!(outcome, Outcome::Run(RunAnswer { steps, .. }) if *steps > 0);
    let no_change =
        outcome.no_device() || outcome.nothing_posted() || (outcome.refusal().is_some() && !some_steps);
    (no_change && !before.equals(machine))
        .then(|| format!("{side} side: {}, but something has changed", outcome_text(outcome)))
}

/// Two implementations, each with its words.
pub(crate) struct Pair<'a> {
    pub first: (&'a dyn Runtime, Machine),
    pub second: (&'a dyn Runtime, Machine),
    before: Before,
}

impl<'a> Pair<'a> {
    /// Before formatting.
    pub fn new(first: &'a dyn Runtime, second: &'a dyn Runtime, scenario: &Scenario) -> Pair<'a> {
        let machine = Machine::new(scenario);
        Pair { first: (first, machine.clone()), second: (second, machine), before: Before::default() }
    }

    /// Carry out a change on both sides.
    fn change(&mut self, call: &Call, [first, second]: &mut [Machine; 2]) {
        self.first.1.change(call, first);
        self.second.1.change(call, second);
    }

    /// Perform one call on both sides, tell what they gave, and compare.
    pub fn call(&mut self, index: Option<usize>, call: &Call, tell: Tell) -> Result<Outcome, Difference> {
        let ((first, left), (second, right)) = ((self.first.0, &mut self.first.1), (self.second.0, &mut self.second.1));
        let differ = |text: String| Difference { index, text };
        self.before.take(left);
        let made = &left.affordable(first, call);
        if let Call::Run { budget } = made {
            // The first side ends a run with a very large budget soon. So must the second, or it would run for
            // hours.
            if *budget > LARGE_BUDGET && !right.ends_within(second, LARGE_BUDGET) {
                let text = format!("the second side's run makes {LARGE_BUDGET} steps, the first side's ends");
                return Err(differ(text));
            }
        }
        let outcome = left.call(first, made).expect("a call of the runtime");
        let other = right.call(second, made).expect("a call of the runtime");
        tell(index, call, Some([&outcome, &other]));
        let wrong = part([&outcome, &other], left, right)
            .or_else(|| broken_refusal("first", &outcome, &self.before, left))
            .or_else(|| broken_refusal("second", &other, &self.before, right));
        match wrong {
            Some(text) => Err(differ(text)),
            None => Ok(outcome),
        }
    }
}

/// What has gone before in a list, as far as counts need it; all but the first as far as nothing was changed in it.
#[derive(Default)]
struct Trail {
    /// A boot has come upon a commit that still goes on.
    recovering: bool,
    past: Past,
    gone: Gone,
    trace: Trace,
}

impl Counts {
    /// Count a call of a list in every way. The machine is as the call left it.
    fn add_call(&mut self, trail: &mut Trail, call: &Call, found: Found, left: &Machine, outcome: &Outcome) {
        let phase = found.store.get(PHASE).copied().unwrap_or(0);
        self.add(call, &found.device, phase, trail.recovering, outcome);
        self.add_totals(&found.totals, &left.totals, found.store != left.store);
        if let Some(Refusal { number: 7, place: (word, _) }) = outcome.refusal() {
            self.several.add(call, left, word);
        }
        self.lines.add(call, left, outcome);
        self.bursts.add(&mut trail.gone, call, &found, left, outcome);
        self.drops.add(&mut trail.trace, call, &found, left, outcome);
        self.begun.add(&mut trail.past, call, found, left, outcome);
        trail.recovering = match (call, outcome) {
            (Call::Boot, Outcome::Answer(Answer::Done)) => phase != 0,
            _ => *call != Call::Cut && trail.recovering && left.store.get(PHASE) != Some(&0),
        };
    }
}

/// Compare two implementations over a scenario.
pub fn drive(
    first: &dyn Runtime,
    second: &dyn Runtime,
    scenario: &Scenario,
    counts: &mut Counts,
) -> Result<(), Difference> {
    drive_telling(first, second, scenario, counts, &mut |_, _, _| ())
}

/// The same, telling each call.
pub fn drive_telling(
    first: &dyn Runtime,
    second: &dyn Runtime,
    scenario: &Scenario,
    counts: &mut Counts,
    tell: Tell,
) -> Result<(), Difference> {
    counts.scenarios += 1;
    let mut pair = Pair::new(first, second, scenario);
    let format = Call::Format { log_pairs: scenario.log_pairs, queue_records: scenario.queue_records };
    for call in [Call::Check, format] {
        let outcome = pair.call(None, &call, tell)?;
        counts.add(&call, &pair.first.1.device, 0, false, &outcome);
    }
    let mut kept = [pair.first.1.clone(), pair.second.1.clone()];
    let mut trail = Trail::default();
    for (index, call) in scenario.calls.iter().enumerate() {
        if call.kind().is_none() {
            pair.change(call, &mut kept);
            tell(Some(index), call, None);
            trail = Trail { recovering: trail.recovering, ..Trail::default() };
            continue;
        }
        let Machine { device, totals, .. } = pair.first.1;
        let outcome = pair.call(Some(index), call, tell)?;
        let found = Found { store: &pair.before.store, device, totals };
        counts.add_call(&mut trail, call, found, &pair.first.1, &outcome);
    }
    let (program, other) = (&pair.first.1.program, &pair.second.1.program);
    if program != other {
        return Err(Difference { index: None, text: format!("programs differ: {}", word_difference(program, other)) });
    }
    Ok(())
}
