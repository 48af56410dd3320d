//! Word 16: the situations that must come up.

use crate::reference::*;
use crate::runtime::*;
use crate::scenario::{Call, Machine, Outcome, CALL_NAMES};
use std::sync::OnceLock;

/// The calls that look at word 16, as indices in `CALL_NAMES`: boot, step, post, run.
const CALLS: [usize; 4] = [2, 3, 4, 6];
const BOOT: usize = 0;
const STEP: usize = 1;
const POST: usize = 2;

/// In which of these calls a situation counts.
type In = [bool; 4];
const ALL: In = [true; 4];
const BOOTS: In = [true, false, false, false];
const STEPS: In = [false, true, false, false];
const STEPS_AND_RUNS: In = [false, true, false, true];
const NOT_BOOTS: In = [false, true, true, true];

/// What stands in word 16, or runs.
const KINDS: [&str; 3] = ["nothing", "a task", "an event"];

// ---------------------------------------------------------------------------------------------------------
// What has gone before in a list

/// A store that a body, its choosing or its commit makes.
#[derive(Clone, Copy, PartialEq, Eq, Debug)]
enum Made {
    Chosen,
    LogAddress,
    LogValue,
    LogValueAgain,
    /// 11, 12 or 13.
    Ending(usize),
    CommitStore,
    Copied,
    /// 9, 10, 14, 16, and 8 as the last.
    Closing(usize),
}

/// The stores from choosing to the commit's last one, of a task and of an event.
const OF_A_TASK: [Made; 13] = [
    Made::Chosen,
    Made::LogAddress,
    Made::LogValue,
    Made::LogValueAgain,
    Made::Ending(COUNT),
    Made::Ending(PENDING),
    Made::Ending(PENDING_OPEN),
    Made::CommitStore,
    Made::Copied,
    Made::Closing(TASK),
    Made::Closing(OPEN),
    Made::Closing(BEGUN),
    Made::Closing(PHASE),
];
const OF_AN_EVENT: [Made; 11] = [
    Made::Chosen,
    Made::LogAddress,
    Made::LogValue,
    Made::LogValueAgain,
    Made::Ending(COUNT),
    Made::Ending(PENDING),
    Made::CommitStore,
    Made::Copied,
    Made::Closing(HEAD),
    Made::Closing(BEGUN),
    Made::Closing(PHASE),
];

impl Made {
    fn name(&self) -> String {
        match self {
            Made::Chosen => "choosing".into(),
            Made::LogAddress => "a log address".into(),
            Made::LogValue => "a log value".into(),
            Made::LogValueAgain => "a log value again".into(),
            Made::CommitStore => "the commit store".into(),
            Made::Copied => "a copy".into(),
            Made::Closing(PHASE) => "the last store".into(),
            Made::Ending(word) | Made::Closing(word) => format!("word {word}"),
        }
    }
}

/// A list up to a call, as far as nothing was changed in it.
#[derive(Clone, Debug, Default)]
pub struct Past {
    /// The latest store but for a handler's, and whether it was an event's; and the one that a cut came after.
    latest: Option<(bool, Made)>,
    cut_after: Option<(bool, Made)>,
    /// An event was accepted while this kind of body was begun, which hasn't committed; a cut has come since.
    accepted: Option<u16>,
    cut_since: bool,
    /// That body has committed after the cut.
    committed: bool,
    /// The latest 23 or 24 with its place; a cut, and a boot after that, have come since.
    met: Option<(u16, Place)>,
    met_cut: bool,
    met_boot: bool,
    /// A commit's last store has left word 16 at this.
    left: Option<u16>,
}

impl Past {
    fn cut(&mut self) {
        self.cut_after = self.latest.take();
        self.cut_since = self.accepted.is_some();
        self.met_cut = self.met.is_some();
        self.met_boot = false;
    }

    /// Go on by a call.
    fn read(&mut self, seen: &Seen) {
        match (seen.call, seen.answer) {
            (Call::Boot, Some(Answer::Done)) => {
                self.met_boot = self.met_cut;
                self.cut_after = None;
                self.left = None;
            }
            (Call::Step, Some(answer)) => self.step(seen, answer),
            (Call::Run { .. }, _) if seen.steps > 0 => {
                *self = Past { met: self.met, met_cut: self.met_cut, met_boot: self.met_boot, ..Past::default() };
            }
            _ => {}
        }
        if matches!(seen.number, 23 | 24) {
            self.met = Some((seen.number, seen.machine.device.place));
            (self.met_cut, self.met_boot) = (false, false);
        }
    }

    fn step(&mut self, seen: &Seen, answer: Answer) {
        if let (Some(made), None) = (seen.made(answer), seen.device.handler) {
            self.latest = Some(made);
            self.left = match made.1 {
                Made::Closing(PHASE) => Some(seen.machine.store[BEGUN]).filter(|begun| *begun != NOTHING_BEGUN),
                _ => None,
            };
        }
        match answer {
            Answer::Accepted(_) if seen.store[PHASE] == 0 && seen.store[BEGUN] != NOTHING_BEGUN => {
                self.accepted = Some(seen.store[BEGUN]);
                (self.cut_since, self.committed) = (false, false);
            }
            Answer::Committed(_) => self.committed = self.cut_since,
            Answer::Chosen(_) => (self.accepted, self.cut_since, self.committed) = (None, false, false),
            _ => {}
        }
    }
}

// ---------------------------------------------------------------------------------------------------------
// A call

/// What a call found: the store, the device and the totals.
pub struct Found<'a> {
    pub store: &'a [u16],
    pub device: Device,
    pub totals: Totals,
}

/// A call, what it found and gave, and the machine as it left it.
struct Seen<'a> {
    call: &'a Call,
    column: usize,
    store: &'a [u16],
    device: Device,
    machine: &'a Machine,
    answer: Option<Answer>,
    stored: Option<usize>,
    /// Of a run the steps made.
    steps: u32,
    /// The refusal's number, or 0, and its place.
    number: u16,
    place: u16,
    /// For refusal 7 the words of all broken rules, and those that the call looks at first; a boot, at all.
    all: Vec<u16>,
    looked: Vec<u16>,
    past: &'a Past,
}

impl<'a> Seen<'a> {
    fn new(
        (call, column): (&'a Call, usize),
        found: Found<'a>,
        machine: &'a Machine,
        past: &'a Past,
        outcome: &Outcome,
    ) -> Seen<'a> {
        let (stored, steps) = match outcome {
            Outcome::Step(step) => (step.stored.map(usize::from), 0),
            Outcome::Run(run) => (None, run.steps),
            Outcome::Answer(_) => (None, 0),
        };
        let Refusal { number, place } = outcome.refusal().unwrap_or(Refusal { number: 0, place: (0, 0) });
        let (all, looked) = match number {
            7 => {
                let Broken { all, early } = broken(&machine.program, &machine.store);
                let looked = if *call == Call::Boot { all.clone() } else { early };
                (all, looked)
            }
            _ => (Vec::new(), Vec::new()),
        };
        let (store, device, answer) = (found.store, found.device, outcome.answer());
        Seen { call, column, store, device, machine, answer, stored, steps, number, place: place.0, all, looked, past }
    }

    fn word(&self, index: usize) -> u16 {
        self.store[index]
    }

    fn phase(&self) -> u16 {
        self.word(PHASE)
    }

    fn begun(&self) -> u16 {
        self.word(BEGUN)
    }

    fn queue_empty(&self) -> bool {
        self.word(HEAD) == self.word(TAIL)
    }

    /// The store that a step made, and whether it was an event's.
    fn made(&self, answer: Answer) -> Option<(bool, Made)> {
        let index = self.stored?;
        let body = match (self.device.place, answer) {
            (_, Answer::Chosen(body)) => return Some((matches!(body, Body::Event(_)), Made::Chosen)),
            (Place::NoBody { .. }, _) => {
                let made = if index < MEMORY { Made::Closing(index) } else { Made::Copied };
                return Some((self.phase() == 2, made));
            }
            (Place::Running { body, .. } | Place::HalfSave { body, .. }, _) => body,
        };
        let made = match (answer, self.device.place) {
            (Answer::Committed(_), _) => Made::CommitStore,
            _ if index < MEMORY => Made::Ending(index),
            (_, Place::HalfSave { .. }) => Made::LogValue,
            _ if matches!(self.machine.device.place, Place::HalfSave { .. }) => Made::LogAddress,
            _ => Made::LogValueAgain,
        };
        Some((matches!(body, Body::Event(_)), made))
    }

    // Boots

    /// A boot that leaves this body's kind running.
    fn takes_up(&self, kind: u16) -> bool {
        self.column == BOOT && self.answer == Some(Answer::Done) && running_word(&self.machine.device) == kind
    }

    fn waiting(&self) -> u16 {
        let slots = self.word(3) + 1;
        (self.word(TAIL) + slots - self.word(HEAD)) % slots
    }

    fn datum(&self) -> u16 {
        self.machine.device.registers[0]
    }

    // Refusal 7

    /// 7 that names word 16, and no other of the words looked at is broken; in this phase.
    fn alone(&self, phase: u16) -> bool {
        self.looked == [BEGUN as u16] && self.machine.store[PHASE] == phase
    }

    fn named(&self, word: usize) -> bool {
        self.looked.contains(&(word as u16))
    }

    fn after(&self, index: usize) -> u16 {
        self.machine.store[index]
    }

    /// 7 in phase 0 with a 2 that the queue, or word 10, doesn't allow.
    fn not_allowed(&self, empty: bool, open: bool) -> bool {
        let ring = self.after(HEAD) <= self.after(3) && self.after(TAIL) <= self.after(3);
        self.after(PHASE) == 0
            && self.after(BEGUN) == EVENT_BEGUN
            && ring
            && (self.after(HEAD) == self.after(TAIL)) == empty
            && (self.after(OPEN) != 0) == open
    }

    /// 7 that names a lower word in this phase, 3 for none, while 16 is above 2.
    fn both(&self, low: usize, phase: u16) -> bool {
        self.number == 7
            && self.place == low as u16
            && self.after(BEGUN) > EVENT_BEGUN
            && self.named(BEGUN)
            && self.after(PHASE).min(3) == phase
    }

    /// 7 that names a lower word, not in phases 1 and 2, while there is a 2 whose rule is passed over.
    fn passed_over(&self, low: usize) -> bool {
        let here = self.place == low as u16 && !matches!(self.after(PHASE), 1 | 2);
        here && self.after(BEGUN) == EVENT_BEGUN && !self.named(BEGUN)
    }

    /// 7 that names word 16, while a word from here on is broken, up to there.
    fn also(&self, from: u16, to: u16) -> bool {
        self.place == BEGUN as u16 && self.all.iter().any(|word| *word >= from && *word < to)
    }

    // Refusal 25, and what passes

    /// Whether the device would be let through, were word 16 what it runs.
    fn else_alike(&self) -> bool {
        let mut store = self.store.to_vec();
        store[BEGUN] = running_word(&self.device);
        let post = Reference.post(&self.machine.program, &mut store, &mut self.device.clone(), 0, 0);
        !matches!(post, Answer::Refused(Refusal { number: 1..=7 | 25, .. }))
    }

    /// In phase 0 with the device on: this runs, and word 16 is that.
    fn held(&self, runs: u16, begun: u16) -> bool {
        let here = self.phase() == 0 && self.device.on && running_word(&self.device) == runs && self.begun() == begun;
        if runs == begun {
            return here && self.through();
        }
        here && self.unlike() && self.else_alike()
    }

    fn unlike(&self) -> bool {
        self.number == 25 && self.steps == 0
    }

    /// 25 since word 16 is unlike what runs, and for nothing else.
    fn only_unlike(&self) -> bool {
        let other = self.phase() == 0 && self.device.on && running_word(&self.device) != self.begun();
        other && self.unlike() && self.else_alike()
    }

    /// The call isn't refused; of a run, its first step.
    fn through(&self) -> bool {
        self.answer.map_or(self.steps > 0, |_| self.number == 0)
    }

    /// An event runs, as word 16 says, that isn't the record's at head.
    fn unlike_record(&self) -> bool {
        let Place::Running { body: Body::Event(event), .. } = self.device.place else { return false };
        let here = self.phase() == 0 && self.begun() == EVENT_BEGUN && self.device.on;
        let Some(record) = self.store.get(self.word(7) as usize + 2 * self.word(HEAD) as usize) else { return false };
        let other = *record != event && Some(record) < self.machine.program.get(2);
        here && other && if self.column == POST { self.answer == Some(Answer::Done) } else { self.unlike() }
    }

    // Commits

    /// In this phase with this in word 16, let through; a boot leaves no body.
    fn commits(&self, phase: u16, begun: u16) -> bool {
        self.phase() == phase && self.begun() == begun && self.through()
    }

    /// The store of 0 in word 16, or the last store, over or beside this value.
    fn stores(&self, index: usize, phase: u16, begun: u16) -> bool {
        self.stored == Some(index)
            && self.phase() == phase
            && self.begun() == begun
            && matches!(self.device.place, Place::NoBody { .. })
            && self.device.handler.is_none()
    }

    /// The last store of a commit has left word 16 at this: a call before, or in this run.
    fn left(&self, begun: u16) -> bool {
        let within = self.steps > 0 && self.phase() != 0 && self.after(PHASE) == 0 && self.after(BEGUN) == begun;
        match self.call {
            Call::Run { .. } => within,
            _ => self.past.left == Some(begun),
        }
    }

    // What has gone before

    /// A boot after a cut after this store.
    fn booted_after(&self, event: bool, made: Made) -> bool {
        self.answer == Some(Answer::Done) && self.past.cut_after == Some((event, made))
    }

    /// The body commits that was begun when an event was accepted, and a cut has come since.
    fn first(&self, begun: u16) -> bool {
        matches!(self.answer, Some(Answer::Committed(_))) && self.past.accepted == Some(begun) && self.past.cut_since
    }

    fn then_chosen(&self, begun: u16) -> bool {
        let event = matches!(self.answer, Some(Answer::Chosen(Body::Event(_))));
        event && self.past.accepted == Some(begun) && self.past.committed
    }

    /// The same refusal in the same place after a cut and a boot, by this kind of body.
    fn again(&self, number: u16, begun: u16) -> bool {
        self.number == number
            && self.past.met == Some((number, self.machine.device.place))
            && self.past.met_boot
            && self.begun() == begun
    }
}

// ---------------------------------------------------------------------------------------------------------
// Situations

struct Situation {
    name: String,
    calls: In,
    met: Box<dyn Fn(&Seen) -> bool + Send + Sync>,
}

/// Situations of one kind, and which calls may be in one of them.
struct Group {
    may: fn(&Seen) -> bool,
    situations: Vec<Situation>,
}

fn situation(name: &str, calls: In, met: impl Fn(&Seen) -> bool + Send + Sync + 'static) -> Situation {
    Situation { name: name.into(), calls, met: Box::new(met) }
}

fn boots() -> Group {
    let situations = vec![
        situation("boot: nothing begun", BOOTS, |seen| seen.takes_up(NOTHING_BEGUN) && seen.phase() == 0),
        situation("boot: a task taken up", BOOTS, |seen| seen.takes_up(TASK_BEGUN)),
        situation("boot: a task taken up, a record waits", BOOTS, |seen| {
            seen.takes_up(TASK_BEGUN) && !seen.queue_empty() && seen.word(OPEN) == 0
        }),
        situation("boot: a task taken up in an open transaction", BOOTS, |seen| {
            seen.takes_up(TASK_BEGUN) && seen.word(OPEN) != 0
        }),
        situation("boot: an event taken up, data 0", BOOTS, |seen| seen.takes_up(EVENT_BEGUN) && seen.datum() == 0),
        situation("boot: an event taken up, data not 0", BOOTS, |seen| seen.takes_up(EVENT_BEGUN) && seen.datum() != 0),
        situation("boot: an event taken up, others wait", BOOTS, |seen| {
            seen.takes_up(EVENT_BEGUN) && seen.waiting() > 1
        }),
        situation("boot: an event taken up from the last slot", BOOTS, |seen| {
            seen.takes_up(EVENT_BEGUN) && seen.word(HEAD) == seen.word(3)
        }),
    ];
    Group { may: |seen| seen.column == BOOT, situations }
}

/// The words that can be broken together with a 16 above 2, and in which phases; 3 stands for none. Step and post don't
/// look at the rules that need a row: 10's in phase 0, and 13's.
const BOTH: [(usize, &[u16]); 8] = [
    (PHASE, &[3]),
    (TASK, &[0, 1, 2]),
    (OPEN, &[0, 2]),
    (COUNT, &[1, 2]),
    (PENDING, &[1, 2]),
    (PENDING_OPEN, &[1]),
    (HEAD, &[0, 1, 2]),
    (TAIL, &[0, 1, 2]),
];

/// 7 where word 16 is above 2: alone in each phase, and with each other control word.
fn above_two() -> Group {
    let mut situations = Vec::new();
    for phase in 0..3 {
        let above = move |seen: &Seen| seen.alone(phase) && seen.after(BEGUN) > EVENT_BEGUN;
        situations.push(situation(&format!("7: 16 above 2, phase {phase}"), ALL, above));
    }
    for (low, phases) in BOTH {
        for phase in phases.iter().copied() {
            let calls = if low == PENDING_OPEN || (low, phase) == (OPEN, 0) { BOOTS } else { ALL };
            let name = match phase {
                3 => format!("7: {low}, and 16 above 2"),
                _ => format!("7: {low}, and 16 above 2, phase {phase}"),
            };
            situations.push(situation(&name, calls, move |seen| seen.both(low, phase)));
        }
    }
    Group { may: |seen| seen.number == 7, situations }
}

/// 7 where there is a 2, and 7 at word 16 with other words broken behind it, on and off.
fn twos() -> Group {
    let situations = vec![
        situation("7: a 2, queue empty", ALL, |seen| seen.alone(0) && seen.not_allowed(true, false)),
        situation("7: a 2, word 10 not 0", ALL, |seen| {
            seen.alone(0) && seen.not_allowed(false, true) && seen.all == seen.looked
        }),
        situation("7: a 2, queue empty and word 10 not 0", ALL, |seen| {
            seen.alone(0) && seen.not_allowed(true, true) && seen.all == seen.looked
        }),
        situation("7: a 2; word 10 broken, not looked at", NOT_BOOTS, |seen| {
            seen.alone(0) && seen.not_allowed(false, true) && seen.all.contains(&(OPEN as u16))
        }),
        situation("7: 10, and a 2", BOOTS, |seen| {
            seen.place == OPEN as u16 && seen.not_allowed(false, true) && seen.named(BEGUN)
        }),
        situation("7: 10, and a 2, queue empty", BOOTS, |seen| {
            seen.place == OPEN as u16 && seen.not_allowed(true, true) && seen.named(BEGUN)
        }),
        situation("7: 9, and a 2, queue empty", ALL, |seen| {
            seen.place == TASK as u16 && seen.not_allowed(true, false) && seen.named(BEGUN)
        }),
        situation("7: 9, and a 2, word 10 not 0", ALL, |seen| {
            seen.place == TASK as u16 && seen.not_allowed(false, true) && seen.named(BEGUN)
        }),
        situation("7: 8, a 2 passed over", ALL, |seen| seen.passed_over(PHASE)),
        situation("7: 14, a 2 passed over", ALL, |seen| seen.passed_over(HEAD)),
        situation("7: 15, a 2 passed over", ALL, |seen| seen.passed_over(TAIL)),
        situation("7: 16; a log address broken", ALL, |seen| seen.also(seen.after(6), seen.after(7))),
        situation("7: 16; a record broken", ALL, |seen| seen.also(seen.after(7), u16::MAX)),
        situation("7: 16; device off", NOT_BOOTS, |seen| seen.looked == [BEGUN as u16] && !seen.machine.device.on),
        situation("7: 16; device on", ALL, |seen| seen.looked == [BEGUN as u16] && seen.machine.device.on),
    ];
    Group { may: |seen| seen.number == 7, situations }
}

fn held() -> Group {
    let mut situations = Vec::new();
    for runs in 0..3 {
        for begun in 0..3 {
            let [what, says] = [runs, begun].map(|kind| KINDS[kind as usize]);
            let refused = if runs == begun { "" } else { "25: " };
            let name = format!("{refused}runs {what}, word 16 {says}");
            situations.push(situation(&name, NOT_BOOTS, move |seen| seen.held(runs, begun)));
        }
    }
    for begun in 0..3 {
        let name = format!("22: off, word 16 {}", KINDS[begun as usize]);
        situations.push(situation(&name, NOT_BOOTS, move |seen| {
            seen.phase() == 0 && seen.begun() == begun && seen.number == 22
        }));
    }
    situations.extend([
        situation("25: unlike word 16, a handler at work", NOT_BOOTS, |seen| {
            seen.device.handler.is_some() && seen.only_unlike()
        }),
        situation("25: unlike word 16, in half a SAVE", NOT_BOOTS, |seen| {
            matches!(seen.device.place, Place::HalfSave { .. }) && seen.only_unlike()
        }),
        situation("25: unlike word 16, between ending stores", NOT_BOOTS, |seen| {
            matches!(seen.device.place, Place::Running { ending: 1.., .. }) && seen.only_unlike()
        }),
        situation("a 2, another event than the record's (25, post done)", NOT_BOOTS, |seen| seen.unlike_record()),
    ]);
    Group { may: |seen| seen.column != BOOT && seen.phase() == 0, situations }
}

fn commits() -> Group {
    let mut situations = Vec::new();
    for phase in 1..3 {
        for begun in 0..3 {
            let name = format!("phase {phase}, word 16 {}", KINDS[begun as usize]);
            situations.push(situation(&name, ALL, move |seen| seen.commits(phase, begun)));
            let name = format!("phase {phase}, 0 stored over a {begun}");
            situations.push(situation(&name, STEPS, move |seen| seen.stores(BEGUN, phase, begun)));
        }
        for begun in 1..3 {
            let name = format!("phase {phase}, last store leaves a {begun}");
            situations.push(situation(&name, STEPS, move |seen| seen.stores(PHASE, phase, begun)));
        }
        let name = format!("phase {phase}, a 2, queue empty");
        situations.push(situation(&name, ALL, move |seen| seen.commits(phase, EVENT_BEGUN) && seen.queue_empty()));
    }
    situations.push(situation("phase 1, a 2, word 10 not 0", ALL, |seen| {
        seen.commits(1, EVENT_BEGUN) && seen.word(OPEN) != 0
    }));
    Group { may: |seen| seen.phase() != 0, situations }
}

fn after_last_stores() -> Group {
    let mut situations = Vec::new();
    for begun in 1..3 {
        let name = format!("25 after a last store that left a {begun}");
        situations.push(situation(&name, NOT_BOOTS, move |seen| seen.left(begun) && seen.number == 25));
        let name = format!("taken up after a last store that left a {begun}");
        situations.push(situation(&name, BOOTS, move |seen| seen.left(begun) && seen.takes_up(begun)));
    }
    situations.push(situation("7 at 16 after a last store that left a 2", ALL, |seen| {
        seen.left(EVENT_BEGUN) && seen.number == 7 && seen.place == BEGUN as u16
    }));
    Group { may: |seen| seen.past.left.is_some() || (seen.steps > 0 && seen.number != 0), situations }
}

fn cuts() -> Group {
    let mut situations = Vec::new();
    let stores = OF_A_TASK.map(|made| (false, made)).into_iter().chain(OF_AN_EVENT.map(|made| (true, made)));
    for (event, made) in stores {
        let name = format!("cut and boot after {}, {}", made.name(), if event { "event" } else { "task" });
        situations.push(situation(&name, BOOTS, move |seen| seen.booted_after(event, made)));
    }
    Group { may: |seen| seen.past.cut_after.is_some(), situations }
}

fn turns() -> Group {
    let situations = vec![
        situation("event accepted in a begun task, cut: the task first", STEPS, |seen| seen.first(TASK_BEGUN)),
        situation(".. in an open transaction", STEPS, |seen| seen.first(TASK_BEGUN) && seen.word(OPEN) != 0),
        situation(".. and then the event", STEPS, |seen| seen.then_chosen(TASK_BEGUN)),
        situation("event accepted in a begun event, cut: that first", STEPS, |seen| seen.first(EVENT_BEGUN)),
        situation(".. and then the other", STEPS, |seen| seen.then_chosen(EVENT_BEGUN)),
    ];
    Group { may: |seen| seen.column == STEP && seen.past.accepted.is_some(), situations }
}

fn again() -> Group {
    let mut situations = Vec::new();
    for number in [23, 24] {
        let name = |what: &str| format!("{number}, cut, boot, {number} again, {what}");
        situations.extend([
            situation(&name("task"), STEPS_AND_RUNS, move |seen| seen.again(number, TASK_BEGUN)),
            situation(&name("in an open transaction"), STEPS_AND_RUNS, move |seen| {
                seen.again(number, TASK_BEGUN) && seen.word(OPEN) != 0
            }),
            situation(&name("event"), STEPS_AND_RUNS, move |seen| seen.again(number, EVENT_BEGUN)),
        ]);
    }
    Group { may: |seen| matches!(seen.number, 23 | 24), situations }
}

/// All of them, in the order of the table.
fn groups() -> &'static [Group] {
    static GROUPS: OnceLock<Vec<Group>> = OnceLock::new();
    let all = || vec![boots(), cuts(), turns(), again(), above_two(), twos(), held(), commits(), after_last_stores()];
    GROUPS.get_or_init(all)
}

fn situations() -> impl Iterator<Item = &'static Situation> {
    groups().iter().flat_map(|group| &group.situations)
}

// ---------------------------------------------------------------------------------------------------------
// Counts

/// How often each situation came up, by call.
#[derive(Clone, Debug)]
pub struct Begun(Vec<[u64; 4]>);

impl Default for Begun {
    fn default() -> Begun {
        Begun(vec![[0; 4]; situations().count()])
    }
}

impl Begun {
    pub fn add_all(&mut self, other: &Begun) {
        for (count, more) in self.0.iter_mut().flatten().zip(other.0.iter().flatten()) {
            *count += more;
        }
    }

    /// Count a call, and go on with what has gone before. The machine is as the call left it: so the refused step of a
    /// run met it.
    pub fn add(&mut self, past: &mut Past, call: &Call, found: Found, machine: &Machine, outcome: &Outcome) {
        if *call == Call::Cut {
            return past.cut();
        }
        let Some(column) = CALLS.iter().position(|kind| call.kind() == Some(*kind)) else { return };
        if machine.stray.is_some() || machine.store.len() < MEMORY {
            return;
        }
        let seen = Seen::new((call, column), found, machine, past, outcome);
        let mut row = 0;
        for group in groups() {
            if (group.may)(&seen) {
                for (counts, situation) in self.0[row..].iter_mut().zip(&group.situations) {
                    counts[column] += (situation.calls[column] && (situation.met)(&seen)) as u64;
                }
            }
            row += group.situations.len();
        }
        let mut next = past.clone();
        next.read(&seen);
        *past = next;
    }

    /// Each situation with its counts by call; none where it doesn't count.
    fn rows(&self) -> impl Iterator<Item = (&'static str, [Option<u64>; 4])> + '_ {
        let cells = |calls: In, counts: &[u64; 4]| [0, 1, 2, 3].map(|column| calls[column].then_some(counts[column]));
        let row = move |(of, counts): (&'static Situation, &[u64; 4])| (of.name.as_str(), cells(of.calls, counts));
        situations().zip(&self.0).map(row)
    }

    /// What never came up, a line for each call.
    pub fn missing(&self) -> Vec<String> {
        let never = |column: usize| {
            let never = self.rows().filter(|(_, cells)| cells[column] == Some(0));
            never.map(|(name, _)| name).collect::<Vec<&str>>().join("; ")
        };
        let line = |(column, kind): (usize, usize)| format!("{}, word 16: {}", CALL_NAMES[kind], never(column));
        CALLS.into_iter().enumerate().filter(|(column, _)| !never(*column).is_empty()).map(line).collect()
    }

    /// The table: a row for each situation.
    pub fn table(&self) -> String {
        let mut text = format!("{:<53}", "word 16");
        for kind in CALLS {
            text.push_str(&format!("{:>9}", CALL_NAMES[kind]));
        }
        text.push('\n');
        for (name, cells) in self.rows() {
            text.push_str(&format!("{name:<53}"));
            for cell in cells {
                let cell = cell.map_or(String::new(), |count| if count == 0 { ".".into() } else { count.to_string() });
                text.push_str(&format!("{cell:>9}"));
            }
            text.truncate(text.trim_end().len());
            text.push('\n');
        }
        text
    }
}
