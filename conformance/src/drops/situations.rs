//! Records dropped from a full queue: the situations that must come up.

use super::{after, drops, event_word, record};
use crate::begun::situations::Found;
use crate::bursts::room;
use crate::reference::*;
use crate::runtime::*;
use crate::scenario::{Call, Machine, Outcome, CALL_NAMES};
use std::sync::OnceLock;

/// The calls in which a drop shows, as indices in `CALL_NAMES`: boot, step, post, burst, raise, run.
const CALLS: [usize; COLUMNS] = [2, 3, 4, 9, 8, 6];
const COLUMNS: usize = 6;
const BOOT: usize = 0;
const STEP: usize = 1;
const POST: usize = 2;
const BURST: usize = 3;
const RAISE: usize = 4;
const RUN: usize = 5;

/// In which of these calls a situation counts.
type In = [bool; COLUMNS];
const ALL: In = [true; COLUMNS];
const BOOTS: In = [true, false, false, false, false, false];
const STEPS: In = [false, true, false, false, false, false];
const BURSTS: In = [false, false, false, true, false, false];
const POSTS: In = [false, false, true, true, true, false];
const RUNS: In = [false, false, false, false, false, true];
const STEPS_AND_RUNS: In = [false, true, false, false, false, true];
const NOT_BOOTS: In = [false, true, true, true, true, true];

/// The stores of a handler that drops, by how many are made: its post, then head, event, data and tail.
const STAGES: [&str; 5] = ["the post", "head", "event", "data", "tail"];

/// How many stores a handler has made, head among them.
fn stage(handler: &Handler) -> u16 {
    match handler.work {
        Work::Dropping => 0,
        _ => handler.made.saturating_add(1),
    }
}

// ---------------------------------------------------------------------------------------------------------
// What has gone before in a list

/// A call that was refused, or posted nothing, between a post and its head store: the call and its number.
type Between = (usize, u16);

/// These.
const BETWEEN: [(Between, &str); 8] = [
    ((POST, 20), "a post refused 20"),
    ((BURST, 20), "a burst refused 20"),
    ((RAISE, 20), "a raise refused 20"),
    ((BOOT, 26), "a boot refused 26"),
    ((POST, 8), "a post refused 8"),
    ((BURST, 8), "a burst refused 8"),
    ((BURST, 33), "a burst refused 33"),
    ((RAISE, 0), "a raise that posts nothing"),
];

/// Where a record is dropped: the phase, and word 16.
type Where = (u16, u16);

/// A list up to a call, as far as nothing was changed in it.
#[derive(Clone, Debug, Default)]
pub struct Trace {
    /// By `BETWEEN`: since a post that drops.
    between: [bool; BETWEEN.len()],
    /// Records dropped and replaced one after another, with no other step but theirs.
    in_a_row: u16,
    /// The latest step's tail store replaced a dropped record, there.
    replaced: Option<Where>,
    /// A cut came after so many stores of a handler that drops, there.
    cut_after: Option<(u16, Where)>,
}

impl Trace {
    fn cut(&mut self, found: &Found) {
        let at = (found.store[PHASE], found.store[BEGUN]);
        let handler = found.device.handler.filter(|handler| found.device.on && handler.drops());
        let replaced = self.replaced.map(|at| (STAGES.len() as u16 - 1, at));
        *self = Trace { cut_after: handler.map(|handler| (stage(&handler), at)).or(replaced), ..Trace::default() };
    }

    fn read(&mut self, seen: &Seen) {
        let nothing = seen.answer == Some(Answer::NothingPosted);
        if seen.steps > 0 {
            *self = Trace::default();
        }
        if seen.number != 0 || nothing {
            let between = BETWEEN.iter().position(|(between, _)| *between == (seen.column, seen.number));
            return between.into_iter().for_each(|index| self.between[index] = true);
        }
        match seen.column {
            POST | BURST | RAISE => self.between = [false; BETWEEN.len()],
            BOOT => self.cut_after = None,
            STEP => self.step(seen),
            _ => {}
        }
    }

    fn step(&mut self, seen: &Seen) {
        self.replaced = seen.replaces().then(|| seen.at());
        self.in_a_row = match seen.handler {
            Some(handler) if handler.drops() => self.in_a_row + self.replaced.is_some() as u16,
            _ => 0,
        };
    }
}

// ---------------------------------------------------------------------------------------------------------
// A call

/// A call, what it found and gave, and the machine as it left it.
struct Seen<'a> {
    column: usize,
    found: &'a Found<'a>,
    machine: &'a Machine,
    answer: Option<Answer>,
    no_device: bool,
    /// Of a run the steps made.
    steps: u32,
    /// The refusal's number, or 0, and its place.
    number: u16,
    place: u16,
    /// The handler that was at work.
    handler: Option<Handler>,
    /// How many events a post, a burst or a raise is of.
    count: u16,
    trace: &'a Trace,
}

/// Why 25 meets a handler that drops, or has dropped: the queue isn't full, or is; word 16; the phase; the event; the
/// stores.
const ROOM: usize = 0;
const BEGUN_2: usize = 1;
const PHASE_2: usize = 2;
const EVENT: usize = 3;
const PAST: usize = 4;

impl<'a> Seen<'a> {
    fn new(
        (call, column): (&Call, usize),
        found: &'a Found<'a>,
        machine: &'a Machine,
        trace: &'a Trace,
        outcome: &Outcome,
    ) -> Seen<'a> {
        let steps = if let Outcome::Run(run) = outcome { run.steps } else { 0 };
        let Refusal { number, place } = outcome.refusal().unwrap_or(Refusal { number: 0, place: (0, 0) });
        let count = match call {
            Call::Post { .. } | Call::Raise { .. } => 1,
            Call::Burst { count, .. } => *count,
            _ => 0,
        };
        let (answer, no_device, handler) = (outcome.answer(), outcome.no_device(), found.device.handler);
        Seen { column, found, machine, answer, no_device, steps, number, place: place.0, handler, count, trace }
    }

    fn word(&self, index: usize) -> u16 {
        self.found.store[index]
    }

    fn at(&self) -> Where {
        (self.word(PHASE), self.word(BEGUN))
    }

    fn room(&self) -> usize {
        room(self.found.store)
    }

    fn is(&self, work: Work) -> bool {
        self.handler.is_some_and(|handler| handler.work == work)
    }

    /// In phase 2: whether head is still to move.
    fn head_to_move(&self) -> bool {
        self.word(PENDING) != self.word(HEAD)
    }

    // Posts

    /// A post that is to drop.
    fn posts(&self) -> bool {
        let handler = self.machine.device.handler;
        self.answer == Some(Answer::Done) && handler.is_some_and(|handler| handler.work == Work::Dropping)
    }

    fn posts_at(&self, phase: u16, begun: u16) -> bool {
        self.posts() && self.at() == (phase, begun)
    }

    /// In phase 1, with this store of the commit to come; a copy before all of them.
    fn posts_before(&self, word: Option<usize>) -> bool {
        let Place::NoBody { commit } = self.found.device.place else { return false };
        let closing = [TASK, OPEN, BEGUN, PHASE];
        let next = commit.checked_sub(self.word(COUNT)).and_then(|past| closing.get(past as usize).copied());
        self.posts() && self.word(PHASE) == 1 && next == word
    }

    fn posts_ending(&self) -> bool {
        self.posts() && matches!(self.found.device.place, Place::Running { ending: 1.., .. })
    }

    /// 21 of a single post to a full queue.
    fn full(&self, phase: u16, begun: u16) -> bool {
        self.number == 21 && self.count == 1 && self.room() == 0 && self.at() == (phase, begun)
    }

    /// 21 of a longer burst on a queue from which a single post would drop.
    fn long(&self, length: u16) -> bool {
        self.number == 21 && self.count == length && drops(self.found.store) && self.word(3) >= length
    }

    // A handler's stores

    /// A step, or the first of a run, makes the store of this stage.
    fn stores(&self, made: u16) -> bool {
        let made = self.handler.is_some_and(|handler| handler.drops() && stage(&handler) == made);
        made && self.number == 0 && (self.column == STEP || self.steps > 0)
    }

    /// A run makes all stores from the head's to the tail's.
    fn whole_in_run(&self) -> bool {
        self.is(Work::Dropping) && self.column == RUN && self.steps >= STAGES.len() as u32 - 1
    }

    /// A step or a run makes the tail store in the place of a dropped record.
    fn replaces(&self) -> bool {
        let Some(handler) = self.handler.filter(|handler| self.found.device.on && handler.drops()) else { return false };
        let left = (STAGES.len() as u32 - 1).checked_sub(stage(&handler) as u32).filter(|left| *left > 0);
        matches!(self.answer, Some(Answer::Accepted(_))) || left.is_some_and(|left| self.steps >= left)
    }

    fn replaces_at(&self, phase: u16, begun: u16) -> bool {
        self.replaces() && self.at() == (phase, begun)
    }

    /// What a step's answer names as dropped.
    fn dropped(&self) -> Option<Record> {
        match self.answer {
            Some(Answer::Accepted(dropped)) => dropped,
            _ => None,
        }
    }

    fn events(&self) -> u16 {
        self.machine.program.get(2).copied().unwrap_or(0)
    }

    /// The accepted total, so far below its largest value, is raised for a replaced record.
    fn raised(&self, below: u32) -> bool {
        let (before, after) = (self.found.totals.accepted, self.machine.totals.accepted);
        self.replaces() && u32::MAX - before == below && after == before.saturating_add(1)
    }

    fn cut_after(&self, made: u16, phase: u16, begun: Option<u16>) -> bool {
        let Some((stores, at)) = self.trace.cut_after else { return false };
        self.answer == Some(Answer::Done) && stores == made && at.0 == phase && begun.is_none_or(|begun| at.1 == begun)
    }

    // 25 and 7

    /// Why 25 meets a handler, all else being right.
    fn reasons(&self) -> [bool; 5] {
        let Some(handler) = self.handler else { return [false; 5] };
        let event = handler.words[0] >= self.events();
        match handler.work {
            Work::Dropping => {
                [self.room() > 0, self.word(BEGUN) == EVENT_BEGUN, self.word(PHASE) == 2, event, false]
            }
            _ => [self.room() == 0, false, false, event, handler.made > 2],
        }
    }

    fn unlike(&self) -> bool {
        let at_work = self.handler.is_some_and(|handler| handler.drops());
        self.number == 25 && self.steps == 0 && self.found.device.on && at_work
    }

    fn else_alike(&self) -> bool {
        let mut resting = Device { handler: None, ..self.found.device };
        let mut store = self.found.store.to_vec();
        let answer = Reference.burst(&self.machine.program, &mut store, &mut resting, 0, &[0; BURST_WORDS]);
        matches!(answer, Answer::Refused(Refusal { number: 33, .. }))
    }

    /// 25 of this handler for these reasons alone.
    fn only(&self, work: Work, reasons: &[usize]) -> bool {
        let alone = std::array::from_fn(|reason| reasons.contains(&reason));
        self.unlike() && self.is(work) && self.reasons() == alone && self.else_alike()
    }

    /// A handler at work passes: a step stores, a post meets 20.
    fn passes(&self, made: u16) -> bool {
        let through = match self.column {
            POST | BURST | RAISE => self.number == 20,
            RUN => self.steps > 0,
            _ => self.number == 0,
        };
        let at_work = self.handler.is_some_and(|handler| handler.drops() && stage(&handler) == made);
        at_work && through && self.found.device.on
    }

    /// Whether the record at head has a bad event, and whether another waiting one has.
    fn bad_records(&self) -> (bool, bool) {
        let bad = |slot: u16| record(self.found.store, slot).0 >= self.events();
        let head = self.word(HEAD);
        let mut slot = after(self.found.store, head);
        let mut others = false;
        while slot != self.word(TAIL) {
            others |= bad(slot);
            slot = after(self.found.store, slot);
        }
        (bad(head), others)
    }

    /// 7 at the record that is to be dropped.
    fn seven(&self) -> bool {
        let place = event_word(self.found.store, self.word(HEAD)) as u16;
        self.number == 7 && self.is(Work::Dropping) && self.steps == 0 && self.place == place
    }

    // Words that are no device's

    fn stray(&self) -> [u16; DEVICE_WORDS] {
        self.machine.stray.filter(|_| self.no_device).unwrap_or([0; DEVICE_WORDS])
    }

    fn stray_behind(&self, work: u16) -> bool {
        let words = self.stray();
        words[15] == work && words[16] == 1 && words[20..].iter().any(|word| *word != 0)
    }
}

// ---------------------------------------------------------------------------------------------------------
// Situations

struct Situation {
    name: String,
    calls: In,
    met: Box<dyn Fn(&Seen) -> bool + Send + Sync>,
}

/// Situations of one kind, and which calls may be in one of them.
struct Group {
    may: fn(&Seen) -> bool,
    situations: Vec<Situation>,
}

fn situation(name: &str, calls: In, met: impl Fn(&Seen) -> bool + Send + Sync + 'static) -> Situation {
    Situation { name: name.into(), calls, met: Box::new(met) }
}

/// Posts that are to drop.
fn posts() -> Group {
    let mut situations = vec![
        situation("to drop: nothing begun", POSTS, |seen| seen.posts_at(0, NOTHING_BEGUN)),
        situation("to drop: a task begun", POSTS, |seen| seen.posts_at(0, TASK_BEGUN)),
        situation("to drop: half a SAVE", POSTS, |seen| {
            seen.posts() && matches!(seen.found.device.place, Place::HalfSave { .. })
        }),
        situation("to drop: between ending stores", POSTS, |seen| seen.posts_ending()),
        situation("to drop: a transaction open, nothing begun", POSTS, |seen| {
            seen.posts_at(0, NOTHING_BEGUN) && seen.word(OPEN) != 0
        }),
        situation("to drop: a transaction open, a task begun", POSTS, |seen| {
            seen.posts_at(0, TASK_BEGUN) && seen.word(OPEN) != 0
        }),
        situation("to drop in phase 1, before a copy", POSTS, |seen| seen.posts_before(None)),
    ];
    for word in [TASK, OPEN, BEGUN, PHASE] {
        let name = format!("to drop in phase 1, before the store of {word}");
        situations.push(situation(&name, POSTS, move |seen| seen.posts_before(Some(word))));
    }
    for records in [1, 2, 32] {
        let name = format!("to drop: Q of {records}");
        situations.push(situation(&name, POSTS, move |seen| seen.posts() && seen.word(3) == records));
    }
    situations.extend([
        situation("to drop: head in the last slot", POSTS, |seen| seen.posts() && seen.word(HEAD) == seen.word(3)),
        situation("to drop: tail in the last slot", POSTS, |seen| seen.posts() && seen.word(TAIL) == seen.word(3)),
        situation("to drop: a bad record at head", POSTS, |seen| seen.posts() && seen.bad_records().0),
        situation("to drop: another bad record", POSTS, |seen| seen.posts() && seen.bad_records().1),
    ]);
    Group { may: |seen| POSTS[seen.column] && seen.posts(), situations }
}

/// Posts and bursts that don't drop.
fn full() -> Group {
    let mut situations = vec![
        situation("21: an event begun", POSTS, |seen| seen.full(0, EVENT_BEGUN)),
        situation("21: word 16 at 2 in phase 1", POSTS, |seen| seen.full(1, EVENT_BEGUN)),
        situation("21: phase 2, head to move", POSTS, |seen| seen.full(2, EVENT_BEGUN) && seen.head_to_move()),
        situation("21: phase 2, head moved", POSTS, |seen| seen.full(2, EVENT_BEGUN) && !seen.head_to_move()),
        situation("21: phase 2, head to move, word 16 at 0", POSTS, |seen| {
            seen.full(2, NOTHING_BEGUN) && seen.head_to_move()
        }),
        situation("21: phase 2, head moved, word 16 at 0", POSTS, |seen| {
            seen.full(2, NOTHING_BEGUN) && !seen.head_to_move()
        }),
        situation("21: phase 2, word 16 at 1", POSTS, |seen| seen.full(2, TASK_BEGUN)),
        situation("burst of 2, 21: room for one", BURSTS, |seen| {
            seen.number == 21 && seen.count == 2 && seen.room() == 1 && seen.at() == (0, NOTHING_BEGUN)
        }),
    ];
    for length in 2..=MAX_BURST as u16 {
        let name = format!("burst of {length}, 21: a post would drop");
        situations.push(situation(&name, BURSTS, move |seen| seen.long(length)));
    }
    Group { may: |seen| seen.number == 21, situations }
}

/// The stores, where they are made, and what comes between a post and its head store.
fn stores() -> Group {
    let mut situations = Vec::new();
    for (made, name) in STAGES.iter().skip(1).enumerate() {
        let name = format!("store of {name}");
        situations.push(situation(&name, STEPS_AND_RUNS, move |seen| seen.stores(made as u16)));
    }
    situations.push(situation("all four in a run", RUNS, |seen| seen.whole_in_run()));
    for records in [1, 2, 32] {
        let name = format!("store of head, Q of {records}");
        situations.push(situation(&name, STEPS_AND_RUNS, move |seen| seen.stores(0) && seen.word(3) == records));
    }
    situations.extend([
        situation("store of head, to slot 0", STEPS_AND_RUNS, |seen| seen.stores(0) && seen.word(HEAD) == seen.word(3)),
        situation("store of event, in the last slot", STEPS_AND_RUNS, |seen| {
            seen.stores(1) && seen.word(TAIL) == seen.word(3)
        }),
        situation("store of head, another bad record", STEPS_AND_RUNS, |seen| {
            seen.stores(0) && seen.bad_records() == (false, true)
        }),
    ]);
    for (index, (_, name)) in BETWEEN.iter().enumerate() {
        let name = format!("store of head after {name}");
        situations.push(situation(&name, STEPS_AND_RUNS, move |seen| seen.stores(0) && seen.trace.between[index]));
    }
    Group { may: |seen| STEPS_AND_RUNS[seen.column] && seen.handler.is_some_and(|handler| handler.drops()), situations }
}

/// What accepts a record in the place of a dropped one.
fn replaced() -> Group {
    let situations = vec![
        situation("replaced: nothing begun", STEPS_AND_RUNS, |seen| seen.replaces_at(0, NOTHING_BEGUN)),
        situation("replaced: a task begun", STEPS_AND_RUNS, |seen| seen.replaces_at(0, TASK_BEGUN)),
        situation("replaced: a transaction open", STEPS_AND_RUNS, |seen| {
            seen.replaces() && seen.word(PHASE) == 0 && seen.word(OPEN) != 0
        }),
        situation("replaced in phase 1", STEPS_AND_RUNS, |seen| seen.replaces() && seen.word(PHASE) == 1),
        situation("replaced: the dropped one of another event", STEPS, |seen| {
            let new = seen.handler.map(|handler| handler.words[0]);
            seen.dropped().is_some_and(|(event, _)| Some(event) != new)
        }),
        situation("replaced: the dropped one of other data", STEPS, |seen| {
            let new = seen.handler.map(|handler| handler.words[1]);
            seen.dropped().is_some_and(|(event, datum)| Some(datum) != new && event != datum)
        }),
        situation("replaced: the dropped event not below E", STEPS, |seen| {
            seen.dropped().is_some_and(|(event, _)| event >= seen.events())
        }),
        situation("replaced, the second in a row", STEPS, |seen| seen.replaces() && seen.trace.in_a_row == 1),
        situation("replaced, the third in a row or later", STEPS, |seen| seen.replaces() && seen.trace.in_a_row > 1),
        situation("replaced: the accepted total to its largest", STEPS_AND_RUNS, |seen| seen.raised(1)),
        situation("replaced: the accepted total at its largest", STEPS_AND_RUNS, |seen| seen.raised(0)),
    ];
    Group { may: |seen| seen.replaces(), situations }
}

/// A cut and a boot after each store.
fn cuts() -> Group {
    let mut situations = Vec::new();
    for (made, name) in STAGES.iter().enumerate() {
        for (phase, begun, at) in [
            (0, Some(NOTHING_BEGUN), "nothing begun"),
            (0, Some(TASK_BEGUN), "a task begun"),
            (1, None, "in phase 1"),
        ] {
            let name = format!("cut and boot after {name}, {at}");
            situations.push(situation(&name, BOOTS, move |seen| seen.cut_after(made as u16, phase, begun)));
        }
    }
    Group { may: |seen| seen.column == BOOT && seen.trace.cut_after.is_some(), situations }
}

/// 25 of a handler about to drop.
fn dropping() -> Group {
    let only = |seen: &Seen, reasons: &[usize]| seen.only(Work::Dropping, reasons);
    let situations = vec![
        situation("25: to drop, room for one", NOT_BOOTS, move |seen| seen.room() == 1 && only(seen, &[ROOM])),
        situation("25: to drop, the queue empty", NOT_BOOTS, move |seen| {
            seen.word(HEAD) == seen.word(TAIL) && only(seen, &[ROOM])
        }),
        situation("25: to drop, an event begun", NOT_BOOTS, move |seen| {
            seen.word(PHASE) == 0 && only(seen, &[BEGUN_2])
        }),
        situation("25: to drop, word 16 at 2 in phase 1", NOT_BOOTS, move |seen| {
            seen.word(PHASE) == 1 && only(seen, &[BEGUN_2])
        }),
        situation("25: to drop in phase 2, word 16 at 0", NOT_BOOTS, move |seen| {
            seen.word(BEGUN) == NOTHING_BEGUN && only(seen, &[PHASE_2])
        }),
        situation("25: to drop in phase 2, word 16 at 1", NOT_BOOTS, move |seen| {
            seen.word(BEGUN) == TASK_BEGUN && only(seen, &[PHASE_2])
        }),
        situation("25: to drop in phase 2, head to move", NOT_BOOTS, move |seen| {
            seen.head_to_move() && only(seen, &[BEGUN_2, PHASE_2])
        }),
        situation("25: to drop in phase 2, head moved", NOT_BOOTS, move |seen| {
            !seen.head_to_move() && only(seen, &[BEGUN_2, PHASE_2])
        }),
        situation("25: to drop, event bad", NOT_BOOTS, move |seen| only(seen, &[EVENT])),
    ];
    Group { may: |seen| seen.is(Work::Dropping) && seen.unlike(), situations }
}

/// 25 of a handler that has dropped a record.
fn replacing() -> Group {
    let mut situations = Vec::new();
    for made in 0..=2 {
        let stores = move |seen: &Seen| seen.handler.is_some_and(|handler| handler.made == made);
        let name = format!("25: dropped, {made} stores made, queue full");
        situations.push(situation(&name, NOT_BOOTS, move |seen| stores(seen) && seen.only(Work::Replacing, &[ROOM])));
        let name = format!("25: dropped, {made} stores made, event bad");
        situations.push(situation(&name, NOT_BOOTS, move |seen| stores(seen) && seen.only(Work::Replacing, &[EVENT])));
    }
    for made in [3, 65535] {
        let name = format!("25: dropped, {made} stores made");
        situations.push(situation(&name, NOT_BOOTS, move |seen| {
            let stores = seen.handler.is_some_and(|handler| handler.made == made);
            stores && seen.only(Work::Replacing, &[PAST])
        }));
    }
    Group { may: |seen| seen.is(Work::Replacing) && seen.unlike(), situations }
}

/// Handlers that pass, off ones, and 7.
fn passing() -> Group {
    let mut situations = Vec::new();
    for (made, name) in STAGES.iter().skip(1).enumerate() {
        let name = format!("at work, store of {name} to come");
        situations.push(situation(&name, NOT_BOOTS, move |seen| seen.passes(made as u16)));
    }
    situations.push(situation("dropped, room for two", STEPS_AND_RUNS, |seen| {
        let made = seen.handler.map_or(0, |handler| stage(&handler));
        seen.is(Work::Replacing) && seen.passes(made) && seen.room() > 1
    }));
    for (work, name) in [(Work::Dropping, "to drop"), (Work::Replacing, "dropped")] {
        situations.extend([
            situation(&format!("25: off, {name}"), NOT_BOOTS, move |seen| {
                !seen.found.device.on && seen.number == 25 && seen.is(work)
            }),
            situation(&format!("boot: off, {name}"), BOOTS, move |seen| {
                !seen.found.device.on && seen.answer == Some(Answer::Done) && seen.is(work)
            }),
            situation(&format!("26: on, {name}"), BOOTS, move |seen| seen.number == 26 && seen.is(work)),
        ]);
    }
    situations.extend([
        situation("7: the record to drop", STEPS_AND_RUNS, |seen| seen.seven()),
        situation("7: the record to drop, another bad", STEPS_AND_RUNS, |seen| seen.seven() && seen.bad_records().1),
        situation("25, the record to drop bad", STEPS_AND_RUNS, |seen| {
            seen.is(Work::Dropping) && seen.unlike() && seen.room() == 0 && seen.else_alike() && seen.bad_records().0
        }),
    ]);
    Group { may: |seen| seen.handler.is_some_and(|handler| handler.drops()), situations }
}

/// Words that are no device's.
fn strays() -> Group {
    let mut situations = Vec::new();
    for (work, name) in [(2, "to drop"), (3, "dropped")] {
        let is = move |seen: &Seen, met: fn(u16) -> bool| seen.stray()[15] == work && met(seen.stray()[16]);
        situations.extend([
            situation(&format!("no device: {name}, a burst of 0"), ALL, move |seen| is(seen, |length| length == 0)),
            situation(&format!("no device: {name}, a burst of 2"), ALL, move |seen| is(seen, |length| length == 2)),
            situation(&format!("no device: {name}, a burst of more"), ALL, move |seen| is(seen, |length| length > 2)),
            situation(&format!("no device: {name}, a word behind"), ALL, move |seen| seen.stray_behind(work)),
        ]);
    }
    situations.extend([
        situation("no device: to drop, stores made", ALL, |seen| {
            let words = seen.stray();
            words[15..17] == [2, 1] && words[17] != 0 && words[20..].iter().all(|word| *word == 0)
        }),
        situation("no device: a handler of 4 or more", ALL, |seen| seen.stray()[15] > 3),
    ]);
    Group { may: |seen| seen.no_device, situations }
}

/// All of them, in the order of the table.
fn groups() -> &'static [Group] {
    static GROUPS: OnceLock<Vec<Group>> = OnceLock::new();
    GROUPS.get_or_init(|| {
        vec![posts(), full(), stores(), replaced(), cuts(), dropping(), replacing(), passing(), strays()]
    })
}

fn situations() -> impl Iterator<Item = &'static Situation> {
    groups().iter().flat_map(|group| &group.situations)
}

// ---------------------------------------------------------------------------------------------------------
// Counts

/// How often each situation came up, by call.
#[derive(Clone, Debug)]
pub struct Drops(Vec<[u64; COLUMNS]>);

impl Default for Drops {
    fn default() -> Drops {
        Drops(vec![[0; COLUMNS]; situations().count()])
    }
}

impl Drops {
    pub fn add_all(&mut self, other: &Drops) {
        for (count, more) in self.0.iter_mut().flatten().zip(other.0.iter().flatten()) {
            *count += more;
        }
    }

    /// Count a call, and go on with what has gone before. The machine is as the call left it.
    pub fn add(&mut self, trace: &mut Trace, call: &Call, found: &Found, machine: &Machine, outcome: &Outcome) {
        if found.store.len() < MEMORY {
            return;
        }
        if *call == Call::Cut {
            return trace.cut(found);
        }
        let Some(column) = CALLS.iter().position(|kind| call.kind() == Some(*kind)) else { return };
        let seen = Seen::new((call, column), found, machine, trace, outcome);
        let mut row = 0;
        for group in groups() {
            // Where the words are no device's, nothing else counts.
            let stray = row + group.situations.len() == self.0.len();
            if machine.stray.is_some() == stray && (group.may)(&seen) {
                for (counts, situation) in self.0[row..].iter_mut().zip(&group.situations) {
                    counts[column] += (situation.calls[column] && (situation.met)(&seen)) as u64;
                }
            }
            row += group.situations.len();
        }
        let mut next = trace.clone();
        next.read(&seen);
        *trace = next;
    }

    /// Each situation with its counts by call; none where it doesn't count.
    fn rows(&self) -> impl Iterator<Item = (&'static str, [Option<u64>; COLUMNS])> + '_ {
        let cells = |calls: In, counts: &[u64; COLUMNS]| {
            let mut cells = [None; COLUMNS];
            (0..COLUMNS).filter(|column| calls[*column]).for_each(|column| cells[column] = Some(counts[column]));
            cells
        };
        let row = move |(of, counts): (&'static Situation, &[u64; COLUMNS])| (of.name.as_str(), cells(of.calls, counts));
        situations().zip(&self.0).map(row)
    }

    /// What never came up, a line for each call.
    pub fn missing(&self) -> Vec<String> {
        let never = |column: usize| {
            let never = self.rows().filter(|(_, cells)| cells[column] == Some(0));
            never.map(|(name, _)| name).collect::<Vec<&str>>().join("; ")
        };
        let line = |(column, kind): (usize, usize)| format!("{}, drops: {}", CALL_NAMES[kind], never(column));
        CALLS.into_iter().enumerate().filter(|(column, _)| !never(*column).is_empty()).map(line).collect()
    }

    /// The table: a row for each situation.
    pub fn table(&self) -> String {
        let mut text = format!("{:<46}", "drops");
        for kind in CALLS {
            text.push_str(&format!("{:>9}", CALL_NAMES[kind]));
        }
        text.push('\n');
        for (name, cells) in self.rows() {
            text.push_str(&format!("{name:<46}"));
            for cell in cells {
                let cell = cell.map_or(String::new(), |count| if count == 0 { ".".into() } else { count.to_string() });
                text.push_str(&format!("{cell:>9}"));
            }
            text.truncate(text.trim_end().len());
            text.push('\n');
        }
        text
    }
}
