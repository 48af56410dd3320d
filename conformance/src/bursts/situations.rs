//! Bursts: the situations that must come up.

use super::{room, slots};
use crate::begun::situations::Found;
use crate::reference::*;
use crate::runtime::*;
use crate::scenario::{Call, Machine, Outcome, CALL_NAMES};
use std::sync::OnceLock;

/// The calls in which a burst shows, as indices in `CALL_NAMES`: boot, step, post, burst, run.
const CALLS: [usize; COLUMNS] = [2, 3, 4, 9, 6];
const COLUMNS: usize = 5;
const BOOT: usize = 0;
const STEP: usize = 1;
const POST: usize = 2;
const BURST: usize = 3;
const RUN: usize = 4;

/// In which of these calls a situation counts.
type In = [bool; COLUMNS];
const ALL: In = [true; COLUMNS];
const BOOTS: In = [true, false, false, false, false];
const STEPS: In = [false, true, false, false, false];
const STEPS_AND_RUNS: In = [false, true, false, false, true];
const BURSTS: In = [false, false, false, true, false];
const POSTS_AND_BURSTS: In = [false, false, true, true, false];
const NOT_BOOTS: In = [false, true, true, true, true];

/// The lengths that there are.
const LENGTHS: std::ops::RangeInclusive<u16> = 1..=MAX_BURST as u16;

/// A post is a burst of one.
fn posts_of(length: u16) -> In {
    if length == 1 {
        POSTS_AND_BURSTS
    } else {
        BURSTS
    }
}

/// One of the stores of a burst, by how many come before it.
fn store_name(length: u16, made: u16) -> String {
    match (made == 2 * length, made % 2) {
        (true, _) => "tail".into(),
        (_, 0) => format!("event {}", made / 2),
        _ => format!("data {}", made / 2),
    }
}

// ---------------------------------------------------------------------------------------------------------
// What has gone before in a list

/// A list up to a call, as far as nothing was changed in it. A burst is its length and how many of its stores are made.
#[derive(Clone, Debug, Default)]
pub struct Gone {
    /// The latest step accepted this burst.
    accepted: Option<(u16, u16)>,
    /// A cut came after this store of a burst.
    cut_after: Option<(u16, u16)>,
}

impl Gone {
    fn cut(&mut self, device: &Device) {
        let at_work = device.handler.filter(|handler| device.on && !handler.drops());
        let at_work = at_work.map(|handler| (handler.length, handler.made));
        self.cut_after = at_work.or(self.accepted.take());
    }

    fn read(&mut self, seen: &Seen) {
        if seen.column == BOOT && seen.answer == Some(Answer::Done) {
            self.cut_after = None;
        }
        if matches!(seen.column, STEP | RUN) && seen.number == 0 {
            let accepted = seen.handler.filter(|_| matches!(seen.answer, Some(Answer::Accepted(_))));
            self.accepted = accepted.map(|handler| (handler.length, 2 * handler.length + 1));
        }
    }
}

// ---------------------------------------------------------------------------------------------------------
// A call

/// A call, what it found and gave, and the machine as it left it.
struct Seen<'a> {
    column: usize,
    found: &'a Found<'a>,
    machine: &'a Machine,
    answer: Option<Answer>,
    /// Of a run the steps made.
    steps: u32,
    /// The refusal's number, or 0, and its place.
    number: u16,
    place: u16,
    /// The handler that was at work, unless it drops, or has dropped, a record.
    handler: Option<Handler>,
    /// What a post or a burst was given.
    count: u16,
    words: BurstWords,
    gone: &'a Gone,
}

/// Why 25 meets a handler.
const LENGTH: usize = 0;
const EVENT: usize = 1;
const ROOM: usize = 2;
const PAST: usize = 3;

impl<'a> Seen<'a> {
    fn new(
        (call, column): (&Call, usize),
        found: &'a Found<'a>,
        machine: &'a Machine,
        gone: &'a Gone,
        outcome: &Outcome,
    ) -> Seen<'a> {
        let steps = if let Outcome::Run(run) = outcome { run.steps } else { 0 };
        let Refusal { number, place } = outcome.refusal().unwrap_or(Refusal { number: 0, place: (0, 0) });
        let (count, words) = match call {
            Call::Post { event, datum } => (1, single(*event, *datum)),
            Call::Burst { count, words } => (*count, *words),
            _ => (0, [0; BURST_WORDS]),
        };
        let (answer, handler) = (outcome.answer(), found.device.handler.filter(|handler| !handler.drops()));
        Seen { column, found, machine, answer, steps, number, place: place.0, handler, count, words, gone }
    }

    fn word(&self, index: usize) -> u16 {
        self.found.store[index]
    }

    fn events(&self) -> u16 {
        self.machine.program.get(2).copied().unwrap_or(0)
    }

    /// Where contents and ring are right: by words 14 and 15, and by words 12 and 15.
    fn room(&self) -> usize {
        room(self.found.store)
    }

    fn room_by_waiting(&self) -> usize {
        self.word(3) as usize - slots(self.found.store, self.word(PENDING), self.word(TAIL))
    }

    /// In phase 2, before head has moved.
    fn head_to_move(&self) -> bool {
        self.word(PHASE) == 2 && self.word(PENDING) != self.word(HEAD)
    }

    // A handler's stores

    fn is(&self, length: u16) -> bool {
        self.handler.is_some_and(|handler| handler.length == length)
    }

    /// A step makes this store of a burst.
    fn stores(&self, length: u16, made: u16) -> bool {
        self.number == 0 && self.is(length) && self.handler.is_some_and(|handler| handler.made == made)
    }

    /// The burst that a step or a run accepts.
    fn accepts(&self) -> Option<Handler> {
        let handler = self.handler.filter(|_| self.found.device.on)?;
        let left = (2 * handler.length as u32 + 1).checked_sub(handler.made as u32).filter(|left| *left > 0)?;
        let accepted = matches!(self.answer, Some(Answer::Accepted(_))) || (self.column == RUN && self.steps >= left);
        accepted.then_some(handler)
    }

    fn accepts_of(&self, length: u16) -> bool {
        self.accepts().is_some_and(|handler| handler.length == length)
    }

    /// The ring's end is behind so many of its records.
    fn wraps(&self, length: u16, behind: u16) -> bool {
        self.accepts_of(length) && self.word(TAIL) + behind == self.word(3) + 1
    }

    fn cut_after(&self, length: u16, made: u16) -> bool {
        self.answer == Some(Answer::Done) && self.gone.cut_after == Some((length, made))
    }

    // Refusals of a burst

    fn refused(&self, number: u16) -> bool {
        self.number == number
    }

    fn bad_length(&self) -> bool {
        !LENGTHS.contains(&self.count)
    }

    /// Whether an event of the burst is bad from this position on, up to that one.
    fn bad_event(&self, positions: std::ops::Range<usize>) -> bool {
        positions.into_iter().any(|position| self.words[2 * position] >= self.events())
    }

    fn length(&self) -> usize {
        (self.count as usize).min(MAX_BURST)
    }

    fn too_long(&self) -> bool {
        self.count as usize > self.room()
    }

    /// A burst of this length with this answer: a number, or 0 for done.
    fn posts(&self, length: u16, number: u16) -> bool {
        self.count == length && self.number == number && self.answer != Some(Answer::NoDevice)
    }

    fn short_by_one(&self, length: u16) -> bool {
        self.room() + 1 == length as usize && length <= self.word(3)
    }

    fn longer_than_queue(&self, length: u16) -> bool {
        length > self.word(3) && self.room() == self.word(3) as usize
    }

    // 25

    /// 25 at once, on a device that is on with a handler at work, all else being right: why.
    fn reasons(&self) -> [bool; 4] {
        let Some(handler) = self.handler else { return [false; 4] };
        let (length, made) = (handler.length as usize, handler.made as usize);
        let mut events = handler.words[..handler.used()].iter().step_by(2);
        let event = events.any(|event| *event >= self.events());
        [length == 0 || length > MAX_BURST, event, length > self.room(), made > 2 * length]
    }

    fn unlike(&self) -> bool {
        self.number == 25 && self.steps == 0 && self.found.device.on && self.handler.is_some()
    }

    fn else_alike(&self) -> bool {
        let mut resting = Device { handler: None, ..self.found.device };
        let mut store = self.found.store.to_vec();
        let answer = Reference.burst(&self.machine.program, &mut store, &mut resting, 0, &[0; BURST_WORDS]);
        matches!(answer, Answer::Refused(Refusal { number: 33, .. }))
    }

    /// 25 for this alone.
    fn only(&self, reason: usize) -> bool {
        let mut alone = [false; 4];
        alone[reason] = true;
        self.unlike() && self.reasons() == alone && self.else_alike()
    }

    /// The only bad event of a handler's burst is this one, and its store is made or isn't.
    fn bad_in_handler(&self, length: u16, position: u16, stored: bool) -> bool {
        let Some(handler) = self.handler.filter(|handler| handler.length == length) else { return false };
        let bad = |at: u16| handler.words[2 * at as usize] >= self.events();
        let alone = (0..length).all(|at| bad(at) == (at == position));
        alone && (handler.made > 2 * position) == stored && self.only(EVENT)
    }

    fn made(&self) -> u16 {
        self.handler.map_or(0, |handler| handler.made)
    }

    /// 25 for want of room, although what isn't stored yet would fit.
    fn room_for_the_rest(&self, length: u16) -> bool {
        let rest = length.saturating_sub(self.made() / 2) as usize;
        self.is(length) && rest <= self.room() && self.only(ROOM)
    }

    /// A handler at work passes, with just its room: a step stores, a post meets 20.
    fn passes(&self, length: u16) -> bool {
        let through = match self.column {
            POST | BURST => self.number == 20,
            RUN => self.steps > 0,
            _ => self.number == 0,
        };
        self.is(length) && through && self.found.device.on && self.room() == length as usize
    }

    // Totals

    fn totals(&self) -> (u32, u32) {
        (self.found.totals.accepted, self.machine.totals.accepted)
    }

    /// The accepted total rises by this length.
    fn rises(&self, length: u16) -> bool {
        let (before, after) = self.totals();
        self.accepts_of(length) && before < u32::MAX - length as u32 && after == before + length as u32
    }

    /// It had room for so much of this length alone, and is at its largest value.
    fn rises_by_part(&self, length: u16, part: std::ops::RangeInclusive<u32>) -> bool {
        let (before, after) = self.totals();
        self.accepts_of(length) && part.contains(&(u32::MAX - before)) && after == u32::MAX
    }

    /// A burst of several is accepted in this phase, while this is begun.
    fn accepted_in(&self, phase: u16, begun: Option<u16>) -> bool {
        let several = self.accepts().is_some_and(|handler| handler.length > 1);
        several && self.word(PHASE) == phase && begun.is_none_or(|begun| self.word(BEGUN) == begun)
    }

    // Words that are no device's

    fn stray(&self) -> [u16; DEVICE_WORDS] {
        self.machine.stray.unwrap_or([0; DEVICE_WORDS])
    }
}

// ---------------------------------------------------------------------------------------------------------
// Situations

struct Situation {
    name: String,
    calls: In,
    met: Box<dyn Fn(&Seen) -> bool + Send + Sync>,
}

/// Situations of one kind, and which calls may be in one of them.
struct Group {
    may: fn(&Seen) -> bool,
    situations: Vec<Situation>,
}

fn situation(name: &str, calls: In, met: impl Fn(&Seen) -> bool + Send + Sync + 'static) -> Situation {
    Situation { name: name.into(), calls, met: Box::new(met) }
}

/// Each store of each length, and a cut and a boot after each.
fn stores() -> Group {
    let mut situations = Vec::new();
    for length in LENGTHS {
        for made in 0..=2 * length {
            let name = format!("burst of {length}, store of {}", store_name(length, made));
            situations.push(situation(&name, STEPS, move |seen| seen.stores(length, made)));
        }
    }
    Group { may: |seen| seen.column == STEP && seen.handler.is_some(), situations }
}

fn cuts() -> Group {
    let mut situations = Vec::new();
    for length in LENGTHS {
        for made in 0..=2 * length + 1 {
            let after = made.checked_sub(1).map_or("no store".into(), |made| store_name(length, made));
            let name = format!("burst of {length}, cut and boot after {after}");
            situations.push(situation(&name, BOOTS, move |seen| seen.cut_after(length, made)));
        }
    }
    Group { may: |seen| seen.column == BOOT && seen.gone.cut_after.is_some(), situations }
}

/// Where the ring's end is.
fn wraps() -> Group {
    let mut situations = Vec::new();
    for length in LENGTHS {
        for behind in 1..=length {
            let name = format!("burst of {length}, the ring's end behind record {}", behind - 1);
            situations.push(situation(&name, STEPS_AND_RUNS, move |seen| seen.wraps(length, behind)));
        }
        let name = format!("burst of {length}, the ring's end further on");
        situations.push(situation(&name, STEPS_AND_RUNS, move |seen| {
            seen.accepts_of(length) && seen.word(TAIL) + length < seen.word(3) + 1
        }));
    }
    Group { may: |seen| seen.accepts().is_some(), situations }
}

/// 33, and what comes before it and behind it.
fn lengths() -> Group {
    let situations = vec![
        situation("33: none", BURSTS, |seen| seen.posts(0, 33)),
        situation("33: five", BURSTS, |seen| seen.posts(5, 33)),
        situation("33: six or more", BURSTS, |seen| seen.refused(33) && seen.count > 5),
        situation("33: 65535", BURSTS, |seen| seen.posts(65535, 33)),
        situation("33: 1 to 4 modulo 256", BURSTS, |seen| seen.refused(33) && LENGTHS.contains(&(seen.count % 256))),
        situation("33: none, an event bad, too", BURSTS, |seen| seen.posts(0, 33) && seen.bad_event(0..1)),
        situation("33: five, an event bad, too", BURSTS, |seen| seen.posts(5, 33) && seen.bad_event(0..4)),
        situation("33: none, a handler at work", BURSTS, |seen| seen.posts(0, 33) && seen.handler.is_some()),
        situation("33: five, a handler at work", BURSTS, |seen| seen.posts(5, 33) && seen.handler.is_some()),
        situation("33: five, no room", BURSTS, |seen| seen.posts(5, 33) && seen.room() == 0),
        situation("33: five, room for five", BURSTS, |seen| seen.posts(5, 33) && seen.room() >= 5),
        situation("22; length out of range", BURSTS, |seen| seen.bad_length() && seen.refused(22)),
        situation("25; length out of range", BURSTS, |seen| seen.bad_length() && seen.refused(25)),
        situation("7; length out of range", BURSTS, |seen| seen.bad_length() && seen.refused(7)),
        situation("6; length out of range", BURSTS, |seen| seen.bad_length() && seen.refused(6)),
        situation("1 to 3; length out of range", BURSTS, |seen| seen.bad_length() && (1..=3).contains(&seen.number)),
    ];
    Group { may: |seen| seen.column == BURST && seen.number != 0, situations }
}

/// 8 at each position, and events that aren't looked at.
fn events() -> Group {
    let mut situations = Vec::new();
    for length in LENGTHS {
        for position in 0..length {
            let name = format!("8 at position {position} of {length}");
            situations.push(situation(&name, posts_of(length), move |seen| {
                seen.posts(length, 8) && seen.place == position
            }));
        }
    }
    for length in 1..MAX_BURST as u16 {
        let name = format!("burst of {length}, done; a bad event behind it");
        situations.push(situation(&name, BURSTS, move |seen| {
            seen.posts(length, 0) && seen.bad_event(seen.length()..MAX_BURST)
        }));
    }
    situations.extend([
        situation("8; a later event bad, too", BURSTS, |seen| {
            seen.refused(8) && seen.bad_event(seen.place as usize + 1..seen.length())
        }),
        situation("8; the data before it below E", BURSTS, |seen| {
            seen.refused(8) && seen.place > 0 && seen.words[2 * seen.place as usize - 1] < seen.events()
        }),
        situation("8; a handler at work", POSTS_AND_BURSTS, |seen| seen.refused(8) && seen.handler.is_some()),
        situation("8; no room", POSTS_AND_BURSTS, |seen| seen.refused(8) && seen.too_long()),
        situation("22; an event bad", POSTS_AND_BURSTS, |seen| seen.refused(22) && seen.bad_event(0..seen.length())),
        situation("25; an event bad", POSTS_AND_BURSTS, |seen| seen.refused(25) && seen.bad_event(0..seen.length())),
    ]);
    Group { may: |seen| matches!(seen.column, POST | BURST) && matches!(seen.number, 0 | 8 | 22 | 25), situations }
}

/// 20 and 21, and bursts that pass.
fn rooms() -> Group {
    let mut situations = Vec::new();
    for length in LENGTHS {
        let calls = posts_of(length);
        let mut add = |what: &str, met: fn(&Seen, u16) -> bool| {
            let name = format!("burst of {length}, {what}");
            situations.push(situation(&name, calls, move |seen| met(seen, length)));
        };
        add("done: just its room", |seen, length| seen.posts(length, 0) && seen.room() == length as usize);
        add("done: room to spare", |seen, length| seen.posts(length, 0) && seen.room() > length as usize);
        add("done in phase 1", |seen, length| seen.posts(length, 0) && seen.word(PHASE) == 1);
        add("done in phase 2, head to move", |seen, length| seen.posts(length, 0) && seen.head_to_move());
        add("done in phase 2, head moved", |seen, length| {
            seen.posts(length, 0) && seen.word(PHASE) == 2 && !seen.head_to_move()
        });
        add("20", |seen, length| seen.posts(length, 20));
        add("21: room one short", |seen, length| seen.posts(length, 21) && seen.short_by_one(length));
        add("21: queue full", |seen, length| seen.posts(length, 21) && seen.room() == 0);
        add("21: it would fit by word 12", |seen, length| {
            seen.posts(length, 21) && seen.head_to_move() && length as usize <= seen.room_by_waiting()
        });
        if length > 1 {
            add("20; no room", |seen, length| seen.posts(length, 20) && seen.too_long());
            add("21: longer than the queue", |seen, length| {
                seen.posts(length, 21) && seen.longer_than_queue(length)
            });
        }
    }
    Group { may: |seen| matches!(seen.column, POST | BURST) && matches!(seen.number, 0 | 20 | 21), situations }
}

/// 25 by an event that is stored, or isn't.
fn events_in_handlers() -> Group {
    let mut situations = Vec::new();
    for length in LENGTHS {
        for position in 0..length {
            for (stored, what) in [(false, "not stored"), (true, "stored")] {
                let name = format!("25: burst of {length}, event {position} bad, {what}");
                situations.push(situation(&name, NOT_BOOTS, move |seen| {
                    seen.bad_in_handler(length, position, stored)
                }));
            }
        }
    }
    Group { may: |seen| seen.unlike() && seen.reasons()[EVENT], situations }
}

/// 25 by the length, by the room, and past the tail store.
fn handlers() -> Group {
    let mut situations = vec![
        situation("25: burst of 0", NOT_BOOTS, |seen| seen.is(0) && seen.only(LENGTH)),
        situation("25: burst of 0, past its tail store", NOT_BOOTS, |seen| {
            seen.is(0) && seen.reasons() == [true, false, false, true]
        }),
        situation("25: burst of 5, room for it", NOT_BOOTS, |seen| seen.is(5) && seen.only(LENGTH)),
        situation("25: burst of more than 5, room for it", NOT_BOOTS, |seen| {
            !seen.is(0) && !seen.is(5) && seen.only(LENGTH)
        }),
        situation("25: burst of 65535", NOT_BOOTS, |seen| seen.is(65535)),
    ];
    for length in LENGTHS {
        let mut add = |what: &str, met: fn(&Seen, u16) -> bool| {
            let name = format!("25: burst of {length}, {what}");
            situations.push(situation(&name, NOT_BOOTS, move |seen| met(seen, length)));
        };
        add("room one short", |seen, length| seen.is(length) && seen.short_by_one(length) && seen.only(ROOM));
        add("queue full", |seen, length| seen.is(length) && seen.room() == 0 && seen.only(ROOM));
        add("it would fit by word 12", |seen, length| {
            let fits = seen.head_to_move() && length as usize <= seen.room_by_waiting();
            seen.is(length) && fits && seen.only(ROOM)
        });
        add("one past its tail store", |seen, length| {
            seen.is(length) && seen.made() == 2 * length + 1 && seen.only(PAST)
        });
        add("65535 stores made", |seen, length| seen.is(length) && seen.made() == 65535 && seen.only(PAST));
        if length > 1 {
            add("room for the rest alone", |seen, length| seen.room_for_the_rest(length));
            add("longer than the queue", |seen, length| {
                seen.is(length) && seen.longer_than_queue(length) && seen.only(ROOM)
            });
        }
    }
    Group { may: |seen| seen.unlike(), situations }
}

/// Handlers that pass, and off ones.
fn passing() -> Group {
    let mut situations = Vec::new();
    for length in LENGTHS {
        let name = format!("burst of {length} at work, just its room");
        situations.push(situation(&name, NOT_BOOTS, move |seen| seen.passes(length)));
    }
    situations.extend([
        situation("25: off, a handler at work", NOT_BOOTS, |seen| !seen.found.device.on && seen.number == 25),
        situation("boot: off, a handler at work", BOOTS, |seen| {
            !seen.found.device.on && seen.answer == Some(Answer::Done)
        }),
        situation("26: on, a handler at work", BOOTS, |seen| seen.refused(26)),
    ]);
    Group { may: |seen| seen.handler.is_some(), situations }
}

/// The accepted total, and where bursts are accepted.
fn acceptings() -> Group {
    let mut situations = Vec::new();
    for length in LENGTHS {
        let name = format!("accepted total, by {length}");
        situations.push(situation(&name, STEPS_AND_RUNS, move |seen| seen.rises(length)));
        let name = format!("accepted total, by {length} just to its largest value");
        let just = length as u32..=length as u32;
        situations.push(situation(&name, STEPS_AND_RUNS, move |seen| seen.rises_by_part(length, just.clone())));
        for part in 0..length {
            let name = format!("accepted total, by {length}, {part} below its largest value");
            let part = part as u32..=part as u32;
            situations.push(situation(&name, STEPS_AND_RUNS, move |seen| seen.rises_by_part(length, part.clone())));
        }
    }
    situations.extend([
        situation("burst accepted, nothing begun", STEPS_AND_RUNS, |seen| seen.accepted_in(0, Some(NOTHING_BEGUN))),
        situation("burst accepted, a task begun", STEPS_AND_RUNS, |seen| seen.accepted_in(0, Some(TASK_BEGUN))),
        situation("burst accepted, an event begun", STEPS_AND_RUNS, |seen| seen.accepted_in(0, Some(EVENT_BEGUN))),
        situation("burst accepted in phase 1", STEPS_AND_RUNS, |seen| seen.accepted_in(1, None)),
        situation("burst accepted in phase 2, head to move", STEPS_AND_RUNS, |seen| {
            seen.accepted_in(2, None) && seen.head_to_move()
        }),
        situation("burst accepted in phase 2, head moved", STEPS_AND_RUNS, |seen| {
            seen.accepted_in(2, None) && !seen.head_to_move()
        }),
    ]);
    Group { may: |seen| seen.accepts().is_some(), situations }
}

/// Words that are no device's.
fn strays() -> Group {
    let situations = vec![
        situation("no device: a word behind the burst's end", ALL, |seen| {
            let words = seen.stray();
            words[15] == 1 && words[16] < 4 && words[18 + 2 * words[16] as usize..].iter().any(|word| *word != 0)
        }),
        situation("no device: at rest with a length", ALL, |seen| seen.stray()[15] == 0 && seen.stray()[16] != 0),
        situation("no device: at rest with stores made", ALL, |seen| seen.stray()[15] == 0 && seen.stray()[17] != 0),
        situation("no device: at rest with a burst", ALL, |seen| {
            seen.stray()[15] == 0 && seen.stray()[18..].iter().any(|word| *word != 0)
        }),
        situation("no device: a handler of 4 or more", ALL, |seen| seen.stray()[15] > 3),
    ];
    Group { may: |seen| seen.machine.stray.is_some(), situations }
}

/// All of them, in the order of the table.
fn groups() -> &'static [Group] {
    static GROUPS: OnceLock<Vec<Group>> = OnceLock::new();
    GROUPS.get_or_init(|| {
        let refused = [lengths(), events(), rooms(), events_in_handlers(), handlers(), passing()];
        [stores(), cuts(), wraps()].into_iter().chain(refused).chain([acceptings(), strays()]).collect()
    })
}

fn situations() -> impl Iterator<Item = &'static Situation> {
    groups().iter().flat_map(|group| &group.situations)
}

// ---------------------------------------------------------------------------------------------------------
// Counts

/// How often each situation came up, by call.
#[derive(Clone, Debug)]
pub struct Bursts(Vec<[u64; COLUMNS]>);

impl Default for Bursts {
    fn default() -> Bursts {
        Bursts(vec![[0; COLUMNS]; situations().count()])
    }
}

impl Bursts {
    pub fn add_all(&mut self, other: &Bursts) {
        for (count, more) in self.0.iter_mut().flatten().zip(other.0.iter().flatten()) {
            *count += more;
        }
    }

    /// Count a call, and go on with what has gone before. The machine is as the call left it.
    pub fn add(&mut self, gone: &mut Gone, call: &Call, found: &Found, machine: &Machine, outcome: &Outcome) {
        if *call == Call::Cut {
            return gone.cut(&found.device);
        }
        let Some(column) = CALLS.iter().position(|kind| call.kind() == Some(*kind)) else { return };
        if found.store.len() < MEMORY {
            return;
        }
        let seen = Seen::new((call, column), found, machine, gone, outcome);
        let mut row = 0;
        for group in groups() {
            // Where the words are no device's, nothing else counts.
            let stray = row + group.situations.len() == self.0.len();
            if machine.stray.is_some() == stray && (group.may)(&seen) {
                for (counts, situation) in self.0[row..].iter_mut().zip(&group.situations) {
                    counts[column] += (situation.calls[column] && (situation.met)(&seen)) as u64;
                }
            }
            row += group.situations.len();
        }
        let mut next = gone.clone();
        next.read(&seen);
        *gone = next;
    }

    /// Each situation with its counts by call; none where it doesn't count.
    fn rows(&self) -> impl Iterator<Item = (&'static str, [Option<u64>; COLUMNS])> + '_ {
        let cells = |calls: In, counts: &[u64; COLUMNS]| {
            let mut cells = [None; COLUMNS];
            (0..COLUMNS).filter(|column| calls[*column]).for_each(|column| cells[column] = Some(counts[column]));
            cells
        };
        let row = move |(of, counts): (&'static Situation, &[u64; COLUMNS])| (of.name.as_str(), cells(of.calls, counts));
        situations().zip(&self.0).map(row)
    }

    /// What never came up, a line for each call.
    pub fn missing(&self) -> Vec<String> {
        let never = |column: usize| {
            let never = self.rows().filter(|(_, cells)| cells[column] == Some(0));
            never.map(|(name, _)| name).collect::<Vec<&str>>().join("; ")
        };
        let line = |(column, kind): (usize, usize)| format!("{}, bursts: {}", CALL_NAMES[kind], never(column));
        CALLS.into_iter().enumerate().filter(|(column, _)| !never(*column).is_empty()).map(line).collect()
    }

    /// The table: a row for each situation.
    pub fn table(&self) -> String {
        let mut text = format!("{:<53}", "bursts");
        for kind in CALLS {
            text.push_str(&format!("{:>9}", CALL_NAMES[kind]));
        }
        text.push('\n');
        for (name, cells) in self.rows() {
            text.push_str(&format!("{name:<53}"));
            for cell in cells {
                let cell = cell.map_or(String::new(), |count| if count == 0 { ".".into() } else { count.to_string() });
                text.push_str(&format!("{cell:>9}"));
            }
            text.truncate(text.trim_end().len());
            text.push('\n');
        }
        text
    }
}
