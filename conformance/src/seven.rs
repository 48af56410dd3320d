//! Several rules of 7 broken at once: the situations that must come up, and fixed lists that meet them. By request
//! N2 the place is "the lowest word of any broken rule, and for a step or post the lowest at that place of the order".

use crate::generate::code;
use crate::reference::*;
use crate::runtime::*;
use crate::scenario::{Call, Machine, Scenario, CALL_NAMES};

// ---------------------------------------------------------------------------------------------------------
// Situations

/// The calls that may return 7, as indices in `CALL_NAMES`: boot, step, post, run.
const CALLS: [usize; 4] = [2, 3, 4, 6];

/// In which of these calls a situation can be.
type In = [bool; 4];
const ALL: In = [true; 4];
const BOOT: In = [true, false, false, false];
const NOT_BOOT: In = [false, true, true, true];
const STEPS: In = [false, true, false, true];

/// The first word behind control.
const END: u16 = MEMORY as u16;

/// Each two of the control words.
fn pairs() -> impl Iterator<Item = (u16, u16)> {
    (CONTROL as u16..END).flat_map(|low| (low + 1..END).map(move |high| (low, high)))
}

const PAIRS: usize = 36;

/// The pairs that broken rules never name together: without a phase, 10 to 13 have no rule; 13's rule needs 12, and it
/// is of phase 1, in which 10 is free.
const NEVER: [(u16, u16); 6] = [(8, 10), (8, 11), (8, 12), (8, 13), (10, 13), (12, 13)];

/// Where both words of a pair may be named. Word 13's rule needs a row, so step and post don't look at it.
fn pair_in(pair: (u16, u16)) -> In {
    match pair {
        _ if NEVER.contains(&pair) => [false; 4],
        (13, _) | (_, 13) => BOOT,
        _ => ALL,
    }
}

/// A refusal 7: its place, the words of all broken rules, and of those that the call looks at first; a boot, at all.
struct Seen<'a> {
    machine: &'a Machine,
    place: u16,
    all: Vec<u16>,
    looked: Vec<u16>,
}

impl Seen<'_> {
    fn word(&self, index: usize) -> u16 {
        self.machine.store[index]
    }

    fn is_address(&self, word: u16) -> bool {
        word >= self.word(6) && word < self.word(7)
    }

    fn is_record(&self, word: u16) -> bool {
        word >= self.word(7)
    }

    fn addresses(&self) -> usize {
        self.all.iter().filter(|word| self.is_address(**word)).count()
    }

    fn records(&self) -> usize {
        self.all.iter().filter(|word| self.is_record(**word)).count()
    }

    /// In phase 2, whether 12, 14 and 15 are above Q.
    fn above(&self, above: [bool; 3]) -> bool {
        self.word(PHASE) == 2 && [PENDING, HEAD, TAIL].map(|index| self.word(index) > self.word(3)) == above
    }

    /// Whether word 12 is neither word 14 nor the slot after it.
    fn unlike_head(&self) -> bool {
        let (pending, head) = (self.word(PENDING), self.word(HEAD));
        pending != head && pending != (head + 1) % (self.word(3) + 1)
    }

    /// Of the broken records the one nearest to the first that waits.
    fn oldest(&self) -> Option<u16> {
        let slots = self.word(3) + 1;
        let first = self.word(if self.word(PHASE) == 2 { PENDING } else { HEAD });
        let age = |word: &u16| ((*word - self.word(7)) / 2 + slots - first) % slots;
        self.all.iter().copied().filter(|word| self.is_record(*word)).min_by_key(age)
    }

    /// The first look names a control word, an address or a record.
    fn control(&self) -> bool {
        !self.looked.is_empty() && self.place < END
    }

    fn address(&self) -> bool {
        !self.looked.is_empty() && self.is_address(self.place)
    }

    fn record(&self) -> bool {
        !self.looked.is_empty() && self.is_record(self.place)
    }

    /// The first look passes, and a step meets the rule of a word that it uses: an address, or a record, while a body
    /// runs or while none does.
    fn used_address(&self) -> bool {
        self.looked.is_empty() && self.is_address(self.place)
    }

    fn used_record(&self, running: bool) -> bool {
        let runs = !matches!(self.machine.device.place, Place::NoBody { .. });
        self.looked.is_empty() && self.is_record(self.place) && runs == running
    }

    /// Whether an address or a record below the place, or above it, is broken.
    fn lower(&self) -> bool {
        self.all.iter().any(|word| *word >= END && *word < self.place)
    }

    fn higher(&self) -> bool {
        self.all.iter().any(|word| *word > self.place)
    }
}

type Situation = (&'static str, In, fn(&Seen) -> bool);

/// The situations besides pairs, each with the calls that it can be in. Later: the first look passes.
const OTHERS: [Situation; 23] = [
    ("12 and 14 above Q, 15 not", ALL, |seen| seen.above([true, true, false]) && seen.place == 12),
    ("12 and 15 above Q, 14 not", ALL, |seen| seen.above([true, false, true]) && seen.place == 12),
    ("12, 14 and 15 above Q", ALL, |seen| seen.above([true; 3]) && seen.place == 12),
    ("12 at most Q, 14 above Q", ALL, |seen| seen.above([false, true, false]) && seen.place == 14),
    ("12 at most Q, unlike 14, 15 above Q", ALL, |seen| {
        seen.above([false, false, true]) && seen.unlike_head() && seen.place == 15
    }),
    ("three words or more", ALL, |seen| seen.looked.len() >= 3),
    ("six words or more", ALL, |seen| seen.looked.len() >= 6),
    ("a control word; a log address broken", ALL, |seen| seen.control() && seen.addresses() > 0),
    ("a control word; a record broken", ALL, |seen| seen.control() && seen.records() > 0),
    ("a control word; a lower one not looked at", NOT_BOOT, |seen| seen.control() && seen.all[0] < seen.place),
    ("a log address; a record broken", BOOT, |seen| seen.address() && seen.records() > 0),
    ("several log addresses", BOOT, |seen| seen.address() && seen.addresses() > 1),
    ("several records", BOOT, |seen| seen.record() && seen.records() > 1),
    ("several records, the oldest not the lowest", BOOT, |seen| seen.record() && seen.oldest() != Some(seen.place)),
    ("later, chosen record; a lower one broken", STEPS, |seen| seen.used_record(false) && seen.lower()),
    ("later, chosen record; a higher one broken", STEPS, |seen| seen.used_record(false) && seen.higher()),
    ("later, running event's record; a lower one", STEPS, |seen| seen.used_record(true) && seen.lower()),
    ("later, running event's record; a higher one", STEPS, |seen| seen.used_record(true) && seen.higher()),
    ("later, word 10; a record broken", STEPS, |seen| {
        seen.looked.is_empty() && seen.place == 10 && seen.records() > 0
    }),
    ("later, log address; word 13 broken", STEPS, |seen| seen.used_address() && seen.all.contains(&13)),
    ("later, log address; a lower one broken", STEPS, |seen| seen.used_address() && seen.lower()),
    ("later, log address; a higher one broken", STEPS, |seen| {
        seen.used_address() && seen.all.iter().any(|word| seen.is_address(*word) && *word > seen.place)
    }),
    ("later, log address; a record broken", STEPS, |seen| seen.used_address() && seen.records() > 0),
];

/// How often each situation came up, by call: pairs first, then `OTHERS`.
#[derive(Clone, Debug)]
pub struct Several([[u64; 4]; PAIRS + OTHERS.len()]);

impl Default for Several {
    fn default() -> Several {
        Several([[0; 4]; PAIRS + OTHERS.len()])
    }
}

impl Several {
    pub fn add_all(&mut self, other: &Several) {
        for (count, more) in self.0.iter_mut().flatten().zip(other.0.iter().flatten()) {
            *count += more;
        }
    }

    /// Count a refusal 7 with this place. The machine is as the call left it: so the refused step of a run met it.
    pub fn add(&mut self, call: &Call, machine: &Machine, place: u16) {
        let Some(column) = CALLS.iter().position(|kind| call.kind() == Some(*kind)) else { return };
        let Broken { all, early } = broken(&machine.program, &machine.store);
        let looked = if *call == Call::Boot { all.clone() } else { early };
        let seen = Seen { machine, place, all, looked };
        let named = |word: u16| seen.looked.contains(&word);
        let both = pairs().map(|(low, high)| place == low && named(low) && named(high));
        let others = OTHERS.iter().map(|(_, _, met)| met(&seen));
        for (row, met) in both.chain(others).enumerate() {
            self.0[row][column] += met as u64;
        }
    }

    /// Each situation with its counts by call; none where it can't be.
    fn rows(&self) -> Vec<(String, [Option<u64>; 4])> {
        let pairs = pairs().map(|pair| (format!("words {} and {}", pair.0, pair.1), pair_in(pair)));
        let others = OTHERS.iter().map(|(name, calls, _)| (name.to_string(), *calls));
        let cells = |calls: In, counts: &[u64; 4]| [0, 1, 2, 3].map(|column| calls[column].then_some(counts[column]));
        pairs.chain(others).zip(&self.0).map(|((name, calls), counts)| (name, cells(calls, counts))).collect()
    }

    /// The counts of where a situation can't be. They stay 0.
    pub fn impossible(&self) -> u64 {
        let possible: u64 = self.rows().iter().flat_map(|(_, cells)| cells.iter().flatten()).sum();
        self.0.iter().flatten().sum::<u64>() - possible
    }

    /// What never came up, a line for each call.
    pub fn missing(&self) -> Vec<String> {
        let rows = self.rows();
        let mut lines = Vec::new();
        for (column, kind) in CALLS.into_iter().enumerate() {
            let never = rows.iter().filter(|(_, cells)| cells[column] == Some(0));
            let never: Vec<&str> = never.map(|(name, _)| name.as_str()).collect();
            if !never.is_empty() {
                lines.push(format!("{}, 7 with several words: {}", CALL_NAMES[kind], never.join("; ")));
            }
        }
        lines
    }

    /// The table: a row for each situation that can be.
    pub fn table(&self) -> String {
        let mut text = format!("{:<46}", "refused 7, several words of broken rules");
        for kind in CALLS {
            text.push_str(&format!("{:>9}", CALL_NAMES[kind]));
        }
        text.push('\n');
        for (name, cells) in self.rows().iter().filter(|(_, cells)| *cells != [None; 4]) {
            text.push_str(&format!("{name:<46}"));
            for cell in cells {
                match cell {
                    None => text.push_str(&format!("{:>9}", "")),
                    Some(0) => text.push_str(&format!("{:>9}", ".")),
                    Some(count) => text.push_str(&format!("{count:>9}")),
                }
            }
            text.truncate(text.trim_end().len());
            text.push('\n');
        }
        text
    }
}

// ---------------------------------------------------------------------------------------------------------
// Fixed lists

/// A word of the store and its value.
type Change = (usize, u16);

/// Three tasks with transaction numbers 5, 0 and 7, and two events.
fn program() -> Vec<u16> {
    let mut words = vec![PROGRAM_MARK, 3, 2, 4, 0, 41];
    for (body, transaction) in [5, 0, 7, 0, 0].into_iter().enumerate() {
        words.extend([21 + 4 * body as u16, 2, transaction]);
    }
    for next in [1, 2, 0] {
        words.extend([code(SAVE, 0, 0, next), code(GO, 0, 0, next)].concat());
    }
    for _ in 0..2 {
        words.extend([code(SAVE, 0, 0, 3), code(DONE, 0, 0, 0)].concat());
    }
    words
}

/// L and Q. The log starts at 21, the queue at 27, and the store ends at 37.
const SIZES: (u16, u16) = (3, 4);

/// Right control words. The waiting records are in slots 3, 4 and 0, in phase 2 at first in slots 4 and 0.
const RIGHT: [[u16; 9]; 8] = [
    [0, 0, 0, 0, 0, 0, 3, 1, 0],
    [0, 0, 0, 0, 0, 0, 3, 1, 1],
    [0, 0, 0, 0, 0, 0, 3, 1, 2],
    [0, 0, 5, 0, 0, 0, 3, 1, 0],
    [0, 0, 5, 0, 0, 0, 3, 1, 1],
    [1, 0, 0, 3, 2, 7, 3, 1, 1],
    [2, 0, 0, 3, 4, 0, 3, 1, 2],
    [2, 0, 0, 3, 3, 0, 3, 1, 2],
];

/// Right log addresses and events of the ring's slots.
const RIGHT_BEHIND: [Change; 8] = [(21, 0), (23, 1), (25, 2), (27, 0), (29, 1), (31, 0), (33, 1), (35, 0)];

/// Words and what they are changed to, which breaks a rule in one phase or another. Of 12: above Q, just T, and another
/// slot; of 14 and 15 a slot, too, which leaves 12 unlike head or the queue empty; of 16 a 2. Slot 1, word 29, doesn't
/// wait.
const CHANGES: [(usize, &[u16]); 16] = [
    (PHASE, &[3, 65535]),
    (TASK, &[3, 65535]),
    (OPEN, &[7, 6]),
    (COUNT, &[4, 65535]),
    (PENDING, &[5, 65535, 3, 1]),
    (PENDING_OPEN, &[5, 6]),
    (HEAD, &[5, 65535, 1]),
    (TAIL, &[5, 65535, 3]),
    (BEGUN, &[3, 65535, 2]),
    (21, &[4, 65535]),
    (23, &[4, 65535]),
    (25, &[4, 65535]),
    (27, &[2, 65535]),
    (29, &[2, 65535]),
    (33, &[2, 65535]),
    (35, &[2, 65535]),
];

/// Every two changes of different words, and every set of control words, each with its first change.
fn changes() -> Vec<Vec<Change>> {
    let single = CHANGES.iter().flat_map(|(index, words)| words.iter().map(|word| (*index, *word)));
    let single: Vec<Change> = single.collect();
    let mut changes = Vec::new();
    for (at, one) in single.iter().enumerate() {
        let others = single[at + 1..].iter().filter(|other| other.0 != one.0);
        changes.extend(others.map(|other| vec![*one, *other]));
    }
    for set in 0..512 {
        let chosen = (0..9).filter(|control| set >> control & 1 == 1);
        changes.push(chosen.map(|control| (CHANGES[control].0, CHANGES[control].1[0])).collect());
    }
    changes
}

/// Devices that fit the phase and word 16: about to choose, in a task or in an event; or about to copy the first pair,
/// the second and the third.
fn devices(phase: u16, begun: u16) -> Vec<Device> {
    let running = |body: Body| Place::Running { body, instruction: 0, ending: 0 };
    let copying = |commit: u16| Place::NoBody { commit };
    let places = match (phase, begun) {
        (0, TASK_BEGUN) => vec![running(Body::Task(0))],
        (0, EVENT_BEGUN) => vec![running(Body::Event(1))],
        (0, _) => vec![copying(0)],
        _ => vec![copying(0), copying(1), copying(2)],
    };
    places.into_iter().map(|place| Device { place, ..Device::ON }).collect()
}

/// The lists that every comparison starts with: from right words on, each of the changes, then a boot, a post, a
/// burst, and a step and a run with each device.
pub fn lists() -> Vec<Scenario> {
    let (log_pairs, queue_records) = SIZES;
    let program = program();
    let mut lists = Vec::new();
    for control in RIGHT {
        let mut calls = Vec::new();
        let right: Vec<Change> = (CONTROL..).zip(control).chain(RIGHT_BEHIND).collect();
        for change in changes() {
            let set = |(index, word): &Change| Call::SetStore { index: *index, word: *word };
            calls.extend(right.iter().chain(&change).map(set));
            calls.push(Call::Keep);
            let mut call = |device: Device, call: Call| calls.extend([Call::SetDevice(device), call, Call::Restore]);
            call(Device::OFF, Call::Boot);
            call(Device::ON, Call::Post { event: 1, datum: 9 });
            call(Device::ON, Call::Burst { count: 2, words: [1, 9, 0, 8, 0, 0, 0, 0] });
            for device in devices(control[0], control[BEGUN - CONTROL]) {
                call(device, Call::Step);
                call(device, Call::Run { budget: 3 });
            }
        }
        let totals = Totals::default();
        lists.push(Scenario { seed: 0, program: program.clone(), log_pairs, queue_records, totals, calls });
    }
    lists
}
