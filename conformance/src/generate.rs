//! Random scenarios from a seed: valid programs, schedules of calls, and damage. A schedule is made while the
//! reference runs it, so that cuts, posts and damage can be aimed; the list that comes out is fixed and can
//! be replayed and shortened without the generator.

use crate::bursts;
use crate::drops;
use crate::lines;
use crate::reference::*;
use crate::runtime::*;
use crate::scenario::{Call, Machine, Scenario, Table};

/// Splitmix64.
pub struct Random(u64);

impl Random {
    pub fn new(seed: u64) -> Random {
        Random(seed.wrapping_mul(0x9E3779B97F4A7C15) ^ 0x5851F42D4C957F2D)
    }

    pub fn next(&mut self) -> u64 {
        self.0 = self.0.wrapping_add(0x9E3779B97F4A7C15);
        let mut z = self.0;
        z = (z ^ (z >> 30)).wrapping_mul(0xBF58476D1CE4E5B9);
        z = (z ^ (z >> 27)).wrapping_mul(0x94D049BB133111EB);
        z ^ (z >> 31)
    }

    /// A number below the bound, which isn't 0.
    pub fn below(&mut self, bound: usize) -> usize {
        (((self.next() >> 32) * bound as u64) >> 32) as usize
    }

    /// A number from least to most.
    pub fn from(&mut self, least: usize, most: usize) -> usize {
        least + self.below(most - least + 1)
    }

    pub fn percent(&mut self, chance: usize) -> bool {
        self.below(100) < chance
    }

    pub fn pick<T: Clone>(&mut self, list: &[T]) -> T {
        list[self.below(list.len())].clone()
    }

    /// A word, the ends and small numbers more often than others.
    pub fn word(&mut self) -> u16 {
        match self.below(6) {
            0 => self.pick(&[0, 1, 2, 0x7FFF, 0x8000, 0x8001, 0xFFFE, 0xFFFF]),
            1 | 2 => self.below(20) as u16,
            3 => (0u16).wrapping_sub(self.below(20) as u16),
            _ => self.next() as u16,
        }
    }
}

// ---------------------------------------------------------------------------------------------------------
// Programs

/// The sizes of a program and its store.
#[derive(Clone, Copy, Debug)]
pub struct Sizes {
    pub tasks: usize,
    pub events: usize,
    pub memory: usize,
    pub log_pairs: usize,
    pub queue_records: usize,
    /// The most instructions of a body.
    pub body: usize,
    /// Whether every body has that many.
    pub exact: bool,
    /// Whether bodies mostly fill the log.
    pub fill: bool,
}

impl Sizes {
    /// Where the store's log starts, and its queue.
    fn log(&self) -> usize {
        MEMORY + self.memory
    }

    fn queue(&self) -> usize {
        self.log() + 2 * self.log_pairs
    }
}

/// Sizes from the smallest to the limits, small ones mostly.
pub fn sizes(random: &mut Random) -> Sizes {
    let mut sizes = Sizes {
        tasks: random.from(1, 4),
        events: if random.percent(10) { 0 } else { random.from(1, 3) },
        memory: random.from(1, 8),
        log_pairs: random.from(1, 6),
        queue_records: random.from(1, 8),
        body: random.from(1, 14),
        exact: false,
        fill: false,
    };
    match random.below(1000) {
        // All at the limits.
        0 => {
            sizes = Sizes {
                tasks: 32,
                events: 16,
                memory: 1024,
                log_pairs: 64,
                queue_records: 32,
                body: 256,
                exact: true,
                fill: random.percent(30),
            }
        }
        // The smallest.
        1..=40 => {
            sizes = Sizes {
                tasks: 1,
                events: random.below(2),
                memory: random.from(1, 2),
                log_pairs: 1,
                queue_records: 1,
                body: random.from(1, 6),
                exact: false,
                fill: false,
            }
        }
        // One or more of them at its limit.
        41..=70 => {
            for _ in 0..random.from(1, 3) {
                match random.below(6) {
                    0 => sizes.tasks = 32,
                    1 => sizes.events = 16,
                    2 => sizes.memory = 1024,
                    3 => sizes.log_pairs = 64,
                    4 => sizes.queue_records = 32,
                    _ => {
                        sizes.body = 256;
                        sizes.exact = random.percent(50);
                    }
                }
            }
        }
        // A log of the largest size, and bodies that fill it.
        131..=134 => {
            sizes.memory = random.from(64, 70);
            sizes.log_pairs = 64;
            sizes.body = random.from(60, 140);
            sizes.exact = true;
            sizes.fill = true;
        }
        // A queue of the largest size.
        135..=144 => sizes.queue_records = 32,
        // Middling.
        71..=130 => {
            sizes = Sizes {
                tasks: random.from(1, 12),
                events: random.from(0, 8),
                memory: random.from(1, 80),
                log_pairs: random.from(1, 20),
                queue_records: random.from(1, 10),
                body: random.from(1, 50),
                exact: false,
                fill: false,
            }
        }
        _ => {}
    }
    sizes
}

/// An instruction's two words.
pub fn code(opcode: u16, a: usize, b: usize, k: usize) -> [u16; 2] {
    [opcode * 256 + (a as u16) * 16 + b as u16, k as u16]
}

fn opcode_of(words: &[u16; 2]) -> u16 {
    words[0] >> 8
}

fn is_jump(words: &[u16; 2]) -> bool {
    matches!(opcode_of(words), JUMP | JZ | JLT)
}

/// A body in the making.
struct Writer<'a> {
    random: &'a mut Random,
    sizes: Sizes,
    task: bool,
    /// The addresses that it prefers, so that the log doesn't always fill.
    pool: Vec<usize>,
    code: Vec<[u16; 2]>,
    /// Jumps ahead, as distances, to be cut to the body's length in the end.
    ahead: Vec<(usize, usize)>,
}

impl Writer<'_> {
    fn register(&mut self) -> usize {
        self.random.below(8)
    }

    fn address(&mut self) -> usize {
        if self.random.percent(85) {
            let which = self.random.below(self.pool.len());
            self.pool[which]
        } else {
            self.random.below(self.sizes.memory)
        }
    }

    fn end(&mut self) -> [u16; 2] {
        if self.task {
            code(GO, 0, 0, self.random.below(self.sizes.tasks))
        } else {
            code(DONE, 0, 0, 0)
        }
    }

    /// Any valid instruction for a body of this length.
    fn wild(&mut self, count: usize) -> [u16; 2] {
        let opcode = self.random.below(17) as u16;
        let a = self.register();
        let b = self.register();
        match opcode {
            SET => code(SET, a, 0, self.random.word() as usize),
            MOV | ADD | SUB | AND | OR | XOR => code(opcode, a, b, 0),
            SHR => code(SHR, a, 0, self.random.below(16)),
            LOAD | SAVE => code(opcode, a, 0, self.address()),
            LOADX | SAVEX => code(opcode, a, b, self.address()),
            JUMP => code(JUMP, 0, 0, self.random.below(count)),
            JZ => code(JZ, a, 0, self.random.below(count)),
            JLT => code(JLT, a, b, self.random.below(count)),
            _ => self.end(),
        }
    }

    /// One to some instructions of a body that mostly ends.
    fn snippet(&mut self) {
        let a = self.register();
        let b = self.register();
        match self.random.below(24) {
            0..=2 => {
                let word = self.random.word() as usize;
                self.code.push(code(SET, a, 0, word));
            }
            3..=5 => {
                let opcode = self.random.pick(&[MOV, ADD, SUB, AND, OR, XOR]);
                self.code.push(code(opcode, a, b, 0));
            }
            6 => {
                // Of a word that is seldom 0 after the shift, now and then.
                if self.random.percent(25) {
                    let word = self.random.next() as u16 | 1;
                    self.code.push(code(SET, a, 0, word as usize));
                }
                let k = self.random.below(16);
                self.code.push(code(SHR, a, 0, k));
            }
            7..=9 => {
                let k = self.address();
                self.code.push(code(LOAD, a, 0, k));
            }
            10..=14 => {
                let k = self.address();
                self.code.push(code(SAVE, a, 0, k));
            }
            // Inside the memory, by a register set just before.
            15 | 16 => {
                let opcode = self.random.pick(&[LOADX, SAVEX]);
                let address = self.address();
                let k = self.random.below(address + 1);
                self.code.push(code(SET, b, 0, address - k));
                self.code.push(code(opcode, a, b, k));
            }
            // Inside or outside.
            17 => {
                let opcode = self.random.pick(&[LOADX, SAVEX]);
                let k = self.address();
                match self.random.below(10) {
                    0 | 1 => self.code.push(code(opcode, a, b, k)),
                    // Outside, and inside again modulo 65536.
                    2 => {
                        let back = self.random.below(k + 1);
                        self.code.push(code(SET, b, 0, 65535 - back));
                        self.code.push(code(opcode, a, b, k));
                    }
                    // Just inside, or just outside.
                    3 => {
                        self.code.push(code(SET, b, 0, self.sizes.memory - k - self.random.below(2)));
                        self.code.push(code(opcode, a, b, k));
                    }
                    _ => {}
                }
            }
            18..=20 => {
                let ahead = self.random.from(1, 5);
                let words = match self.random.below(3) {
                    0 => code(JUMP, 0, 0, 0),
                    1 => code(JZ, a, 0, 0),
                    _ => code(JLT, a, b, 0),
                };
                // A comparison of telling values.
                if opcode_of(&words) == JLT && self.random.percent(30) {
                    let (word, other) = (self.random.word(), self.random.word());
                    self.code.push(code(SET, a, 0, word as usize));
                    self.code.push(code(SET, b, 0, other as usize));
                }
                self.ahead.push((self.code.len(), ahead));
                self.code.push(words);
            }
            // A loop that ends: register a counts down by register b.
            21 | 22 => {
                let b = if a == b { (b + 1) % 8 } else { b };
                let rounds = self.random.from(1, 4);
                self.code.push(code(SET, a, 0, rounds));
                let start = self.code.len();
                for _ in 0..self.random.below(3) {
                    let other = (a + self.random.from(1, 7)) % 8;
                    let k = self.address();
                    let opcode = self.random.pick(&[LOAD, SAVE]);
                    self.code.push(code(opcode, other, 0, k));
                }
                self.code.push(code(SET, b, 0, 1));
                self.code.push(code(SUB, a, b, 0));
                if self.random.percent(50) {
                    let out = self.code.len() + 2;
                    self.code.push(code(JZ, a, 0, out));
                    self.code.push(code(JUMP, 0, 0, start));
                } else {
                    self.code.push(code(SET, b, 0, 0));
                    self.code.push(code(JLT, b, a, start));
                }
            }
            _ => {
                if self.random.percent(20) {
                    let words = self.end();
                    self.code.push(words);
                }
            }
        }
    }
}

/// A body of at most, or exactly, `count` instructions.
fn body(random: &mut Random, sizes: Sizes, task: bool) -> Vec<[u16; 2]> {
    let count = if sizes.exact { sizes.body } else { random.from(1, sizes.body) };
    let preferred = if random.percent(85) { sizes.log_pairs.min(sizes.memory) } else { sizes.memory };
    let pool_size = random.from(1, preferred);
    let pool = (0..pool_size).map(|_| random.below(sizes.memory)).collect();
    let style = if sizes.fill && random.percent(70) { 1 } else { random.below(20) };
    let mut writer = Writer { random, sizes, task, pool, code: Vec::new(), ahead: Vec::new() };
    match style {
        // Anything valid.
        0 => {
            for _ in 1..count {
                let words = writer.wild(count);
                writer.code.push(words);
            }
        }
        // One that fills the log, or just doesn't.
        1 => {
            let start = writer.random.below(sizes.memory);
            for offset in 0..count - 1 {
                let a = writer.register();
                let address = (start + offset) % sizes.memory;
                // Behind the log's end, now and then one of its last pairs again.
                let again = offset >= sizes.log_pairs && writer.random.percent(60);
                let words = if again {
                    let back = writer.random.below(sizes.log_pairs.min(3));
                    let address = (start + sizes.log_pairs - 1 - back) % sizes.memory;
                    let opcode = writer.random.pick(&[LOAD, SAVE]);
                    code(opcode, a, 0, address)
                } else {
                    code(SAVE, a, 0, address)
                };
                writer.code.push(words);
            }
        }
        _ => {
            // Registers begin at 0: give some of them telling values.
            if writer.random.percent(50) {
                for _ in 0..writer.random.from(1, 3) {
                    let (a, word) = (writer.register(), writer.random.word());
                    writer.code.push(code(SET, a, 0, word as usize));
                }
            }
            while writer.code.len() + 1 < count {
                writer.snippet();
            }
        }
    }
    writer.code.truncate(count - 1);
    let last = if writer.random.percent(96) { writer.end() } else { code(JUMP, 0, 0, writer.random.below(count)) };
    writer.code.push(last);
    let Writer { mut code, ahead, .. } = writer;
    for (at, distance) in ahead {
        if at + 1 < count {
            code[at][1] = (at + distance) as u16;
        }
    }
    for words in code.iter_mut() {
        if is_jump(words) {
            words[1] = words[1].min(count as u16 - 1);
        }
    }
    code
}

/// A valid program for these sizes.
pub fn program(random: &mut Random, sizes: Sizes) -> Vec<u16> {
    let mut words = vec![PROGRAM_MARK, sizes.tasks as u16, sizes.events as u16, sizes.memory as u16];
    words.push(random.below(sizes.tasks) as u16);
    words.push(0);
    let one = random.from(1, 255) as u16;
    let other = random.pick(&[1, 2, 254, 255, one]);
    let numbers: &[u16] = match random.below(5) {
        0 => &[0],
        1 => &[one],
        2 => &[0, one],
        _ => &[0, one, other],
    };
    let mut start = 6 + 3 * (sizes.tasks + sizes.events);
    let mut bodies = Vec::new();
    for number in 0..sizes.tasks + sizes.events {
        let task = number < sizes.tasks;
        let code = body(random, sizes, task);
        words.push(start as u16);
        words.push(code.len() as u16);
        words.push(if task { random.pick(numbers) } else { 0 });
        start += 2 * code.len();
        bodies.push(code);
    }
    for code in bodies {
        for instruction in code {
            words.extend_from_slice(&instruction);
        }
    }
    words[5] = words.len() as u16;
    words
}

// ---------------------------------------------------------------------------------------------------------
// Schedules

/// What a schedule does often, in parts of the whole.
#[derive(Clone, Copy)]
struct Mood {
    step: usize,
    run: usize,
    post: usize,
    cut: usize,
    /// The chance in percent of a cut where one is telling: in a commit, half a SAVE or a handler at work.
    aimed_cut: usize,
}

const MOODS: [Mood; 6] = [
    Mood { step: 60, run: 10, post: 20, cut: 2, aimed_cut: 4 },
    Mood { step: 50, run: 4, post: 10, cut: 2, aimed_cut: 25 },
    Mood { step: 60, run: 0, post: 40, cut: 0, aimed_cut: 0 },
    Mood { step: 10, run: 60, post: 25, cut: 3, aimed_cut: 3 },
    Mood { step: 90, run: 3, post: 3, cut: 1, aimed_cut: 1 },
    Mood { step: 45, run: 5, post: 45, cut: 3, aimed_cut: 10 },
];

/// For exam sheets, which show what is left at cuts.
const MOODS_WITH_CUTS: [Mood; 5] = [
    Mood { step: 80, run: 5, post: 10, cut: 1, aimed_cut: 2 },
    Mood { step: 70, run: 5, post: 20, cut: 2, aimed_cut: 5 },
    Mood { step: 60, run: 5, post: 30, cut: 1, aimed_cut: 10 },
    Mood { step: 60, run: 2, post: 15, cut: 1, aimed_cut: 25 },
    Mood { step: 40, run: 25, post: 20, cut: 6, aimed_cut: 8 },
];

struct Schedule {
    random: Random,
    sizes: Sizes,
    moods: &'static [Mood],
    mood: Mood,
    machine: Machine,
    kept: Machine,
    calls: Vec<Call>,
    /// The latest call was refused with 23 or 24.
    stuck: bool,
    /// The line tables; without any, no line is raised.
    tables: Vec<Table>,
    /// Whether there are bursts besides posts.
    bursts: bool,
}

impl Schedule {
    fn make(&mut self, call: Call) {
        if let Some(outcome) = self.machine.call(&Reference, &call) {
            self.stuck = matches!(outcome.refusal(), Some(refusal) if refusal.number == 23 || refusal.number == 24);
        } else {
            self.machine.change(&call, &mut self.kept);
        }
        self.calls.push(call);
    }

    fn budget(&mut self) -> u32 {
        // The largest budgets only where the run ends soon.
        if self.random.percent(10) && self.machine.ends_within(&Reference, 200) {
            return self.random.pick(&[u32::MAX, u32::MAX - 1, 1 << 31, 1 << 16]);
        }
        match self.random.below(10) {
            0 => 0,
            1 => 1,
            2..=5 => self.random.from(2, 12) as u32,
            6..=8 => self.random.from(5, 60) as u32,
            _ => self.random.from(20, 300) as u32,
        }
    }

    fn post(&mut self) -> Call {
        let events = self.sizes.events;
        let event = if events > 0 && self.random.percent(95) {
            self.random.below(events) as u16
        } else if self.random.percent(50) {
            events as u16
        } else {
            self.random.word()
        };
        Call::Post { event, datum: self.random.word() }
    }

    /// How many records more the queue takes; 0 where the store doesn't tell.
    fn room(&self) -> usize {
        let store = &self.machine.store;
        let ring = |index: usize| store[index] <= store[3];
        if store.len() < MEMORY || !ring(HEAD) || !ring(TAIL) {
            return 0;
        }
        bursts::room(store)
    }

    fn burst(&mut self) -> Call {
        let (events, room) = (self.sizes.events, self.room());
        bursts::generate::burst(&mut self.random, events, room)
    }

    /// A raise in the place of a post, so often in a hundred; of the rest more bursts than posts.
    fn post_or_raise(&mut self, chance: usize) -> Call {
        if self.tables.is_empty() || !self.random.percent(chance) {
            return if self.bursts && self.random.percent(60) { self.burst() } else { self.post() };
        }
        let table = self.random.pick(&self.tables);
        lines::generate::raise(&mut self.random, &table)
    }

    /// The check of one of the tables, or of another.
    fn lines_check(&mut self) -> Call {
        let table = match self.random.below(3) {
            0 => self.random.pick(&self.tables),
            _ => lines::generate::any_table(&mut self.random, self.sizes.events).into(),
        };
        Call::LinesCheck { table }
    }

    /// A word of the store; 0 where it has none of this index.
    fn word(&self, index: usize) -> u16 {
        self.machine.store.get(index).copied().unwrap_or(0)
    }

    /// Whether a cut or damage is telling here: in a commit, half a SAVE, an ending or a handler at work.
    fn telling(&self) -> bool {
        let device = &self.machine.device;
        let half = matches!(device.place, Place::HalfSave { .. });
        let ending = matches!(device.place, Place::Running { ending, .. } if ending > 0);
        self.word(PHASE) != 0 || half || ending || device.handler.is_some()
    }

    /// Whether a cut is telling here: there, or at a body's first instruction.
    fn cut_telling(&self) -> bool {
        self.telling() || matches!(self.machine.device.place, Place::Running { instruction: 0, .. })
    }

    /// The next call of an undamaged list.
    fn next(&mut self) -> Call {
        if self.random.percent(2) {
            self.mood = self.random.pick(self.moods);
        }
        let device = self.machine.device;
        if !self.tables.is_empty() && self.random.percent(2) {
            return self.lines_check();
        }
        if !device.on {
            return match self.random.below(100) {
                0..=3 => Call::Step,
                4..=7 => self.post_or_raise(50),
                8..=10 => Call::Cut,
                11..=13 => Call::Run { budget: self.budget() },
                14 => Call::Check,
                _ => Call::Boot,
            };
        }
        if self.cut_telling() && self.random.percent(self.mood.aimed_cut) {
            return Call::Cut;
        }
        if self.stuck && self.random.percent(15) {
            return Call::Cut;
        }
        if self.random.percent(1) {
            return self.random.pick(&[Call::Boot, Call::Boot, Call::Check]);
        }
        let Mood { step, run, post, cut, .. } = self.mood;
        let mut which = self.random.below(step + run + post + cut);
        if which < step {
            return Call::Step;
        }
        which -= step;
        if which < run {
            return Call::Run { budget: self.budget() };
        }
        which -= run;
        if which < post {
            // A queue that is full, or a handler at work, is met often enough.
            if (self.room() == 0 || device.handler.is_some()) && self.random.percent(70) {
                return Call::Step;
            }
            return self.post_or_raise(50);
        }
        Call::Cut
    }

    /// The steps of a run, up to the one that is refused.
    fn steps(&mut self, budget: u32) {
        for _ in 0..budget {
            self.make(Call::Step);
            if self.stuck || !self.machine.device.on {
                break;
            }
        }
    }

    /// A call on a damaged machine: any of them.
    fn next_damaged(&mut self) -> Call {
        match self.random.below(100) {
            0..=5 => Call::Check,
            6..=9 => {
                let Sizes { log_pairs, queue_records, .. } = self.sizes;
                let mut log_pairs = log_pairs as u16;
                let mut queue_records = queue_records as u16;
                match self.random.below(6) {
                    0 => log_pairs = self.random.pick(&[0, 65, 64, 0xFFFF, log_pairs + 1]),
                    1 => queue_records = self.random.pick(&[0, 33, 32, 0xFFFF, queue_records + 1]),
                    _ => {}
                }
                Call::Format { log_pairs, queue_records }
            }
            10..=21 => Call::Boot,
            22..=33 => self.post_or_raise(50),
            34..=39 => Call::Cut,
            40..=49 => Call::Run { budget: self.budget() },
            _ => Call::Step,
        }
    }

    // -----------------------------------------------------------------------------------------------------
    // Damage

    /// A word near a limit or near what was there.
    fn telling_word(&mut self, old: u16) -> u16 {
        let Sizes { tasks, events, memory, log_pairs, queue_records, .. } = self.sizes;
        let limit = self.random.pick(&[tasks, events, memory, log_pairs, queue_records, 3, 256, 16]) as u16;
        match self.random.below(12) {
            0 => old.wrapping_add(1),
            1 => old.wrapping_sub(1),
            2 => limit,
            3 => limit.wrapping_add(1),
            4 => limit.wrapping_sub(1),
            5..=7 => self.random.below(5) as u16,
            8 => old ^ (1 << self.random.below(16)),
            9 => self.random.pick(&[0xFFFF, 0x8000, 0, 16, 17, 32, 33, 64, 65, 255, 256, 257, 1024, 1025]),
            10 => self.random.below(limit as usize + 2) as u16,
            _ => self.random.word(),
        }
    }

    /// The body that runs, or would be chosen, as a row's number. Any number may come of a damaged machine.
    fn body_at_hand(&self) -> usize {
        let store = &self.machine.store;
        let word = |index: usize| store.get(index).copied().unwrap_or(0) as usize;
        match self.machine.device.place {
            Place::Running { body, .. } | Place::HalfSave { body, .. } => match body {
                Body::Task(task) => task as usize,
                Body::Event(event) => self.sizes.tasks + event as usize,
            },
            _ => {
                let slot = word(7) + 2 * word(HEAD);
                if word(OPEN) == 0 && word(HEAD) != word(TAIL) {
                    self.sizes.tasks + word(slot)
                } else {
                    word(TASK)
                }
            }
        }
    }

    fn instruction_at_hand(&self) -> usize {
        match self.machine.device.place {
            Place::Running { instruction, .. } | Place::HalfSave { instruction, .. } => instruction as usize,
            _ => 0,
        }
    }

    /// Whether a word of a body may be SHR's k.
    fn shifts_by(&self, index: usize) -> bool {
        self.machine.program.get(index - 1).is_some_and(|word| word >> 8 == SHR)
    }

    fn damage_program(&mut self) {
        let program = &self.machine.program;
        let rows_end = 6 + 3 * (self.sizes.tasks + self.sizes.events);
        let old_at = |index: usize| program.get(index).copied().unwrap_or(0);
        let at_hand = self.body_at_hand();
        let start = old_at(6 + 3 * at_hand) as usize;
        let here = start + 2 * self.instruction_at_hand();
        let choice = self.random.below(100);
        let index = match choice {
            0..=14 => self.random.below(6),
            15..=24 => 6 + self.random.below(rows_end - 6),
            25..=44 => 6 + 3 * at_hand + self.random.below(3),
            // The row of the task that a GO at hand names.
            45..=54 => 6 + 3 * self.machine.program.get(here + 1).copied().unwrap_or(0) as usize + self.random.below(3),
            55..=84 => here + self.random.below(2),
            _ => self.random.below(self.machine.program.len().max(1)),
        };
        let old = self.machine.program.get(index).copied().unwrap_or(0);
        let mut word = self.telling_word(old);
        // Words 1 to 3: just outside the limits.
        if (1..=3).contains(&index) && self.random.percent(30) {
            word = [33, 17, 1025][index - 1];
        }
        // Instruction words: another opcode or another field, more often than noise.
        if index >= rows_end && (index - rows_end) % 2 == 0 {
            word = match self.random.below(6) {
                0 => (old & 0x00FF) | ((self.random.below(19) as u16) << 8),
                1 => self.random.pick(&[JUMP, GO, DONE, SAVE, SAVEX, JZ]) << 8,
                2 => old ^ (1 << self.random.below(8)),
                3 => old ^ (8 << (4 * self.random.below(2))),
                4 => self.random.pick(&[17u16, 18, 128, 255]) << 8,
                _ => word,
            };
        }
        if index >= rows_end && self.shifts_by(index) && self.random.percent(40) {
            word = 16;
        }
        self.make(Call::SetProgram { index, word });
        // A row that is changed so as to stay right in a step's eyes.
        if self.random.percent(3) {
            let index = 6 + 3 * at_hand;
            let word = rows_end + 2 * self.random.below(4) + self.random.below(2);
            self.make(Call::SetProgram { index, word: word as u16 });
        }
    }

    fn damage_program_length(&mut self) {
        let length = self.machine.program.len();
        let rows_end = 6 + 3 * (self.sizes.tasks + self.sizes.events);
        let new = match self.random.below(6) {
            0 => self.random.below(8),
            1 => length + self.random.from(1, 3),
            2 => length.saturating_sub(self.random.from(1, 3)),
            3 => self.random.below(rows_end + 1),
            4 => self.random.below(length + 1),
            _ => self.random.pick(&[0, 5, 6, 65535, 65536, 65536 + length]),
        };
        self.make(Call::ProgramLength(new));
        if self.random.percent(60) {
            self.make(Call::SetProgram { index: 5, word: new as u16 });
        }
    }

    fn damage_store(&mut self) {
        let Sizes { memory, log_pairs, queue_records, .. } = self.sizes;
        let (log, queue) = (self.sizes.log(), self.sizes.queue());
        let head = self.word(HEAD) as usize;
        let count = (self.word(COUNT) as usize).min(log_pairs).max(1);
        let index = match self.random.below(100) {
            0..=9 => self.random.below(CONTROL),
            10..=53 => self.random.from(CONTROL, MEMORY - 1),
            54..=59 => BEGUN,
            60..=64 => MEMORY + self.random.below(memory),
            65..=71 => log + self.random.below(2 * log_pairs),
            // An address that a commit copies.
            72..=79 => log + 2 * self.random.below(count),
            80..=89 => queue + self.random.below(2 * queue_records + 2),
            _ => queue + 2 * head,
        };
        let word = match index {
            BEGUN if self.random.percent(70) => self.random.below(4) as u16,
            _ => self.telling_word(self.word(index)),
        };
        self.make(Call::SetStore { index, word });
    }

    fn damage_store_length(&mut self) {
        let length = self.machine.store.len();
        let new = match self.random.below(4) {
            0 => self.random.below(20),
            1 => length + self.random.from(1, 2),
            2 => length.saturating_sub(self.random.from(1, 2)),
            _ => self.random.below(length + 1),
        };
        self.make(Call::StoreLength(new));
    }

    /// Word 16 in phase 0 as the device has it, mostly, so that 25 asks for the rest; in another phase anything.
    fn begin_what_runs(&mut self) {
        let word = match self.word(PHASE) {
            0 if self.random.percent(88) => running_word(&self.machine.device),
            0 => return,
            _ => self.random.below(3) as u16,
        };
        self.make(Call::SetStore { index: BEGUN, word });
    }

    /// Control words that may well be right, though no list of calls leads there.
    fn strange_control(&mut self) {
        let Sizes { tasks, memory, log_pairs, queue_records, events, .. } = self.sizes;
        let phase = self.random.below(3);
        let task = self.random.below(tasks);
        let head = self.random.below(queue_records + 1);
        let tail = self.random.below(queue_records + 1);
        let after_head = (head + 1) % (queue_records + 1);
        let open = if phase == 2 || self.random.percent(60) {
            0
        } else {
            self.machine.program.get(8 + 3 * task).copied().unwrap_or(0)
        };
        let pending = match phase {
            2 => self.random.pick(&[head, after_head]),
            _ => self.random.below(tasks),
        };
        let pending_open = if self.random.percent(50) {
            0
        } else {
            self.machine.program.get(8 + 3 * pending).copied().unwrap_or(0)
        };
        let count = self.random.below(log_pairs + 1);
        // A 2 where it may be.
        let begun = self.random.below(if phase != 0 || (head != tail && open == 0) { 3 } else { 2 });
        let words = [phase, task, open as usize, count, pending, pending_open as usize, head, tail, begun];
        for (offset, word) in words.iter().enumerate() {
            self.make(Call::SetStore { index: CONTROL + offset, word: *word as u16 });
        }
        if self.random.percent(60) {
            for pair in 0..log_pairs.min(8) {
                let word = self.random.below(memory) as u16;
                self.make(Call::SetStore { index: self.sizes.log() + 2 * pair, word });
            }
        }
        if events > 0 && self.random.percent(60) {
            for slot in 0..(queue_records + 1).min(8) {
                let word = self.random.below(events) as u16;
                self.make(Call::SetStore { index: self.sizes.queue() + 2 * slot, word });
            }
        }
    }

    /// Several rules of 7 broken: control words that are right in a phase, with right log addresses and records; then
    /// two to six of all these words changed so as to break a rule; then calls that meet it.
    fn several_broken(&mut self) {
        let Sizes { events, memory, .. } = self.sizes;
        self.strange_control();
        let head = self.word(HEAD);
        // Without events no record is right. In phase 2 with the queue empty, 12 equals head.
        if events == 0 {
            self.make(Call::SetStore { index: TAIL, word: head });
        }
        if self.word(PHASE) == 2 && self.word(TAIL) == head {
            self.make(Call::SetStore { index: PENDING, word: head });
        }
        for index in broken(&self.machine.program, &self.machine.store).all {
            let bound = match index as usize {
                BEGUN => 1,
                index if index < MEMORY => continue,
                index if index < self.sizes.queue() => memory,
                _ => events,
            };
            let word = self.random.below(bound) as u16;
            self.make(Call::SetStore { index: index as usize, word });
        }
        let (control, late) = self.words_with_rules();
        let words = match self.random.below(10) {
            0..=4 => control,
            5 | 6 => self.shuffled([control, late].concat()),
            _ if late.is_empty() => control,
            _ => late,
        };
        let many = self.random.pick(&[2, 2, 2, 2, 3, 3, 4, 5, 6]);
        let start = self.random.below(words.len());
        for offset in 0..many.min(words.len()) {
            let index = words[(start + offset) % words.len()];
            let word = self.breaking_word(index);
            self.make(Call::SetStore { index, word });
        }
        self.calls_on_broken();
    }

    /// The control words that have a rule in this phase, now and then the phase itself; and the words of rules that
    /// need a row, a log pair or a record. Each list in a random order.
    fn words_with_rules(&mut self) -> (Vec<usize>, Vec<usize>) {
        let Sizes { log_pairs, queue_records, .. } = self.sizes;
        let (log, queue) = (self.sizes.log(), self.sizes.queue());
        let word = |index: usize| self.word(index) as usize;
        let (mut control, mut late) = match word(PHASE) {
            0 => (vec![TASK, OPEN, HEAD, TAIL, BEGUN], vec![OPEN]),
            1 => (vec![TASK, COUNT, PENDING, PENDING_OPEN, HEAD, TAIL, BEGUN], vec![PENDING_OPEN]),
            _ => (vec![TASK, OPEN, COUNT, PENDING, HEAD, TAIL, BEGUN], vec![]),
        };
        if word(PHASE) != 0 {
            late.extend((0..word(COUNT).min(log_pairs)).map(|pair| log + 2 * pair));
        }
        let first = word(if word(PHASE) == 2 { PENDING } else { HEAD });
        let slots = (0..=queue_records).map(|offset| (first + offset) % (queue_records + 1));
        late.extend(slots.take_while(|slot| *slot != word(TAIL)).map(|slot| queue + 2 * slot));
        if self.random.percent(15) {
            control.push(PHASE);
        }
        (self.shuffled(control), self.shuffled(late))
    }

    fn shuffled(&mut self, mut words: Vec<usize>) -> Vec<usize> {
        for at in 1..words.len() {
            words.swap(at, self.random.below(at + 1));
        }
        words
    }

    /// A word that breaks a rule in its place, mostly.
    fn breaking_word(&mut self, index: usize) -> u16 {
        let Sizes { tasks, events, memory, log_pairs, queue_records, .. } = self.sizes;
        let bound = match index {
            PHASE => 3,
            TASK => tasks,
            // A 2, too, which other words may not allow in phase 0.
            BEGUN if self.word(PHASE) == 0 && self.random.percent(50) => return EVENT_BEGUN,
            BEGUN => 3,
            OPEN | PENDING_OPEN => {
                let task = self.random.below(tasks);
                let number = self.machine.program.get(8 + 3 * task).copied().unwrap_or(0);
                return self.random.pick(&[1, 255, 256, 65535, number, number.wrapping_add(1)]);
            }
            COUNT => log_pairs + 1,
            // A slot of the ring, too.
            PENDING if self.word(PHASE) == 2 && self.random.percent(40) => {
                return self.random.below(queue_records + 1) as u16
            }
            PENDING if self.word(PHASE) == 1 => tasks,
            PENDING | HEAD | TAIL => queue_records + 1,
            _ if index < self.sizes.queue() => memory,
            _ => events,
        };
        self.random.pick(&[bound as u16, bound as u16, bound as u16 + 1, 0x8000, 0xFFFF])
    }

    /// A place that fits the phase, and word 16 mostly.
    fn fitting_place(&mut self) -> Place {
        let record = self.sizes.queue() + 2 * self.word(HEAD) as usize;
        let event = self.word(record).min(self.sizes.events.saturating_sub(1) as u16);
        let task = self.word(TASK);
        let begun = match self.word(BEGUN) {
            begun if begun <= EVENT_BEGUN && self.random.percent(85) => begun,
            _ => self.random.below(3) as u16,
        };
        let (body, row) = match begun {
            EVENT_BEGUN => (Body::Event(event), self.sizes.tasks + event as usize),
            _ => (Body::Task(task), task as usize),
        };
        let count = self.machine.program.get(7 + 3 * row).copied().unwrap_or(1).max(1);
        let pairs = self.word(COUNT).min(self.sizes.log_pairs as u16);
        match self.word(PHASE) {
            0 if begun == NOTHING_BEGUN => Place::NoBody { commit: 0 },
            0 => Place::Running { body, instruction: self.random.below(count as usize) as u16, ending: 0 },
            _ => Place::NoBody { commit: self.random.below(pairs as usize + 4) as u16 },
        }
    }

    /// Calls that look at 7, on devices that fit the phase.
    fn calls_on_broken(&mut self) {
        for _ in 0..self.random.from(1, 3) {
            let place = self.fitting_place();
            self.make(Call::SetDevice(Device { place, ..Device::ON }));
            let call = match self.random.below(13) {
                0..=2 => Call::Boot,
                3..=5 => self.post(),
                6 => self.post_or_raise(40),
                7 | 8 => Call::Run { budget: self.budget() },
                _ => Call::Step,
            };
            // What a step uses of the program comes between the first look and some of the rest of 7.
            if matches!(call, Call::Step) && self.random.percent(15) {
                self.damage_program();
            }
            self.make(call);
        }
    }

    /// A commit close to its last store, with anything in word 16; its store, and what comes after.
    fn closing_commit(&mut self) {
        self.strange_control();
        let last = self.word(COUNT) + if self.word(PHASE) == 1 { 3 } else { 2 };
        if self.word(PHASE) == 0 {
            return;
        }
        let commit = if self.random.percent(75) { last } else { last - 1 };
        self.make(Call::SetDevice(Device { place: Place::NoBody { commit }, ..Device::ON }));
        let run = Call::Run { budget: self.random.from(1, 9) as u32 };
        let first = if self.random.percent(70) { Call::Step } else { run.clone() };
        self.make(first);
        let next = match self.random.below(6) {
            0 | 1 => Call::Step,
            2 => self.post_or_raise(25),
            3 => run,
            _ => Call::Cut,
        };
        let boots = next == Call::Cut;
        self.make(next);
        if boots {
            self.make(Call::Boot);
        }
    }

    /// An event that runs, as word 16 says, and isn't the record's at head, mostly.
    fn another_event(&mut self) {
        let Sizes { events, queue_records, .. } = self.sizes;
        if events == 0 {
            return;
        }
        let head = self.random.below(queue_records + 1);
        let tail = (head + self.random.from(1, queue_records)) % (queue_records + 1);
        let record = self.random.below(events) as u16;
        let words = [(PHASE, 0), (OPEN, 0), (HEAD, head as u16), (TAIL, tail as u16), (BEGUN, EVENT_BEGUN)];
        for (index, word) in words.into_iter().chain([(self.sizes.queue() + 2 * head, record)]) {
            self.make(Call::SetStore { index, word });
        }
        let body = Body::Event(self.random.below(events) as u16);
        self.make(Call::SetDevice(Device { place: Place::Running { body, instruction: 0, ending: 0 }, ..Device::ON }));
        let call = match self.random.below(3) {
            0 => self.post_or_raise(25),
            1 => Call::Run { budget: self.budget() },
            _ => Call::Step,
        };
        self.make(call);
    }

    /// Any handler at work, on a store that may be strange, and a call that meets it.
    fn strange_handler(&mut self) {
        if self.random.percent(60) {
            self.strange_control();
            let place = self.fitting_place();
            self.make(Call::SetDevice(Device { place, ..Device::ON }));
        }
        let (events, room) = (self.sizes.events, self.room());
        let handler = Some(bursts::generate::handler(&mut self.random, events, room));
        self.make(Call::SetDevice(Device { handler, ..self.machine.device }));
        let call = match self.random.below(4) {
            0 => self.post(),
            1 => self.burst(),
            2 => Call::Run { budget: self.budget() },
            _ => Call::Step,
        };
        self.make(call);
    }

    /// A queue that is full, mostly, with any handler that drops or has dropped, or a post to it; records are bad now and
    /// then.
    fn strange_drop(&mut self) {
        let Sizes { events, queue_records, .. } = self.sizes;
        self.strange_control();
        let handler = drops::generate::handler(&mut self.random, events);
        let handler = self.random.percent(75).then_some(handler);
        let filled = drops::generate::filled(&mut self.random, queue_records, handler);
        let tail = (self.word(HEAD) as usize + filled) % (queue_records + 1);
        self.make(Call::SetStore { index: TAIL, word: tail as u16 });
        if self.random.percent(25) {
            // At head, or after tail, where a record has been dropped.
            let after_tail = (tail + 1) % (queue_records + 1);
            let slot = match self.random.below(5) {
                0 | 1 => self.word(HEAD) as usize,
                2 | 3 => after_tail,
                _ => self.random.below(queue_records + 1),
            };
            let (word, _) = drops::generate::record(&mut self.random, events, 80);
            self.make(Call::SetStore { index: self.sizes.queue() + 2 * slot, word });
        }
        let place = self.fitting_place();
        let on = handler.is_none() || self.random.percent(92);
        self.make(Call::SetDevice(Device { on, place, handler, ..Device::ON }));
        let call = match self.random.below(8) {
            0 => self.post(),
            1 => self.burst(),
            2 | 3 => self.post_or_raise(100),
            4 => Call::Run { budget: self.budget() },
            _ if handler.is_none() => self.post_or_raise(50),
            _ => Call::Step,
        };
        self.make(call);
    }

    /// An event's commit before its head has moved, and just too little room for a burst, which would fit by word 12: a
    /// handler at work with it, or the burst itself.
    fn one_short(&mut self) {
        let Sizes { events, queue_records, .. } = self.sizes;
        self.strange_control();
        let length = self.random.from(1, queue_records.min(MAX_BURST));
        let (slots, head) = (queue_records + 1, self.random.below(queue_records + 1));
        let tail = (head + queue_records + 1 - length) % slots;
        let words = [(PHASE, 2), (OPEN, 0), (PENDING, (head + 1) % slots), (HEAD, head), (TAIL, tail)];
        for (index, word) in words {
            self.make(Call::SetStore { index, word: word as u16 });
        }
        let mut words = [0; BURST_WORDS];
        words.iter_mut().step_by(2).for_each(|event| *event = self.random.below(events.max(1)) as u16);
        let handler = Handler { made: self.random.below(2 * length + 1) as u16, ..Handler::new(length as u16, &words) };
        let handler = self.random.percent(60).then_some(handler);
        let place = Place::NoBody { commit: self.random.below(2) as u16 };
        self.make(Call::SetDevice(Device { place, handler, ..Device::ON }));
        let call = match self.random.below(4) {
            0 => self.post(),
            1 => Call::Run { budget: self.budget() },
            2 if handler.is_some() => Call::Step,
            _ => Call::Burst { count: length as u16, words },
        };
        self.make(call);
    }

    /// Totals near their largest value, and a burst with its steps.
    fn burst_at_the_largest(&mut self) {
        let mut total = || u32::MAX - self.random.below(6) as u32;
        let totals = Totals { committed: total(), accepted: total(), stores: total() };
        self.make(Call::SetTotals(totals));
        let burst = self.burst();
        self.make(burst);
        if self.random.percent(30) {
            let budget = self.random.from(1, 12) as u32;
            return self.make(Call::Run { budget });
        }
        for _ in 0..self.random.from(1, 9) {
            self.make(Call::Step);
        }
    }

    /// A device that may well fit, though no list of calls leads there.
    fn strange_device(&mut self) {
        let Sizes { tasks, events, log_pairs, .. } = self.sizes;
        let mut device = Device::ON;
        for register in device.registers.iter_mut() {
            *register = if self.random.percent(40) { 0 } else { self.random.word() };
        }
        let at_hand = self.body_at_hand();
        let body = match self.random.below(10) {
            0 => Body::Task(self.random.below(tasks + 1) as u16),
            1 => Body::Event(self.random.below(events + 1) as u16),
            _ if at_hand < tasks => Body::Task(at_hand as u16),
            _ => Body::Event((at_hand - tasks) as u16),
        };
        let row = match body {
            Body::Task(task) => task as usize,
            Body::Event(event) => tasks + event as usize,
        };
        let word_at = |machine: &Machine, index: usize| machine.program.get(index).copied().unwrap_or(0) as usize;
        let start = word_at(&self.machine, 6 + 3 * row);
        let count = word_at(&self.machine, 7 + 3 * row);
        let mut instruction = self.random.below(count + 1 + count / 8);
        let half = self.random.percent(30);
        let ending = if self.random.percent(40) { self.random.below(5) as u16 } else { 0 };
        // Look for an instruction that half a SAVE or an ending needs.
        for offset in 0..count.min(256) {
            let candidate = (instruction + offset) % count.max(1);
            let opcode = (word_at(&self.machine, start + 2 * candidate) >> 8) as u16;
            let fits = if half { opcode == SAVE || opcode == SAVEX } else { opcode == GO || opcode == DONE };
            if fits && (half || ending > 0) && self.random.percent(80) {
                instruction = candidate;
                break;
            }
        }
        let instruction = instruction as u16;
        device.place = match self.random.below(4) {
            0 => {
                let count = self.word(COUNT).min(70) as usize;
                let commit = if self.word(PHASE) == 0 { self.random.below(2) } else { self.random.below(count + 5) };
                Place::NoBody { commit: commit as u16 }
            }
            _ if half => Place::HalfSave { body, instruction },
            _ => Place::Running { body, instruction, ending },
        };
        device.log_count = self.random.below(log_pairs + 1) as u16;
        if self.random.percent(4) {
            device.log_count = log_pairs as u16 + 1;
        }
        if self.random.percent(35) {
            let room = self.room();
            device.handler = Some(bursts::generate::handler(&mut self.random, events, room));
        }
        if self.random.percent(5) {
            device.on = false;
        }
        self.make(Call::SetDevice(device));
        self.begin_what_runs();
    }

    /// Several pairs of the log with the address of the instruction at hand, if it has one.
    fn double_pairs(&mut self) {
        let start = self.machine.program.get(6 + 3 * self.body_at_hand()).copied().unwrap_or(0) as usize;
        let here = start + 2 * self.instruction_at_hand();
        let word = self.machine.program.get(here + 1).copied().unwrap_or(0);
        let log_pairs = self.sizes.log_pairs;
        for pair in 0..log_pairs.min(6) {
            if self.random.percent(60) {
                let index = self.sizes.log() + 2 * pair;
                self.make(Call::SetStore { index, word });
                let word = self.random.word();
                self.make(Call::SetStore { index: index + 1, word });
            }
        }
        let mut device = self.machine.device;
        device.log_count = self.random.from(0, log_pairs) as u16;
        self.make(Call::SetDevice(device));
    }

    /// One field of the device changed.
    fn damage_device(&mut self) {
        for _ in 0..8 {
            let mut words = self.machine.device.to_words();
            let index = match self.random.below(4) {
                0 => self.random.below(DEVICE_WORDS),
                1 if words[15] != 0 => self.random.from(15, 25),
                _ => self.random.from(9, 17),
            };
            words[index] = match index {
                0 => 1 - words[0].min(1),
                9 => self.random.below(3) as u16,
                10 => self.random.below(2) as u16,
                15 => self.random.below(4) as u16,
                16 => self.random.pick(&[0, 1, 2, 3, 4, 5, 6, 65535]),
                17 => self.random.pick(&[0, 1, 2, 3, 4, 5, 6, 7, 8, 9, 10, 65535]),
                _ => self.telling_word(words[index]),
            };
            if let Some(device) = Device::from_words(&words) {
                if device != self.machine.device {
                    self.make(Call::SetDevice(device));
                    if self.random.percent(60) {
                        self.begin_what_runs();
                    }
                    return;
                }
            }
        }
    }

    /// The device, now and then with a handler that drops.
    fn with_handler_now_and_then(&mut self) -> Device {
        let handler = drops::generate::handler(&mut self.random, self.sizes.events);
        match self.random.percent(25) {
            true => Device { handler: Some(handler), ..self.machine.device },
            false => self.machine.device,
        }
    }

    /// Words in the device's place, a device's or not: one word of a device changed, or several, or any words.
    /// Where they are no device's, some calls on them.
    fn device_words(&mut self) {
        let mut words = self.with_handler_now_and_then().to_words();
        let changes = match self.random.below(10) {
            0..=5 => 1,
            6 | 7 => self.random.from(2, 4),
            _ => 0,
        };
        for _ in 0..changes {
            let index = match self.random.below(3) {
                0 => self.random.below(DEVICE_WORDS),
                1 => self.random.pick(&[0, 9, 10, 15, 16, 18, 20, 22, 24, 25]),
                _ => self.random.from(9, 17),
            };
            words[index] = match self.random.below(3) {
                0 => self.random.below(6) as u16,
                1 => self.random.pick(&[256, 257, 0x8000, 0xFF00, 0xFFFF]),
                _ => self.telling_word(words[index]),
            };
        }
        if changes == 0 {
            let small = self.random.percent(50);
            for word in words.iter_mut() {
                *word = if small { self.random.below(4) as u16 } else { self.random.word() };
            }
        }
        if let Some(device) = Device::from_words(&words) {
            return self.make(Call::SetDevice(device));
        }
        self.make(Call::SetWords(words));
        for _ in 0..self.random.from(1, 3) {
            // A cut leaves a device state: the largest budget is for words that are none.
            if self.machine.stray.is_none() {
                break;
            }
            let call = match self.random.below(6) {
                0 => Call::Boot,
                1 => self.post_or_raise(70),
                2 => Call::Cut,
                3 => Call::Run { budget: self.random.pick(&[0, 1, 2, 50, u32::MAX]) },
                _ => Call::Step,
            };
            self.make(call);
        }
    }

    fn damage_once(&mut self) {
        match self.random.below(100) {
            0..=5 => return self.device_words(),
            6..=12 => return self.several_broken(),
            13 | 14 => return self.closing_commit(),
            15 => return self.another_event(),
            16..=22 => return self.strange_handler(),
            23 => return self.one_short(),
            24 | 25 => return self.burst_at_the_largest(),
            26..=29 => return self.strange_drop(),
            _ => {}
        }
        match self.random.below(100) {
            0..=29 => self.damage_program(),
            30..=34 => self.damage_program_length(),
            35..=63 => self.damage_store(),
            64..=66 => self.damage_store_length(),
            67..=77 => self.damage_device(),
            78 | 79 => {
                if self.random.percent(60) {
                    self.strange_device();
                }
                self.double_pairs();
            }
            80..=91 => self.strange_device(),
            92..=97 => {
                self.strange_control();
                if self.random.percent(80) {
                    self.strange_device();
                }
            }
            _ => {
                let mut total = || self.random.pick(&[0, 1, u32::MAX, u32::MAX - 1, u32::MAX - 3]);
                let totals = Totals { committed: total(), accepted: total(), stores: total() };
                self.make(Call::SetTotals(totals));
            }
        }
    }
}

/// A scenario. Undamaged ones have calls only.
pub fn scenario(seed: u64, damaged: bool) -> Scenario {
    let mut random = Random::new(seed);
    let sizes = sizes(&mut random);
    let program = program(&mut random, sizes);
    let totals = if random.percent(5) {
        let mut total = || u32::MAX - random.below(12) as u32;
        Totals { committed: total(), accepted: total(), stores: total() }
    } else {
        Totals::default()
    };
    let tables = lines::generate::tables(&mut random, sizes.events);
    let mut scenario = Scenario {
        seed,
        program,
        log_pairs: sizes.log_pairs as u16,
        queue_records: sizes.queue_records as u16,
        totals,
        calls: Vec::new(),
    };
    let mut machine = Machine::new(&scenario);
    machine.call(
        &Reference,
        &Call::Format { log_pairs: scenario.log_pairs, queue_records: scenario.queue_records },
    );
    let mood = random.pick(&MOODS);
    let kept = machine.clone();
    let (calls, stuck) = (Vec::new(), false);
    let bursts = true;
    let mut schedule = Schedule { random, sizes, moods: &MOODS, mood, machine, kept, calls, stuck, tables, bursts };
    // Large programs get short lists.
    let large = scenario.program.len() > 2000;
    let rounds = if damaged { schedule.random.from(1, 8) } else { 1 };
    for _ in 0..rounds {
        let most = if large { 60 } else if damaged { 40 } else { 400 };
        for _ in 0..schedule.random.from(1, most) {
            let call = schedule.next();
            schedule.make(call);
        }
        if !damaged {
            break;
        }
        // Let damage fall into a commit, half a SAVE or an ending as often as elsewhere.
        if schedule.random.percent(50) {
            schedule.make(Call::Boot);
            for _ in 0..schedule.random.from(0, 40) {
                if schedule.telling() && schedule.random.percent(20) {
                    break;
                }
                schedule.make(Call::Step);
            }
        }
        schedule.make(Call::Keep);
        for _ in 0..schedule.random.from(1, if large { 4 } else { 12 }) {
            let several = if schedule.random.percent(70) { 1 } else { schedule.random.from(2, 5) };
            for _ in 0..several {
                schedule.damage_once();
            }
            if schedule.random.percent(12) {
                if schedule.random.percent(50) {
                    schedule.make(Call::Cut);
                }
                schedule.make(Call::Boot);
            }
            for _ in 0..schedule.random.from(1, 7) {
                let call = if schedule.random.percent(70) { Call::Step } else { schedule.next_damaged() };
                schedule.make(call);
            }
            schedule.make(Call::Restore);
        }
    }
    scenario.calls = schedule.calls;
    scenario
}

/// An undamaged list with many cuts, from a formatted store on: boots, steps, posts, cuts and checks. In the place of a run
/// are its steps.
pub fn calls_with_cuts(mut random: Random, sizes: Sizes, machine: Machine, count: usize) -> Vec<Call> {
    let moods = &MOODS_WITH_CUTS;
    let mood = random.pick(moods);
    let kept = machine.clone();
    // A schedule of a sheet has no letter for a burst, nor for a raise.
    let (calls, stuck, tables, bursts) = (Vec::new(), false, Vec::new(), false);
    let mut schedule = Schedule { random, sizes, moods, mood, machine, kept, calls, stuck, tables, bursts };
    for _ in 0..count {
        match schedule.next() {
            Call::Run { budget } => schedule.steps(budget),
            call => schedule.make(call),
        }
    }
    schedule.calls
}
