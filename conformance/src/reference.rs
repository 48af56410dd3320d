//! The reference: the paper's runtime with plain loops and tables. Each function refuses before it touches anything;
//! so a refused call changes nothing. The functions are in the order of the paper. Those of a step are inlined into
//! one, since it is also what the library's speed is held against.

use crate::lines;
use crate::runtime::*;

/// A store to be made: index and word.
type Store = (usize, u16);

fn refusal(number: u16) -> Refusal {
    Refusal { number, place: (0, 0) }
}

fn refusal_at(number: u16, first: usize, second: usize) -> Refusal {
    Refusal { number, place: (first as u16, second as u16) }
}

// ---------------------------------------------------------------------------------------------------------
// Program words

pub const PROGRAM_MARK: u16 = 0xC0B1;

/// What a field k must be below.
#[derive(Clone, Copy, PartialEq)]
enum K {
    Unused,
    Any,
    Shift,
    Memory,
    Instruction,
    Task,
}

/// In which bodies an opcode may stand.
#[derive(Clone, Copy, PartialEq)]
enum In {
    Both,
    Tasks,
    Events,
}

/// The rule of one opcode: which fields it uses, where it stands, and whether a body may end with it.
struct OpcodeRule {
    a: bool,
    b: bool,
    k: K,
    stands: In,
    last: bool,
}

const fn rule(a: bool, b: bool, k: K) -> OpcodeRule {
    OpcodeRule { a, b, k, stands: In::Both, last: false }
}

pub const SET: u16 = 0;
pub const MOV: u16 = 1;
pub const ADD: u16 = 2;
pub const SUB: u16 = 3;
pub const AND: u16 = 4;
pub const OR: u16 = 5;
pub const XOR: u16 = 6;
pub const SHR: u16 = 7;
pub const LOAD: u16 = 8;
pub const SAVE: u16 = 9;
pub const LOADX: u16 = 10;
pub const SAVEX: u16 = 11;
pub const JUMP: u16 = 12;
pub const JZ: u16 = 13;
pub const JLT: u16 = 14;
pub const GO: u16 = 15;
pub const DONE: u16 = 16;

const OPCODE_RULES: [OpcodeRule; 17] = [
    rule(true, false, K::Any),         // SET
    rule(true, true, K::Unused),       // MOV
    rule(true, true, K::Unused),       // ADD
    rule(true, true, K::Unused),       // SUB
    rule(true, true, K::Unused),       // AND
    rule(true, true, K::Unused),       // OR
    rule(true, true, K::Unused),       // XOR
    rule(true, false, K::Shift),       // SHR
    rule(true, false, K::Memory),      // LOAD
    rule(true, false, K::Memory),      // SAVE
    rule(true, true, K::Memory),       // LOADX
    rule(true, true, K::Memory),       // SAVEX
    OpcodeRule { last: true, ..rule(false, false, K::Instruction) }, // JUMP
    rule(true, false, K::Instruction), // JZ
    rule(true, true, K::Instruction),  // JLT
    OpcodeRule { last: true, stands: In::Tasks, ..rule(false, false, K::Task) }, // GO
    OpcodeRule { last: true, stands: In::Events, ..rule(false, false, K::Unused) }, // DONE
];

/// SHR's k is below this.
const SHIFTS: usize = 16;

/// The program's table of contents, words 1 to 5, after refusals 1 to 3.
struct Head {
    tasks: usize,
    events: usize,
    memory: usize,
    entry: u16,
    total: usize,
}

impl Head {
    fn bodies(&self) -> usize {
        self.tasks + self.events
    }

    /// The first word behind the rows.
    fn rows_end(&self) -> usize {
        6 + 3 * self.bodies()
    }

    /// The body's number in rows and places: T + e for event e.
    fn body_number(&self, body: Body) -> usize {
        match body {
            Body::Task(task) => task as usize,
            Body::Event(event) => self.tasks + event as usize,
        }
    }
}

/// A body's row.
struct Row {
    start: usize,
    count: usize,
    transaction: u16,
}

/// An instruction taken apart.
struct Instruction {
    opcode: u16,
    a: usize,
    b: usize,
    k: u16,
}

/// Refusals 1, 2 and 3, from words 0 to 5.
#[inline(always)]
fn head(program: &[u16]) -> Result<Head, Refusal> {
    if program.len() < 6 || program.len() != program[5] as usize {
        return Err(refusal(1));
    }
    if program[0] != PROGRAM_MARK {
        return Err(refusal(2));
    }
    let limits: [(u16, u16); 3] = [(1, 32), (0, 16), (1, 1024)];
    for (i, (least, most)) in limits.iter().enumerate() {
        let word = program[1 + i];
        if word < *least || word > *most {
            return Err(refusal_at(3, 1 + i, 0));
        }
    }
    if program[4] >= program[1] {
        return Err(refusal_at(3, 4, 0));
    }
    Ok(Head {
        tasks: program[1] as usize,
        events: program[2] as usize,
        memory: program[3] as usize,
        entry: program[4],
        total: program[5] as usize,
    })
}

#[inline(always)]
fn row(program: &[u16], body: usize) -> Row {
    let at = 6 + 3 * body;
    Row {
        start: program[at] as usize,
        count: program[at + 1] as usize,
        transaction: program[at + 2],
    }
}

/// A row's limits: count 1 to 256, transaction number at most 255, 0 for an event.
#[inline(always)]
fn within_limits(head: &Head, body: usize, row: &Row) -> bool {
    let most = if body < head.tasks { 255 } else { 0 };
    row.count >= 1 && row.count <= 256 && row.transaction <= most
}

/// Refusal 4 as the check has it: all rows, and the end of the bodies.
fn check_rows(program: &[u16], head: &Head) -> Result<(), Refusal> {
    if head.rows_end() > head.total {
        return Err(refusal(4));
    }
    let mut start = head.rows_end();
    for body in 0..head.bodies() {
        let row = row(program, body);
        if row.start != start || !within_limits(head, body, &row) {
            return Err(refusal_at(4, body, 0));
        }
        start += 2 * row.count;
    }
    if start != head.total {
        return Err(refusal_at(4, head.bodies(), 0));
    }
    Ok(())
}

/// Refusal 4 as a step has it: one body's row.
#[inline(always)]
fn use_row(program: &[u16], head: &Head, body: usize) -> Result<Row, Refusal> {
    if head.rows_end() > head.total {
        return Err(refusal(4));
    }
    let row = row(program, body);
    let behind_rows = row.start >= head.rows_end();
    let inside_total = row.start + 2 * row.count <= head.total;
    if !within_limits(head, body, &row) || !behind_rows || !inside_total {
        return Err(refusal_at(4, body, 0));
    }
    Ok(row)
}

fn instruction_words(program: &[u16], row: &Row, index: usize) -> (u16, u16) {
    (program[row.start + 2 * index], program[row.start + 2 * index + 1])
}

/// Refusal 5: one instruction of a body whose row is right.
#[inline(always)]
fn use_instruction(
    program: &[u16],
    head: &Head,
    body: usize,
    row: &Row,
    index: usize,
) -> Result<Instruction, Refusal> {
    let broken = Err(refusal_at(5, body, index));
    let (word, k) = instruction_words(program, row, index);
    let opcode = word >> 8;
    let a = (word >> 4) & 15;
    let b = word & 15;
    if opcode as usize >= OPCODE_RULES.len() {
        return broken;
    }
    let rule = &OPCODE_RULES[opcode as usize];
    for (field, used) in [(a, rule.a), (b, rule.b)] {
        let most = if used { 7 } else { 0 };
        if field > most {
            return broken;
        }
    }
    // A k must be below this.
    let bound = match rule.k {
        K::Unused => 1,
        K::Any => 65536,
        K::Shift => SHIFTS,
        K::Memory => head.memory,
        K::Instruction => row.count,
        K::Task => head.tasks,
    };
    if k as usize >= bound {
        return broken;
    }
    let stands = match rule.stands {
        In::Both => true,
        In::Tasks => body < head.tasks,
        In::Events => body >= head.tasks,
    };
    if !stands {
        return broken;
    }
    if index + 1 == row.count && !rule.last {
        return broken;
    }
    Ok(Instruction { opcode, a: a as usize, b: b as usize, k })
}

/// The program check: refusals 1 to 5.
fn check_program(program: &[u16]) -> Result<Head, Refusal> {
    let head = head(program)?;
    check_rows(program, &head)?;
    for body in 0..head.bodies() {
        let row = row(program, body);
        for index in 0..row.count {
            use_instruction(program, &head, body, &row, index)?;
        }
    }
    Ok(head)
}

// ---------------------------------------------------------------------------------------------------------
// Store words

pub const STORE_MARK: u16 = 0xC0A2;

/// Where control starts, and memory behind it.
pub const CONTROL: usize = 8;
pub const MEMORY: usize = 17;

/// The control words.
pub const PHASE: usize = 8;
pub const TASK: usize = 9;
pub const OPEN: usize = 10;
pub const COUNT: usize = 11;
pub const PENDING: usize = 12;
pub const PENDING_OPEN: usize = 13;
pub const HEAD: usize = 14;
pub const TAIL: usize = 15;
pub const BEGUN: usize = 16;

/// What word 16 says: "0 nothing begun, 1 task, 2 event".
pub const NOTHING_BEGUN: u16 = 0;
pub const TASK_BEGUN: u16 = 1;
pub const EVENT_BEGUN: u16 = 2;

/// What word 16 says while this body is begun.
pub fn begun_word(body: Body) -> u16 {
    match body {
        Body::Task(_) => TASK_BEGUN,
        Body::Event(_) => EVENT_BEGUN,
    }
}

/// The store's contents, after refusal 6.
struct Parts {
    log_pairs: usize,
    queue_records: usize,
    log: usize,
    queue: usize,
}

impl Parts {
    /// Where the address of a log pair stands; its value follows.
    fn pair(&self, number: usize) -> usize {
        self.log + 2 * number
    }

    /// Where the event of a slot stands; its data follows.
    fn slot(&self, number: usize) -> usize {
        self.queue + 2 * number
    }

    /// The slot after this one in the ring of Q + 1.
    fn after(&self, slot: usize) -> usize {
        if slot == self.queue_records {
            0
        } else {
            slot + 1
        }
    }

    /// The slot so many after this one; not more than there are in the ring.
    fn past(&self, slot: usize, many: usize) -> usize {
        let slots = self.queue_records + 1;
        if slot + many < slots {
            slot + many
        } else {
            slot + many - slots
        }
    }
}

/// The length of a store: two words for each of L log pairs and of Q + 1 slots behind the memory.
pub fn store_length(memory: usize, log_pairs: usize, queue_records: usize) -> usize {
    MEMORY + memory + 2 * log_pairs + 2 * (queue_records + 1)
}

fn log_and_queue_within_limits(log_pairs: u16, queue_records: u16) -> bool {
    log_pairs >= 1 && log_pairs <= 64 && queue_records >= 1 && queue_records <= 32
}

/// The eight contents words of a store.
fn contents_words(memory: usize, log_pairs: usize, queue_records: usize) -> [u16; 8] {
    let log = MEMORY + memory;
    let queue = log + 2 * log_pairs;
    [
        STORE_MARK,
        memory as u16,
        log_pairs as u16,
        queue_records as u16,
        CONTROL as u16,
        MEMORY as u16,
        log as u16,
        queue as u16,
    ]
}

/// Refusal 6.
#[inline(always)]
fn contents(head: &Head, store: &[u16]) -> Result<Parts, Refusal> {
    if store.len() < 8 || !log_and_queue_within_limits(store[2], store[3]) {
        return Err(refusal(6));
    }
    let log_pairs = store[2] as usize;
    let queue_records = store[3] as usize;
    if store[0..8] != contents_words(head.memory, log_pairs, queue_records) {
        return Err(refusal(6));
    }
    if store.len() != store_length(head.memory, log_pairs, queue_records) {
        return Err(refusal(6));
    }
    let log = MEMORY + head.memory;
    Ok(Parts { log_pairs, queue_records, log, queue: log + 2 * log_pairs })
}

/// Name the word of each broken rule of 7 that needs no row, log pair or record. A rule that needs a broken word is
/// passed over.
#[inline(always)]
fn broken_in_control(head: &Head, parts: &Parts, store: &[u16], mut name: impl FnMut(usize)) {
    let word = |index: usize| store[index] as usize;
    let mut require = |holds: bool, place: usize| {
        if !holds {
            name(place);
        }
    };
    let phase = word(PHASE);
    require(phase <= 2, PHASE);
    require(word(TASK) < head.tasks, TASK);
    if phase == 2 {
        require(word(OPEN) == 0, OPEN);
    }
    require(word(HEAD) <= parts.queue_records, HEAD);
    require(word(TAIL) <= parts.queue_records, TAIL);
    if phase == 1 || phase == 2 {
        require(word(COUNT) <= parts.log_pairs, COUNT);
    }
    if phase == 1 {
        require(word(PENDING) < head.tasks, PENDING);
    }
    // N2: "at most Q needs no other word, the rest needs 14 and 15".
    if phase == 2 {
        require(word(PENDING) <= parts.queue_records, PENDING);
    }
    if phase == 2 && word(HEAD) <= parts.queue_records && word(TAIL) <= parts.queue_records {
        let stays = word(PENDING) == word(HEAD);
        let moves = word(PENDING) == parts.after(word(HEAD)) && word(HEAD) != word(TAIL);
        require(stays || moves, PENDING);
    }
    require(word(BEGUN) <= EVENT_BEGUN as usize, BEGUN);
    // "In phase 0 a 2 needs a queue not empty and word 10 at 0": of other words' rules it needs those of 14 and 15.
    let ring = word(HEAD) <= parts.queue_records && word(TAIL) <= parts.queue_records;
    if phase == 0 && word(BEGUN) == EVENT_BEGUN as usize && ring {
        require(word(HEAD) != word(TAIL) && word(OPEN) == 0, BEGUN);
    }
}

/// Name the word of each broken rule of 7. A rule that needs a broken word, or a row that isn't in the program, is
/// passed over.
fn broken_in_store(program: &[u16], head: &Head, parts: &Parts, store: &[u16], mut name: impl FnMut(usize)) {
    let mut sound = [true; MEMORY];
    broken_in_control(head, parts, store, |place| {
        sound[place] = false;
        name(place);
    });
    if !sound[PHASE] {
        return;
    }
    let phase = store[PHASE];
    let transaction = |task: u16| program.get(6 + 3 * task as usize + 2).copied();
    if phase == 0 && sound[TASK] && store[OPEN] != 0 {
        if let Some(number) = transaction(store[TASK]) {
            if store[OPEN] != number {
                name(OPEN);
            }
        }
    }
    if phase == 1 && sound[PENDING] && store[PENDING_OPEN] != 0 {
        if let Some(number) = transaction(store[PENDING]) {
            if store[PENDING_OPEN] != number {
                name(PENDING_OPEN);
            }
        }
    }
    if phase != 0 && sound[COUNT] {
        for pair in 0..store[COUNT] as usize {
            let at = parts.pair(pair);
            if store[at] as usize >= head.memory {
                name(at);
            }
        }
    }
    // The waiting records run to tail from head, in phase 2 from word 12.
    let first = if phase == 2 { PENDING } else { HEAD };
    if sound[first] && sound[TAIL] {
        let mut slot = store[first] as usize;
        while slot != store[TAIL] as usize {
            let at = parts.slot(slot);
            if store[at] as usize >= head.events {
                name(at);
            }
            slot = parts.after(slot);
        }
    }
}

/// Above every word of a store.
const NO_WORD: usize = usize::MAX;

/// 7, if a word is named; its place is the lowest.
fn refuse_lowest(lowest: usize) -> Result<(), Refusal> {
    if lowest == NO_WORD {
        Ok(())
    } else {
        Err(refusal_at(7, lowest, 0))
    }
}

/// Refusal 7 as step and post look at it first: the rules that need no row, log pair or record.
#[inline(always)]
fn check_control(head: &Head, parts: &Parts, store: &[u16]) -> Result<(), Refusal> {
    let mut lowest = NO_WORD;
    broken_in_control(head, parts, store, |place| lowest = lowest.min(place));
    refuse_lowest(lowest)
}

/// Refusal 7 as boot has it: all rules.
fn check_store(program: &[u16], head: &Head, parts: &Parts, store: &[u16]) -> Result<(), Refusal> {
    let mut lowest = NO_WORD;
    broken_in_store(program, head, parts, store, |place| lowest = lowest.min(place));
    refuse_lowest(lowest)
}

/// The words that broken rules of 7 name, each once, in rising order.
#[derive(Clone, Debug, Default)]
pub struct Broken {
    pub all: Vec<u16>,
    /// Of the rules that need no row, log pair or record: what step and post look at first.
    pub early: Vec<u16>,
}

/// The broken rules of 7 for a program and a store, for counts and mistakes. None where 1, 2, 3 or 6 comes first.
pub fn broken(program: &[u16], store: &[u16]) -> Broken {
    let mut broken = Broken::default();
    let Ok(head) = head(program) else { return broken };
    let Ok(parts) = contents(&head, store) else { return broken };
    broken_in_store(program, &head, &parts, store, |place| broken.all.push(place as u16));
    broken_in_control(&head, &parts, store, |place| broken.early.push(place as u16));
    for words in [&mut broken.all, &mut broken.early] {
        words.sort();
        words.dedup();
    }
    broken
}

// ---------------------------------------------------------------------------------------------------------
// Step

/// What a step, a post or a burst has looked at before it does anything.
struct Look {
    head: Head,
    parts: Parts,
}

impl Look {
    /// Empty: head equals tail.
    fn queue_empty(&self, store: &[u16]) -> bool {
        store[HEAD] == store[TAIL]
    }

    /// How many records more the queue takes: Q less the slots from head to tail. In phase 2 a committed record's slot is
    /// among them until head has moved.
    fn room(&self, store: &[u16]) -> usize {
        let (head, tail) = (store[HEAD] as usize, store[TAIL] as usize);
        if head <= tail {
            self.parts.queue_records - (tail - head)
        } else {
            head - tail - 1
        }
    }

    /// N7: whether a single post drops the record at head: the queue is full, and neither word 16 nor the phase is 2.
    fn drops(&self, store: &[u16]) -> bool {
        self.room(store) == 0 && store[BEGUN] != EVENT_BEGUN && store[PHASE] != 2
    }
}

/// What word 16 says while the device runs what it runs.
#[inline(always)]
pub fn running_word(device: &Device) -> u16 {
    match device.place {
        Place::NoBody { .. } => NOTHING_BEGUN,
        Place::Running { body, .. } | Place::HalfSave { body, .. } => begun_word(body),
    }
}

/// The position of a burst's first event that the program doesn't have.
#[inline(always)]
fn first_bad_event(look: &Look, length: usize, words: &BurstWords) -> Option<usize> {
    words.iter().step_by(2).take(length).position(|event| *event as usize >= look.head.events)
}

/// 25 meets a handler "whose burst doesn't fit, is past its tail store or has a length or an event out of range"; of one
/// about to drop it "asks instead of room a full queue, a burst of one, and neither word 16 nor the phase at 2". Such a
/// handler of another burst is no device state.
#[inline(always)]
fn handler_unlike(look: &Look, store: &[u16], handler: &Handler) -> bool {
    let length = handler.length as usize;
    length == 0
        || length > MAX_BURST
        || handler.made as usize > 2 * length
        || (handler.work != Work::Dropping && length > look.room(store))
        || (handler.work == Work::Dropping && !look.drops(store))
        || first_bad_event(look, length, &handler.words).is_some()
}

/// The parts of 25 that need no row, instruction, log pair or record.
#[inline(always)]
fn state_unlike(look: &Look, store: &[u16], device: &Device) -> bool {
    if !device.on {
        return *device != Device::OFF;
    }
    if device.log_count as usize > look.parts.log_pairs {
        return true;
    }
    if let Some(handler) = &device.handler {
        if handler_unlike(look, store, handler) {
            return true;
        }
    }
    let phase = store[PHASE];
    // N4: in phase 0 the device runs "just what word 16 says".
    if phase == 0 && store[BEGUN] != running_word(device) {
        return true;
    }
    let n = store[COUNT] as u32;
    let body = match device.place {
        Place::NoBody { commit } => {
            let last = match phase {
                0 => 0,
                1 => n + 3,
                _ => n + 2,
            };
            return commit as u32 > last;
        }
        Place::Running { body, .. } => body,
        Place::HalfSave { body, .. } => body,
    };
    if phase != 0 {
        return true;
    }
    // A running body is word 9's task, or an event while no transaction is open and a record is there.
    let last = match body {
        Body::Task(task) => {
            if task as usize >= look.head.tasks || task != store[TASK] {
                return true;
            }
            3
        }
        Body::Event(event) => {
            if event as usize >= look.head.events || store[OPEN] != 0 || look.queue_empty(store) {
                return true;
            }
            2
        }
    };
    match device.place {
        Place::Running { ending, .. } => ending > last,
        _ => device.log_count as usize == look.parts.log_pairs,
    }
}

/// What step, post and burst look at first: 1, 2, 3, 6, 7, 25, 22.
#[inline(always)]
fn look(program: &[u16], store: &[u16], device: &Device) -> Result<Look, Refusal> {
    let head = head(program)?;
    let parts = contents(&head, store)?;
    check_control(&head, &parts, store)?;
    let look = Look { head, parts };
    if state_unlike(&look, store, device) {
        return Err(refusal(25));
    }
    if !device.on {
        return Err(refusal(22));
    }
    Ok(look)
}

/// What a step touches. Each function below refuses before it touches anything.
struct Node<'a> {
    store: &'a mut [u16],
    device: &'a mut Device,
    totals: &'a mut Totals,
    /// The index of the word stored.
    made: &'a mut Option<usize>,
}

impl Node<'_> {
    /// Make a store.
    #[inline(always)]
    fn make(&mut self, (index, word): Store) {
        self.store[index] = word;
        *self.made = Some(index);
        add(&mut self.totals.stores, 1);
    }
}

/// A handler about to drop stores head first. It uses the record there.
#[inline(always)]
fn drop_store(look: &Look, mut node: Node, handler: Handler) -> Result<Answer, Refusal> {
    let head = node.store[HEAD] as usize;
    let slot = look.parts.slot(head);
    if node.store[slot] as usize >= look.head.events {
        return Err(refusal_at(7, slot, 0));
    }
    node.make((HEAD, look.parts.after(head) as u16));
    node.device.handler = Some(Handler { work: Work::Replacing, ..handler });
    Ok(Answer::Stored)
}

/// A handler at work makes its next store: each event and then its data, in the slots from tail on; then tail. Where it
/// has dropped a record, that one still stands in the slot after tail.
#[inline(always)]
fn handler_store(look: &Look, mut node: Node, handler: Handler) -> Answer {
    let tail = node.store[TAIL] as usize;
    let (made, length) = (handler.made as usize, handler.length as usize);
    if made < 2 * length {
        let slot = look.parts.slot(look.parts.past(tail, made / 2));
        node.make((slot + made % 2, handler.words[made]));
        node.device.handler = Some(Handler { made: handler.made + 1, ..handler });
        return Answer::Stored;
    }
    let slot = look.parts.slot(look.parts.after(tail));
    let dropped = (node.store[slot], node.store[slot + 1]);
    node.make((TAIL, look.parts.past(tail, length) as u16));
    add(&mut node.totals.accepted, handler.length as u32);
    node.device.handler = None;
    Answer::Accepted((handler.work == Work::Replacing).then_some(dropped))
}

/// A commit makes its next store after the commit store: n copies; 9 from 12 and 10 from 13, or 14 from 12;
/// then 16 and 8 become 0.
#[inline(always)]
fn commit_store(look: &Look, mut node: Node, commit: usize) -> Result<Answer, Refusal> {
    let store = &*node.store;
    let n = store[COUNT] as usize;
    let made = if commit < n {
        let pair = look.parts.pair(commit);
        let address = store[pair] as usize;
        if address >= look.head.memory {
            return Err(refusal_at(7, pair, 0));
        }
        (MEMORY + address, store[pair + 1])
    } else {
        let closing: &[Store] = if store[PHASE] == 1 {
            &[(TASK, store[PENDING]), (OPEN, store[PENDING_OPEN]), (BEGUN, NOTHING_BEGUN), (PHASE, 0)]
        } else {
            &[(HEAD, store[PENDING]), (BEGUN, NOTHING_BEGUN), (PHASE, 0)]
        };
        closing[commit - n]
    };
    node.make(made);
    if made.0 == PHASE {
        *node.device = Device::ON;
    } else {
        node.device.place = Place::NoBody { commit: commit as u16 + 1 };
    }
    Ok(Answer::Stored)
}

/// With no body running, one is chosen and stored as begun.
#[inline(always)]
fn choose(look: &Look, mut node: Node) -> Result<Answer, Refusal> {
    let store = &*node.store;
    let event = store[OPEN] == 0 && !look.queue_empty(store);
    let slot = look.parts.slot(store[HEAD] as usize);
    if event && store[slot] as usize >= look.head.events {
        return Err(refusal_at(7, slot, 0));
    }
    let body = if event { Body::Event(store[slot]) } else { Body::Task(store[TASK]) };
    begin(&look.parts, store, node.device, body);
    node.make((BEGUN, begun_word(body)));
    Ok(Answer::Chosen(body))
}

/// A body at its first instruction. Registers become 0, except that register 0 gets an event's data.
#[inline(always)]
fn begin(parts: &Parts, store: &[u16], device: &mut Device, body: Body) {
    device.registers = [0; 8];
    if let Body::Event(_) = body {
        device.registers[0] = store[parts.slot(store[HEAD] as usize) + 1];
    }
    device.log_count = 0;
    device.place = Place::Running { body, instruction: 0, ending: 0 };
}

/// "A boot in phase 0 takes up the begun body at its first instruction, registers as at choosing."
fn take_up(parts: &Parts, store: &[u16], device: &mut Device) {
    let event = store[parts.slot(store[HEAD] as usize)];
    match store[BEGUN] {
        _ if store[PHASE] != 0 => {}
        TASK_BEGUN => begin(parts, store, device, Body::Task(store[TASK])),
        EVENT_BEGUN => begin(parts, store, device, Body::Event(event)),
        _ => {}
    }
}

/// Where a running body stands.
#[derive(Clone, Copy)]
struct Stand {
    body: Body,
    index: usize,
    /// Ending stores made.
    ending: u16,
    /// Half a SAVE is made.
    half: bool,
}

impl Stand {
    /// The body at an instruction.
    #[inline(always)]
    fn at(&self, index: usize) -> Place {
        Place::Running { body: self.body, instruction: index as u16, ending: 0 }
    }
}

/// A step of a running body: an instruction, the second half of a SAVE, or an ending store.
#[inline(always)]
fn step_body(look: &Look, program: &[u16], node: Node, stand: Stand) -> Result<Answer, Refusal> {
    let Stand { body, index, ending, half } = stand;
    let store = &*node.store;
    let head = &look.head;
    let number = head.body_number(body);

    // 7: an event's record at head.
    let mut unlike = false;
    if let Body::Event(event) = body {
        let slot = look.parts.slot(store[HEAD] as usize);
        if store[slot] as usize >= head.events {
            return Err(refusal_at(7, slot, 0));
        }
        unlike = store[slot] != event;
    }
    // 4: the body's row. 5: the instruction, if it is in range.
    let row = use_row(program, head, number)?;
    let mut instruction = None;
    if index < row.count {
        instruction = Some(use_instruction(program, head, number, &row, index)?);
    }
    // 4: at GO, task k's row; with it the new open number.
    let mut new_open = 0;
    if let Some(Instruction { opcode: GO, k, .. }) = instruction {
        let next_row = use_row(program, head, k as usize)?;
        if row.transaction == next_row.transaction {
            new_open = row.transaction;
        }
    }
    // The rest of 7: a running task is word 9's, so its row is at hand; for an event, word 10 is 0.
    if let Body::Task(_) = body {
        if store[OPEN] != 0 && store[OPEN] != row.transaction {
            return Err(refusal_at(7, OPEN, 0));
        }
    }
    // The rest of 25.
    let Some(instruction) = instruction else { return Err(refusal(25)) };
    let opcode = instruction.opcode;
    if half && opcode != SAVE && opcode != SAVEX {
        unlike = true;
    }
    if ending > 0 && opcode != GO && opcode != DONE {
        unlike = true;
    }
    if unlike {
        return Err(refusal(25));
    }

    if half {
        return Ok(second_half(look, node, stand, &instruction));
    }
    if opcode == GO {
        let n = node.device.log_count;
        let stores = [(COUNT, n), (PENDING, instruction.k), (PENDING_OPEN, new_open), (PHASE, 1)];
        return Ok(ending_store(node, stand, &stores));
    }
    if opcode == DONE {
        let n = node.device.log_count;
        let head_after = look.parts.after(store[HEAD] as usize) as u16;
        let stores = [(COUNT, n), (PENDING, head_after), (PHASE, 2)];
        return Ok(ending_store(node, stand, &stores));
    }
    execute(look, node, stand, &instruction)
}

/// The second half of a SAVE stores the value, without looking again at address or log.
#[inline(always)]
fn second_half(look: &Look, mut node: Node, stand: Stand, instruction: &Instruction) -> Answer {
    let pair = look.parts.pair(node.device.log_count as usize);
    node.make((pair + 1, node.device.registers[instruction.a]));
    node.device.log_count += 1;
    node.device.place = stand.at(stand.index + 1);
    Answer::Stored
}

/// One of the stores that end a body; the last is the commit store.
#[inline(always)]
fn ending_store(mut node: Node, stand: Stand, stores: &[Store]) -> Answer {
    let Stand { body, index, ending, .. } = stand;
    let made = stores[ending as usize];
    node.make(made);
    if made.0 == PHASE {
        add(&mut node.totals.committed, 1);
        *node.device = Device::ON;
        return Answer::Committed(body);
    }
    node.device.place = Place::Running { body, instruction: index as u16, ending: ending + 1 };
    Answer::Stored
}

/// The log's pair for an address, among the first `log_count`: the first found, or none.
#[inline(always)]
fn search(look: &Look, store: &[u16], log_count: u16, address: usize) -> Option<usize> {
    for number in 0..log_count as usize {
        let pair = look.parts.pair(number);
        if store[pair] as usize == address {
            return Some(pair);
        }
    }
    None
}

fn signed(word: u16) -> i32 {
    if word >= 0x8000 {
        word as i32 - 65536
    } else {
        word as i32
    }
}

/// 2 to the k: 1, doubled k times.
#[inline(always)]
fn power_of_two(k: u16) -> i32 {
    let mut power = 1;
    for _ in 0..k {
        power *= 2;
    }
    power
}

/// One instruction, neither GO nor DONE.
#[inline(always)]
fn execute(look: &Look, mut node: Node, stand: Stand, instruction: &Instruction) -> Result<Answer, Refusal> {
    let Instruction { opcode, a, b, k } = *instruction;
    let ra = node.device.registers[a];
    let rb = node.device.registers[b];
    let log_count = node.device.log_count;
    let mut next = stand.index + 1;

    // The address of the four that have one, 23 included.
    let address = match opcode {
        LOADX | SAVEX => k as usize + rb as usize,
        _ => k as usize,
    };
    let has_address = matches!(opcode, LOAD | SAVE | LOADX | SAVEX);
    if has_address && address >= look.head.memory {
        return Err(refusal(23));
    }
    let found = if has_address { search(look, node.store, log_count, address) } else { None };

    let registers = &mut node.device.registers;
    match opcode {
        SET => registers[a] = k,
        MOV => registers[a] = rb,
        ADD => registers[a] = ((ra as u32 + rb as u32) % 65536) as u16,
        SUB => registers[a] = ((65536 + ra as u32 - rb as u32) % 65536) as u16,
        AND => registers[a] = ra & rb,
        OR => registers[a] = ra | rb,
        XOR => registers[a] = ra ^ rb,
        SHR => {
            // The power is positive, so the Euclidean quotient is the one rounded down.
            let quotient = signed(ra).div_euclid(power_of_two(k));
            registers[a] = (quotient & 0xFFFF) as u16;
        }
        LOAD | LOADX => {
            registers[a] = match found {
                Some(pair) => node.store[pair + 1],
                None => node.store[MEMORY + address],
            }
        }
        SAVE | SAVEX => {
            if let Some(pair) = found {
                node.make((pair + 1, ra));
                node.device.place = stand.at(next);
                return Ok(Answer::Stored);
            }
            if log_count as usize == look.parts.log_pairs {
                return Err(refusal(24));
            }
            node.make((look.parts.pair(log_count as usize), address as u16));
            node.device.place = Place::HalfSave { body: stand.body, instruction: stand.index as u16 };
            return Ok(Answer::Stored);
        }
        JUMP => next = k as usize,
        JZ => {
            if ra == 0 {
                next = k as usize
            }
        }
        JLT => {
            if signed(ra) < signed(rb) {
                next = k as usize
            }
        }
        _ => {}
    }
    node.device.place = stand.at(next);
    Ok(Answer::Worked)
}

// ---------------------------------------------------------------------------------------------------------
// The calls

/// The reference implementation.
pub struct Reference;

/// Done, or the refusal.
fn done_or<T>(result: Result<T, Refusal>) -> Answer {
    match result {
        Ok(_) => Answer::Done,
        Err(refusal) => Answer::Refused(refusal),
    }
}

/// A total rises, and stays at its largest value.
fn add(total: &mut u32, more: u32) {
    if *total < u32::MAX - more {
        *total += more;
    } else {
        *total = u32::MAX;
    }
}

fn format(program: &[u16], log_pairs: u16, queue_records: u16, store: &mut [u16]) -> Result<(), Refusal> {
    let head = check_program(program)?;
    if !log_and_queue_within_limits(log_pairs, queue_records) {
        return Err(refusal(9));
    }
    let (log_pairs, queue_records) = (log_pairs as usize, queue_records as usize);
    if store.len() != store_length(head.memory, log_pairs, queue_records) {
        return Err(refusal(6));
    }
    store.fill(0);
    store[0..8].copy_from_slice(&contents_words(head.memory, log_pairs, queue_records));
    store[TASK] = head.entry;
    Ok(())
}

fn boot(program: &[u16], store: &[u16], device: &mut Device) -> Result<(), Refusal> {
    let head = check_program(program)?;
    let parts = contents(&head, store)?;
    check_store(program, &head, &parts, store)?;
    if device.on {
        return Err(refusal(26));
    }
    *device = Device::ON;
    take_up(&parts, store, device);
    Ok(())
}

#[inline(always)]
fn burst(program: &[u16], store: &[u16], device: &mut Device, count: u16, words: &BurstWords) -> Result<(), Refusal> {
    let look = look(program, store, device)?;
    let length = count as usize;
    if length == 0 || length > MAX_BURST {
        return Err(refusal(33));
    }
    if let Some(position) = first_bad_event(&look, length, words) {
        return Err(refusal_at(8, position, 0));
    }
    if device.handler.is_some() {
        return Err(refusal(20));
    }
    let work = if length == 1 && look.drops(store) { Work::Dropping } else { Work::Storing };
    if work == Work::Storing && length > look.room(store) {
        return Err(refusal(21));
    }
    device.handler = Some(Handler { work, ..Handler::new(count, words) });
    Ok(())
}

#[inline(always)]
fn step(
    program: &[u16],
    store: &mut [u16],
    device: &mut Device,
    totals: &mut Totals,
    made: &mut Option<usize>,
) -> Result<Answer, Refusal> {
    let look = look(program, store, device)?;
    let (place, handler) = (device.place, device.handler);
    let node = Node { store, device, totals, made };
    match handler {
        Some(handler) if handler.work == Work::Dropping => return drop_store(&look, node, handler),
        Some(handler) => return Ok(handler_store(&look, node, handler)),
        None => {}
    }
    match place {
        Place::NoBody { commit } => {
            if node.store[PHASE] != 0 {
                commit_store(&look, node, commit as usize)
            } else {
                choose(&look, node)
            }
        }
        Place::Running { body, instruction, ending } => {
            step_body(&look, program, node, Stand { body, index: instruction as usize, ending, half: false })
        }
        Place::HalfSave { body, instruction } => {
            step_body(&look, program, node, Stand { body, index: instruction as usize, ending: 0, half: true })
        }
    }
}

impl Runtime for Reference {
    fn check(&self, program: &[u16]) -> Answer {
        done_or(check_program(program))
    }

    fn format(&self, program: &[u16], log_pairs: u16, queue_records: u16, store: &mut [u16]) -> Answer {
        done_or(format(program, log_pairs, queue_records, store))
    }

    fn boot(&self, program: &[u16], store: &mut [u16], device: &mut Device) -> Answer {
        done_or(boot(program, store, device))
    }

    fn step(&self, program: &[u16], store: &mut [u16], device: &mut Device, totals: &mut Totals) -> StepAnswer {
        let mut made = None;
        let answer = step(program, store, device, totals, &mut made).unwrap_or_else(Answer::Refused);
        StepAnswer { answer, stored: made.map(|index| index as u16) }
    }

    fn burst(
        &self,
        program: &[u16],
        store: &mut [u16],
        device: &mut Device,
        count: u16,
        words: &BurstWords,
    ) -> Answer {
        done_or(burst(program, store, device, count, words))
    }

    fn cut(&self, device: &mut Device) -> Answer {
        *device = Device::OFF;
        Answer::Done
    }

    fn run(
        &self,
        program: &[u16],
        store: &mut [u16],
        device: &mut Device,
        totals: &mut Totals,
        budget: u32,
    ) -> RunAnswer {
        let mut steps = 0;
        while steps < budget {
            if let Err(refusal) = step(program, store, device, totals, &mut None) {
                return RunAnswer { steps, end: End::Refused(refusal) };
            }
            steps += 1;
        }
        RunAnswer { steps, end: End::Spent }
    }

    fn lines_check(&self, table: &[u16]) -> Answer {
        done_or(lines::check(table))
    }

    fn raise(
        &self,
        program: &[u16],
        store: &mut [u16],
        device: &mut Device,
        table: &[u16],
        line: u16,
        level: u16,
    ) -> Answer {
        match lines::event(table, line, level) {
            Ok(event) => self.post(program, store, device, event, level),
            Err(answer) => answer,
        }
    }
}
