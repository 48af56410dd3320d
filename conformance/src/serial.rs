//! The serial run: the history that a list of calls with their answers must amount to. It has the program and Q,
//! and reads the list, never the store. With it the check of demand 3 in running code: after every call a
//! copy of the store is recovered and compared with the serial run's state; and beside it that of N6's "several events
//! or none". The interpreter here is its own and knows no log.

use crate::drops::mutants::Rule;
use crate::reference::{BEGUN, COUNT, HEAD, MEMORY, OPEN, PENDING, PHASE, TAIL, TASK};
use crate::runtime::*;
use crate::scenario::Call;
use crate::turn::Turn;
use std::collections::VecDeque;

/// The serial run's state.
#[derive(Clone, Debug)]
pub struct Serial {
    pub memory: Vec<u16>,
    pub task: u16,
    pub open: u16,
    /// The records not yet taken: event and data, oldest first.
    pub records: VecDeque<Record>,
    /// What the latest post or burst with the answer done carried.
    latest: Vec<Record>,
    /// Q, formatting's argument.
    queue_records: usize,
    /// When the oldest record is dropped: by N7, or for the tests by a mistake.
    rule: Rule,
    /// The last call that wasn't refused is a post that found Q records.
    found_full: bool,
    /// What was dropped since the latest post or burst with the answer done.
    dropped_since: Option<Record>,
    /// Records added so far, events committed so far, records dropped so far.
    pub accepted: u64,
    pub completed: u64,
    pub dropped: u64,
    /// Calls read so far. It is fuel enough for a body: each of its instructions took a step.
    calls: u64,
}

/// How a body ended.
enum Ended {
    Go(u16),
    Done,
}

impl Serial {
    /// The start: memory 0, the entry task, open number 0, no records.
    pub fn new(program: &[u16], queue_records: u16) -> Serial {
        Serial::by(Rule::Right, program, queue_records)
    }

    /// The same, dropping records by this rule.
    pub fn by(rule: Rule, program: &[u16], queue_records: u16) -> Serial {
        Serial {
            memory: vec![0; program[3] as usize],
            task: program[4],
            open: 0,
            records: VecDeque::new(),
            latest: Vec::new(),
            queue_records: queue_records as usize,
            rule,
            found_full: false,
            dropped_since: None,
            accepted: 0,
            completed: 0,
            dropped: 0,
            calls: 0,
        }
    }

    /// Read one call with its answer. An error is a broken claim. A run isn't read; its steps are.
    pub fn read(&mut self, program: &[u16], call: &Call, answer: &Answer) -> Result<(), String> {
        self.calls += 1;
        self.read_drop(call, answer)?;
        match answer {
            Answer::Done if posts(call) => self.latest = posted(call)?,
            Answer::Accepted(dropped) => self.accept(*dropped)?,
            Answer::Committed(Body::Task(number)) => self.commit_task(program, *number)?,
            Answer::Committed(Body::Event(number)) => self.commit_event(program, *number)?,
            _ => {}
        }
        Ok(())
    }

    /// "The serial run drops its oldest record at a stored answer when the last call before it that wasn't refused is a
    /// post that found Q records."
    fn read_drop(&mut self, call: &Call, answer: &Answer) -> Result<(), String> {
        let (rule, found_full) = (self.rule, self.found_full);
        let refused = matches!(answer, Answer::Refused(_));
        let post = *answer == Answer::Done && posts(call);
        let finds_full = post && rule.full(self.records.len(), self.queue_records);
        self.dropped_since = self.dropped_since.filter(|_| !post);
        if rule.drops(found_full, finds_full, answer) {
            let record = if rule.newest() { self.records.pop_back() } else { self.records.pop_front() };
            self.dropped_since = Some(record.ok_or("dropped without a record")?);
        }
        self.dropped += rule.counts(found_full, finds_full, answer) as u64;
        if !refused || rule.reads_refused_calls() {
            self.found_full = rule.mark(found_full, finds_full, call, answer);
        }
        Ok(())
    }

    /// The latest burst comes in. The dropped record of the answer is the one dropped for it.
    fn accept(&mut self, dropped: Option<Record>) -> Result<(), String> {
        if self.latest.is_empty() {
            return Err("accepted without a post".into());
        }
        if dropped != self.dropped_since {
            return Err(format!("accepted with {dropped:?} dropped, serial run {:?}", self.dropped_since));
        }
        self.records.extend(&self.latest);
        self.accepted += self.latest.len() as u64;
        Ok(())
    }

    fn commit_task(&mut self, program: &[u16], number: u16) -> Result<(), String> {
        if number != self.task {
            return Err(format!("committed task {number}, serial task {}", self.task));
        }
        let Ended::Go(next) = self.run_body(program, number, 0)? else {
            return Err("a task ended with DONE".into());
        };
        let ended_number = transaction_of(program, self.task);
        let next_number = transaction_of(program, next);
        self.open = if ended_number != 0 && ended_number == next_number { ended_number } else { 0 };
        self.task = next;
        Ok(())
    }

    fn commit_event(&mut self, program: &[u16], number: u16) -> Result<(), String> {
        let (event, datum) = self.records.pop_front().ok_or("committed an event without a record")?;
        if event != number {
            return Err(format!("committed event {number}, oldest record {event}"));
        }
        if self.open != 0 {
            return Err(format!("committed event {number} while {} is open", self.open));
        }
        self.completed += 1;
        match self.run_body(program, program[1] + event, datum)? {
            Ended::Done => Ok(()),
            Ended::Go(_) => Err("an event ended with GO".into()),
        }
    }

    /// What the latest post or burst with the answer done carried.
    pub fn carried(&self) -> &[Record] {
        &self.latest
    }

    /// Run a body from its first instruction on the memory, register 0 holding an event's data.
    fn run_body(&mut self, program: &[u16], body: u16, datum: u16) -> Result<Ended, String> {
        let row = &program[6 + 3 * body as usize..][..3];
        let code = &program[row[0] as usize..][..2 * row[1] as usize];
        let mut register = [0u16; 8];
        register[0] = datum;
        let mut at = 0usize;
        for _ in 0..self.calls {
            let word = code[2 * at];
            let k = code[2 * at + 1];
            let a = (word / 16 % 16) as usize;
            let b = (word % 16) as usize;
            at += 1;
            match word / 256 {
                0 => register[a] = k,
                1 => register[a] = register[b],
                2 => register[a] = register[a].wrapping_add(register[b]),
                3 => register[a] = register[a].wrapping_sub(register[b]),
                4 => register[a] &= register[b],
                5 => register[a] |= register[b],
                6 => register[a] ^= register[b],
                7 => register[a] = ((register[a] as i16) >> k) as u16,
                8 => register[a] = self.memory[k as usize],
                9 => self.memory[k as usize] = register[a],
                10 | 11 => {
                    let address = k as u32 + register[b] as u32;
                    let place = self.memory.get_mut(address as usize);
                    let place = place.ok_or_else(|| format!("body {body}: address {address}"))?;
                    if word / 256 == 10 {
                        register[a] = *place;
                    } else {
                        *place = register[a];
                    }
                }
                12 => at = k as usize,
                13 if register[a] == 0 => at = k as usize,
                14 if (register[a] as i16) < (register[b] as i16) => at = k as usize,
                13 | 14 => {}
                15 => return Ok(Ended::Go(k)),
                _ => return Ok(Ended::Done),
            }
        }
        Err(format!("body {body} doesn't end"))
    }
}

/// Whether a call with the answer done has posted.
fn posts(call: &Call) -> bool {
    matches!(call, Call::Post { .. } | Call::Burst { .. } | Call::Raise { .. })
}

/// The records of a post, a burst or a raise with the answer done.
fn posted(call: &Call) -> Result<Vec<Record>, String> {
    match call {
        Call::Post { event, datum } => Ok(vec![(*event, *datum)]),
        Call::Burst { count: count @ 1..=4, words } => {
            Ok(words.chunks(2).take(*count as usize).map(|pair| (pair[0], pair[1])).collect())
        }
        Call::Burst { count, .. } => Err(format!("a burst of {count} is done")),
        Call::Raise { table, line, level } => {
            let event = event_of(table, *line, *level).ok_or("a raise without an event is done")?;
            Ok(vec![(event, *level)])
        }
        _ => Ok(Vec::new()),
    }
}

/// The event that a line table has for a level of a line.
fn event_of(table: &[u16], line: u16, level: u16) -> Option<u16> {
    let row = table.chunks_exact(4).find(|row| row[0] == line && (row[1]..=row[2]).contains(&level))?;
    (row[3] != 65535).then_some(row[3])
}

fn transaction_of(program: &[u16], task: u16) -> u16 {
    program[8 + 3 * task as usize]
}

/// The store's waiting records: to tail from head, in phase 2 from word 12.
fn waiting_records(store: &[u16]) -> Result<Vec<Record>, String> {
    let ring = store[3] as usize + 1;
    let queue = store[7] as usize;
    let tail = store[TAIL] as usize;
    let mut slot = if store[PHASE] == 2 { store[PENDING] as usize } else { store[HEAD] as usize };
    if slot >= ring || tail >= ring {
        return Err(format!("head {slot} or tail {tail} outside the ring"));
    }
    let mut records = Vec::new();
    while slot != tail {
        records.push((store[queue + 2 * slot], store[queue + 2 * slot + 1]));
        slot = (slot + 1) % ring;
    }
    Ok(records)
}

/// Request N6, "Several events or none": of each burst all records come in together, in order, or none. Nothing else comes
/// in, and nothing goes but the oldest record: by an event's commit, or by N7 where a post found the queue full. Read from
/// calls, their answers and the store's waiting records alone.
#[derive(Clone, Debug, Default)]
pub struct Whole {
    /// The records that waited after the latest call.
    waiting: Vec<Record>,
    /// What the latest post or burst with the answer done carried, unless that has come in.
    latest: Vec<Record>,
    /// The last call that wasn't refused is a post that found Q records waiting.
    found_full: bool,
}

impl Whole {
    /// Read a call with its answer, and the store as it left it.
    pub fn read(&mut self, call: &Call, answer: &Answer, store: &[u16]) -> Result<(), String> {
        let records = waiting_records(store)?;
        let post = *answer == Answer::Done && posts(call);
        if post {
            self.latest = posted(call)?;
        }
        // A committed event's record waits no more, nor does a dropped one.
        let drops = self.found_full && *answer == Answer::Stored;
        let gone = (drops || matches!(answer, Answer::Committed(Body::Event(_)))) as usize;
        if !matches!(answer, Answer::Refused(_)) {
            self.found_full = post && self.waiting.len() == store[3] as usize;
        }
        let before = self.waiting.get(gone..).unwrap_or(&[]);
        let Some(came) = records.strip_prefix(before) else {
            return Err(format!("{:?} waited, now {records:?}", self.waiting));
        };
        if !came.is_empty() && came != self.latest {
            return Err(format!("{came:?} came in of a burst of {:?}", self.latest));
        }
        if came.is_empty() == matches!(answer, Answer::Accepted(_)) {
            return Err(format!("{came:?} came in"));
        }
        if !came.is_empty() {
            self.latest.clear();
        }
        self.waiting = records;
        Ok(())
    }

    /// Uncut recovery has left this store: the same records wait.
    fn recovered(&self, store: &[u16]) -> Result<(), String> {
        let records = waiting_records(store)?;
        if records != self.waiting {
            return Err(format!("recovery: {:?} waited, now {records:?}", self.waiting));
        }
        Ok(())
    }
}

/// The store's waiting records are the serial run's.
fn compare_records(store: &[u16], serial: &Serial, when: &str) -> Result<(), String> {
    let records = waiting_records(store).map_err(|text| format!("{when}: {text}"))?;
    for (number, record) in records.iter().enumerate() {
        if serial.records.get(number) != Some(record) {
            return Err(format!(
                "{when}: waiting record {number} is {record:?}, serial records {:?}",
                serial.records
            ));
        }
    }
    let waiting = records.len();
    if waiting != serial.records.len() {
        return Err(format!("{when}: {waiting} records wait, serial records {:?}", serial.records));
    }
    if serial.accepted != serial.completed + waiting as u64 + serial.dropped {
        return Err(format!(
            "{when}: accepted {}, completed {}, waiting {waiting}, dropped {}",
            serial.accepted, serial.completed, serial.dropped
        ));
    }
    Ok(())
}

/// Uncut recovery of a copy of the store, in the number of steps that the store says; the device that it leaves.
fn recover(runtime: &dyn Runtime, program: &[u16], copy: &mut [u16], device: &Device) -> Result<Device, String> {
    let n = copy[COUNT] as u32;
    let expected = match copy[PHASE] {
        0 => 0,
        1 => n + 4,
        _ => n + 3,
    };
    let mut device = *device;
    let mut totals = Totals::default();
    runtime.cut(&mut device);
    let answer = runtime.boot(program, copy, &mut device);
    if answer != Answer::Done {
        return Err(format!("recovery: boot answers {answer:?}"));
    }
    let mut steps = 0;
    while copy[PHASE] != 0 {
        if steps > expected {
            return Err(format!("recovery: {steps} steps and no end, {expected} expected"));
        }
        let answer = runtime.step(program, copy, &mut device, &mut totals).answer;
        if answer != Answer::Stored {
            return Err(format!("recovery: step {steps} answers {answer:?}"));
        }
        steps += 1;
    }
    if steps != expected {
        return Err(format!("recovery: {steps} steps, {expected} expected"));
    }
    Ok(device)
}

/// What is expected at one point of a list: the serial run, whose turn it is, and the records that came in.
pub struct Expected<'a> {
    pub serial: &'a Serial,
    pub turn: &'a Turn,
    pub whole: &'a Whole,
}

/// Demand 3 at one point of a list: recover a copy of the store and compare it with the serial run, and with it what
/// the device runs then. `copy` is only a buffer.
pub fn demand_3(
    runtime: &dyn Runtime,
    program: &[u16],
    store: &[u16],
    device: &Device,
    Expected { serial, turn, whole }: Expected,
    copy: &mut Vec<u16>,
) -> Result<(), String> {
    compare_records(store, serial, "before recovery")?;
    copy.clear();
    copy.extend_from_slice(store);
    let device = recover(runtime, program, copy, device)?;
    whole.recovered(copy)?;
    if (device, copy[BEGUN]) != (turn.recovered(serial), turn.word()) {
        return Err(format!("recovery: word 16 is {}, device {device:?}, {turn:?} expected", copy[BEGUN]));
    }
    let memory = &copy[MEMORY..MEMORY + serial.memory.len()];
    if memory != &serial.memory[..] {
        return Err(format!("recovered memory {memory:?}, serial memory {:?}", serial.memory));
    }
    if (copy[TASK], copy[OPEN]) != (serial.task, serial.open) {
        return Err(format!(
            "recovered task {} open {}, serial task {} open {}",
            copy[TASK], copy[OPEN], serial.task, serial.open
        ));
    }
    compare_records(copy, serial, "after recovery")
}
