//! The library for Rust: the names and functions of include/runtime.h, and a safe node over them. For every edition.
//! Copy this file into your crate. What each call takes, answers and refuses: docs/USING.md.
#![allow(dead_code)] // a host needs some of the names

use std::fmt;

// ---- Lengths

pub const DEVICE_WORDS: usize = 26;
pub const ANSWER_WORDS: usize = 5;
pub const STEP_ANSWER_WORDS: usize = 6; // a step's answer tells the word stored, too
pub const TOTALS_NUMBERS: usize = 3;
pub const REGISTERS: usize = 8;
pub const BURST_WORDS: usize = 8; // a burst: its first event, that event's data, its second event, ..
pub const LINES_ROW_WORDS: usize = 4; // a line table's rows

/// The length of a store of M memory words, L log pairs and Q queue records.
pub const fn store_words(memory_words: u16, log_pairs: u16, queue_records: u16) -> usize {
    19 + memory_words as usize + 2 * log_pairs as usize + 2 * queue_records as usize
}

// ---- The largest values. The least is 1; of events that a program has, transaction numbers, lines and a line table's rows 0.

pub const MAX_TASKS: u16 = 32;
pub const MAX_EVENTS: u16 = 16;
pub const MAX_MEMORY_WORDS: u16 = 1024;
pub const MAX_LOG_PAIRS: u16 = 64;
pub const MAX_QUEUE_RECORDS: u16 = 32;
pub const MAX_BURST: u16 = 4; // events of one burst
pub const MAX_INSTRUCTIONS: u16 = 256; // of one body
pub const MAX_TRANSACTION: u16 = 255;
pub const MAX_PROGRAM_WORDS: usize = 24726;
pub const MAX_STORE_WORDS: usize = 1235;
pub const MAX_LINE: u16 = 15;
pub const MAX_LINES_ROWS: usize = 64;

// ---- An answer's words

pub const ANSWER_CASE: usize = 0;
pub const ANSWER_KIND: usize = 1;
pub const ANSWER_NUMBER: usize = 2;
pub const ANSWER_PLACE: usize = 3;
pub const ANSWER_SECOND_PLACE: usize = 4;
pub const ANSWER_DROPPED: usize = 1; // of accepted: 1 if a record was dropped for the event, 0 if none
pub const ANSWER_DROPPED_EVENT: usize = 2;
pub const ANSWER_DROPPED_DATA: usize = 3;
pub const ANSWER_STORED: usize = 5;

pub const CASE_DONE: u16 = 0;
pub const CASE_CHOSEN: u16 = 1;
pub const CASE_WORKED: u16 = 2;
pub const CASE_STORED: u16 = 3;
pub const CASE_COMMITTED: u16 = 4;
pub const CASE_ACCEPTED: u16 = 5;
pub const CASE_REFUSED: u16 = 6;
pub const CASE_SPENT: u16 = 7;
pub const CASE_NO_DEVICE: u16 = 8;
pub const CASE_NOTHING_POSTED: u16 = 9;

pub const KIND_TASK: u16 = 0;
pub const KIND_EVENT: u16 = 1;

pub const NO_STORE: u16 = 65535;

// ---- Refusals

pub const REFUSAL_PROGRAM_LENGTH: u16 = 1;
pub const REFUSAL_PROGRAM_MARK: u16 = 2;
pub const REFUSAL_PROGRAM_SIZE: u16 = 3;
pub const REFUSAL_ROW: u16 = 4;
pub const REFUSAL_INSTRUCTION: u16 = 5;
pub const REFUSAL_STORE_CONTENTS: u16 = 6;
pub const REFUSAL_CONTROL: u16 = 7;
pub const REFUSAL_NO_EVENT: u16 = 8;
pub const REFUSAL_STORE_SIZE: u16 = 9;
pub const REFUSAL_HANDLER_BUSY: u16 = 20;
pub const REFUSAL_QUEUE_FULL: u16 = 21;
pub const REFUSAL_POWER_OFF: u16 = 22;
pub const REFUSAL_ADDRESS: u16 = 23;
pub const REFUSAL_LOG_FULL: u16 = 24;
pub const REFUSAL_STATE: u16 = 25;
pub const REFUSAL_POWER_ON: u16 = 26;
pub const REFUSAL_LINES_ROW: u16 = 30;
pub const REFUSAL_LINES_GAP: u16 = 31;
pub const REFUSAL_LINES_OVERLAP: u16 = 32;
pub const REFUSAL_BURST_LENGTH: u16 = 33;

// ---- The program's first words

pub const PROGRAM_MARK: usize = 0;
pub const PROGRAM_TASKS: usize = 1;
pub const PROGRAM_EVENTS: usize = 2;
pub const PROGRAM_MEMORY_WORDS: usize = 3;
pub const PROGRAM_ENTRY: usize = 4;
pub const PROGRAM_TOTAL_WORDS: usize = 5;

pub const PROGRAM_MARK_VALUE: u16 = 0xC0B1;

// ---- The store: contents, control, memory, log, queue

pub const STORE_MARK: usize = 0;
pub const STORE_MEMORY_WORDS: usize = 1;
pub const STORE_LOG_PAIRS: usize = 2;
pub const STORE_QUEUE_RECORDS: usize = 3;
pub const STORE_CONTROL_START: usize = 4;
pub const STORE_MEMORY_START: usize = 5;
pub const STORE_LOG_START: usize = 6;
pub const STORE_QUEUE_START: usize = 7;

pub const STORE_MARK_VALUE: u16 = 0xC0A2;

pub const STORE_PHASE: usize = 8;
pub const STORE_CURRENT_TASK: usize = 9;
pub const STORE_OPEN: usize = 10; // the open transaction's number, 0 none
pub const STORE_COUNT: usize = 11; // the pairs of the commit
pub const STORE_PENDING_TASK: usize = 12; // phase 1
pub const STORE_PENDING_HEAD: usize = 12; // phase 2
pub const STORE_PENDING_OPEN: usize = 13;
pub const STORE_HEAD: usize = 14;
pub const STORE_TAIL: usize = 15;
pub const STORE_BEGUN: usize = 16; // in phase 0: the kind of body that is chosen and not yet committed

pub const STORE_MEMORY: usize = 17; // the first memory word

pub const PHASE_RUNNING: u16 = 0;
pub const PHASE_TASK_COMMIT: u16 = 1;
pub const PHASE_EVENT_COMMIT: u16 = 2;

pub const BEGUN_NOTHING: u16 = 0;
pub const BEGUN_TASK: u16 = 1;
pub const BEGUN_EVENT: u16 = 2;

// ---- The device

pub const DEVICE_ON: usize = 0;
pub const DEVICE_REGISTER: usize = 1; // register 0, then the others
pub const DEVICE_PLACE: usize = 9;
pub const DEVICE_KIND: usize = 10;
pub const DEVICE_NUMBER: usize = 11;
pub const DEVICE_INSTRUCTION: usize = 12;
pub const DEVICE_STORES: usize = 13;
pub const DEVICE_LOG_COUNT: usize = 14;
pub const DEVICE_HANDLER: usize = 15;
pub const DEVICE_BURST_LENGTH: usize = 16;
pub const DEVICE_HANDLER_STORES: usize = 17; // made of its burst's: of each event, of its data, and last of the tail
pub const DEVICE_BURST: usize = 18; // BURST_WORDS of them; 0 behind its last event's data

pub const PLACE_NO_BODY: u16 = 0;
pub const PLACE_RUNNING: u16 = 1;
pub const PLACE_HALF_SAVE: u16 = 2;

pub const HANDLER_AT_REST: u16 = 0;
pub const HANDLER_STORING: u16 = 1;
pub const HANDLER_DROPPING: u16 = 2; // about to drop the oldest record, by a store of the head
pub const HANDLER_REPLACING: u16 = 3; // it has dropped it, and stores the event in its place

// ---- The totals

pub const TOTALS_COMMITTED: usize = 0;
pub const TOTALS_ACCEPTED: usize = 1;
pub const TOTALS_STORES: usize = 2;

// ---- A line table: a row's words

pub const LINES_LINE: usize = 0;
pub const LINES_LOW: usize = 1;
pub const LINES_HIGH: usize = 2;
pub const LINES_EVENT: usize = 3;

pub const LINES_NO_EVENT: u16 = 65535; // in the event's place: raising posts nothing

/// The library's functions, as include/runtime.h has them.
mod library {
    unsafe extern "C" {
        pub fn runtime_check(program: *const u16, program_length: usize, answer: *mut u16);
        pub fn runtime_format(
            program: *const u16,
            program_length: usize,
            log_pairs: u16,
            queue_records: u16,
            store: *mut u16,
            store_length: usize,
            answer: *mut u16,
        );
        pub fn runtime_boot(
            program: *const u16,
            program_length: usize,
            store: *const u16,
            store_length: usize,
            device: *mut u16,
            answer: *mut u16,
        );
        pub fn runtime_step(
            program: *const u16,
            program_length: usize,
            store: *mut u16,
            store_length: usize,
            device: *mut u16,
            totals: *mut u32,
            answer: *mut u16,
        );
        pub fn runtime_post(
            program: *const u16,
            program_length: usize,
            store: *const u16,
            store_length: usize,
            device: *mut u16,
            event: u16,
            datum: u16,
            answer: *mut u16,
        );
        pub fn runtime_burst(
            program: *const u16,
            program_length: usize,
            store: *const u16,
            store_length: usize,
            device: *mut u16,
            count: u16,
            burst: *const u16,
            answer: *mut u16,
        );
        pub fn runtime_cut(device: *mut u16, answer: *mut u16);
        pub fn runtime_run(
            program: *const u16,
            program_length: usize,
            store: *mut u16,
            store_length: usize,
            device: *mut u16,
            totals: *mut u32,
            budget: u32,
            answer: *mut u16,
        ) -> u32;
        pub fn runtime_lines_check(table: *const u16, table_length: usize, answer: *mut u16);
        pub fn runtime_raise(
            program: *const u16,
            program_length: usize,
            store: *const u16,
            store_length: usize,
            device: *mut u16,
            table: *const u16,
            table_length: usize,
            line: u16,
            level: u16,
            answer: *mut u16,
        );
    }
}

/// A body: a task or an event, each with its own number.
#[derive(Clone, Copy, PartialEq, Eq, Debug)]
pub enum Body {
    Task(u16),
    Event(u16),
}

/// A record of the queue: an event with its data.
#[derive(Clone, Copy, PartialEq, Eq, Debug)]
pub struct Record {
    pub event: u16,
    pub datum: u16,
}

#[derive(Clone, Copy, PartialEq, Eq, Debug)]
pub enum Answer {
    Done,
    Chosen(Body),
    Worked,
    Stored,
    Committed(Body),
    /// With the record that was dropped for the event, if the queue was full.
    Accepted { dropped: Option<Record> },
    Refused { number: u16, place: [u16; 2] },
    Spent,
    /// The words in the device's place stand for no device state.
    NoDevice,
    /// A raise of a line without rows, or at a level whose row has no event.
    NothingPosted,
}

impl Answer {
    /// The answer of the first words that a call wrote.
    fn from_words(words: &[u16]) -> Answer {
        let number = words[ANSWER_NUMBER];
        let body = if words[ANSWER_KIND] == KIND_TASK { Body::Task(number) } else { Body::Event(number) };
        let dropped = Record { event: words[ANSWER_DROPPED_EVENT], datum: words[ANSWER_DROPPED_DATA] };
        match words[ANSWER_CASE] {
            CASE_DONE => Answer::Done,
            CASE_CHOSEN => Answer::Chosen(body),
            CASE_WORKED => Answer::Worked,
            CASE_STORED => Answer::Stored,
            CASE_COMMITTED => Answer::Committed(body),
            CASE_ACCEPTED => Answer::Accepted { dropped: (words[ANSWER_DROPPED] == 1).then_some(dropped) },
            CASE_REFUSED => Answer::Refused { number, place: [words[ANSWER_PLACE], words[ANSWER_SECOND_PLACE]] },
            CASE_SPENT => Answer::Spent,
            CASE_NO_DEVICE => Answer::NoDevice,
            CASE_NOTHING_POSTED => Answer::NothingPosted,
            case => panic!("the library has no case {}", case),
        }
    }
}

impl fmt::Display for Body {
    fn fmt(&self, out: &mut fmt::Formatter) -> fmt::Result {
        match self {
            Body::Task(number) => write!(out, "task {number}"),
            Body::Event(number) => write!(out, "event {number}"),
        }
    }
}

impl fmt::Display for Answer {
    fn fmt(&self, out: &mut fmt::Formatter) -> fmt::Result {
        match self {
            Answer::Done => write!(out, "done"),
            Answer::Chosen(body) => write!(out, "chosen {body}"),
            Answer::Worked => write!(out, "worked"),
            Answer::Stored => write!(out, "stored"),
            Answer::Committed(body) => write!(out, "committed {body}"),
            Answer::Accepted { dropped: None } => write!(out, "accepted"),
            Answer::Accepted { dropped: Some(Record { event, datum }) } => {
                write!(out, "accepted, dropped {event} {datum}")
            }
            Answer::Refused { number, place: [first, second] } => {
                write!(out, "refused {number}, place {first} {second}")
            }
            Answer::Spent => write!(out, "spent"),
            Answer::NoDevice => write!(out, "no device"),
            Answer::NothingPosted => write!(out, "nothing posted"),
        }
    }
}

/// Whether a program is accepted: done, or the refusal.
pub fn check(program: &[u16]) -> Answer {
    let mut answer = [0; ANSWER_WORDS];
    // Safety, here and below: each pointer is that of a slice or an array that is lent for the call, with its length.
    unsafe { library::runtime_check(program.as_ptr(), program.len(), answer.as_mut_ptr()) };
    Answer::from_words(&answer)
}

/// Whether a line table is accepted: done, or the refusal.
pub fn lines_check(table: &[u16]) -> Answer {
    let mut answer = [0; ANSWER_WORDS];
    unsafe { library::runtime_lines_check(table.as_ptr(), table.len(), answer.as_mut_ptr()) };
    Answer::from_words(&answer)
}

/// A node: a program, its store, and what a cut loses.
pub struct Node<'a> {
    pub program: &'a [u16],
    /// Nonvolatile: a cut leaves it as it is.
    pub store: Vec<u16>,
    /// Lost at a cut; zeros are the device that is off.
    pub device: [u16; DEVICE_WORDS],
    pub totals: [u32; TOTALS_NUMBERS],
}

impl<'a> Node<'a> {
    /// With a store of the right length that isn't formatted, and the device off.
    pub fn new(program: &'a [u16], log_pairs: u16, queue_records: u16) -> Node<'a> {
        let memory_words = program.get(PROGRAM_MEMORY_WORDS).copied().unwrap_or(0);
        Node {
            program,
            store: vec![0; store_words(memory_words, log_pairs, queue_records)],
            device: [0; DEVICE_WORDS],
            totals: [0; TOTALS_NUMBERS],
        }
    }

    pub fn format(&mut self, log_pairs: u16, queue_records: u16) -> Answer {
        let mut answer = [0; ANSWER_WORDS];
        unsafe {
            library::runtime_format(
                self.program.as_ptr(),
                self.program.len(),
                log_pairs,
                queue_records,
                self.store.as_mut_ptr(),
                self.store.len(),
                answer.as_mut_ptr(),
            )
        };
        Answer::from_words(&answer)
    }

    pub fn boot(&mut self) -> Answer {
        let mut answer = [0; ANSWER_WORDS];
        unsafe {
            library::runtime_boot(
                self.program.as_ptr(),
                self.program.len(),
                self.store.as_ptr(),
                self.store.len(),
                self.device.as_mut_ptr(),
                answer.as_mut_ptr(),
            )
        };
        Answer::from_words(&answer)
    }

    /// The answer, and the index of the word stored, if one was.
    pub fn step(&mut self) -> (Answer, Option<u16>) {
        let mut answer = [0; STEP_ANSWER_WORDS];
        unsafe {
            library::runtime_step(
                self.program.as_ptr(),
                self.program.len(),
                self.store.as_mut_ptr(),
                self.store.len(),
                self.device.as_mut_ptr(),
                self.totals.as_mut_ptr(),
                answer.as_mut_ptr(),
            )
        };
        let stored = answer[ANSWER_STORED];
        (Answer::from_words(&answer), (stored != NO_STORE).then_some(stored))
    }

    /// To a full queue it drops the oldest record, once the handler's first step is made, unless it is refused with 21.
    pub fn post(&mut self, event: u16, datum: u16) -> Answer {
        let mut answer = [0; ANSWER_WORDS];
        unsafe {
            library::runtime_post(
                self.program.as_ptr(),
                self.program.len(),
                self.store.as_ptr(),
                self.store.len(),
                self.device.as_mut_ptr(),
                event,
                datum,
                answer.as_mut_ptr(),
            )
        };
        Answer::from_words(&answer)
    }

    /// As a post, of count events together: they are accepted by one store, all of them or none. Two or more drop nothing.
    /// The words behind the last event's data aren't looked at.
    pub fn burst(&mut self, count: u16, words: &[u16; BURST_WORDS]) -> Answer {
        let mut answer = [0; ANSWER_WORDS];
        unsafe {
            library::runtime_burst(
                self.program.as_ptr(),
                self.program.len(),
                self.store.as_ptr(),
                self.store.len(),
                self.device.as_mut_ptr(),
                count,
                words.as_ptr(),
                answer.as_mut_ptr(),
            )
        };
        Answer::from_words(&answer)
    }

    /// The table is checked, and then the post of the event that it has for this level of the line, with the level as data.
    pub fn raise(&mut self, table: &[u16], line: u16, level: u16) -> Answer {
        let mut answer = [0; ANSWER_WORDS];
        unsafe {
            library::runtime_raise(
                self.program.as_ptr(),
                self.program.len(),
                self.store.as_ptr(),
                self.store.len(),
                self.device.as_mut_ptr(),
                table.as_ptr(),
                table.len(),
                line,
                level,
                answer.as_mut_ptr(),
            )
        };
        Answer::from_words(&answer)
    }

    pub fn cut(&mut self) -> Answer {
        let mut answer = [0; ANSWER_WORDS];
        unsafe { library::runtime_cut(self.device.as_mut_ptr(), answer.as_mut_ptr()) };
        Answer::from_words(&answer)
    }

    /// The steps made, with spent or the refusal. What they told of dropped records isn't passed on.
    pub fn run(&mut self, budget: u32) -> (u32, Answer) {
        let mut answer = [0; ANSWER_WORDS];
        let steps = unsafe {
            library::runtime_run(
                self.program.as_ptr(),
                self.program.len(),
                self.store.as_mut_ptr(),
                self.store.len(),
                self.device.as_mut_ptr(),
                self.totals.as_mut_ptr(),
                budget,
                answer.as_mut_ptr(),
            )
        };
        (steps, Answer::from_words(&answer))
    }
}
