//! The exam sheet of request N1, as a function of the bytes of program.img and of the schedule. Each clause is a method
//! under the words of N1 that it renders; a version with a mistake (`mutants`) is this one with a clause changed.

pub mod compare;
pub mod counts;
pub mod generate;
pub mod mutants;

use crate::reference::{store_length, MEMORY, PHASE};
use crate::runtime::*;
use crate::scenario::{Call, Machine};
use std::fmt::Write;
use std::io;

/// A line of the sheet under the header. Call 0 is the program's check.
pub enum Line {
    Cut { call: u64, memory: Vec<u16> },
    Refused { call: u64, refusal: Refusal },
    Dropped { call: u64, record: Record },
    Unread { call: u64 },
}

/// The memory words as they are.
fn memory(machine: &Machine) -> Vec<u16> {
    let length = machine.program.get(3).copied().unwrap_or(0) as usize;
    machine.store[MEMORY..MEMORY + length].to_vec()
}

/// A cut, a boot, then steps while the phase isn't 0, without posts.
fn recover(runtime: &dyn Runtime, machine: &mut Machine) {
    machine.call(runtime, &Call::Cut);
    machine.call(runtime, &Call::Boot);
    while machine.store[PHASE] != 0 {
        machine.call(runtime, &Call::Step);
    }
}

/// "in hex of either case"
fn digit(byte: u8) -> Option<u16> {
    char::from(byte).to_digit(16).map(|digit| digit as u16)
}

/// N1's clauses.
pub trait Clauses {
    /// "a missing file is empty": so is one that can't be read.
    fn image(&self, read: io::Result<Vec<u8>>) -> Vec<u8> {
        read.unwrap_or_default()
    }

    /// "words low byte first"
    fn words(&self, image: &[u8]) -> Vec<u16> {
        image.chunks_exact(2).map(|pair| u16::from_le_bytes([pair[0], pair[1]])).collect()
    }

    /// "an odd byte count is 1", "a program that the check refuses"
    fn refused(&self, runtime: &dyn Runtime, image: &[u8], program: &[u16]) -> Option<Refusal> {
        if image.len() % 2 == 1 {
            return Some(Refusal { number: 1, place: (0, 0) });
        }
        match runtime.check(program) {
            Answer::Refused(refusal) => Some(refusal),
            _ => None,
        }
    }

    /// "L and Q are 1"
    fn log_pairs_and_queue_records(&self) -> (u16, u16) {
        (1, 1)
    }

    /// "Calls stand one to a line (the last line feed may be missing)"
    fn lines<'a>(&self, schedule: &'a [u8]) -> Vec<&'a [u8]> {
        let lines = schedule.split_inclusive(|byte| *byte == b'\n');
        lines.map(|line| line.strip_suffix(b"\n").unwrap_or(line)).collect()
    }

    /// "b boot, s step, c cut, p, an event digit and four data digits, [...] unspaced"
    fn call(&self, line: &[u8]) -> Option<Call> {
        match line {
            b"b" => Some(Call::Boot),
            b"s" => Some(Call::Step),
            b"c" => Some(Call::Cut),
            [b'p', event, data @ ..] if data.len() == 4 => {
                let datum = data.iter().try_fold(0, |high, low| Some(high * 16 + digit(*low)?))?;
                Some(Call::Post { event: digit(*event)?, datum })
            }
            _ => None,
        }
    }

    /// "the words that uncut recovery would leave": recovery is a copy's, and the device goes on from the cut itself.
    fn cut(&self, runtime: &dyn Runtime, machine: &mut Machine) -> Vec<u16> {
        machine.call(runtime, &Call::Cut);
        let mut copy = machine.clone();
        recover(runtime, &mut copy);
        memory(&copy)
    }

    /// N7: "the accepting answer gains the dropped record or none; for a dropped one N1's sheet prints"
    fn dropped(&self, answer: &Answer, _machine: &Machine) -> Option<Record> {
        match answer {
            Answer::Accepted(dropped) => *dropped,
            _ => None,
        }
    }

    /// "numbered from 1": the number after this one, whatever the call has printed.
    fn next(&self, number: u64, _printed: Option<&Line>) -> u64 {
        number + 1
    }

    /// "It prints "call memory"", and so for a program that the check refuses.
    fn header(&self, _refused: bool) -> &'static str {
        "call memory\n"
    }

    /// "for each cut the call's number in decimal and the words [...], in four capital hex digits, all parted by single
    /// spaces", "its number, "refused", the refusal's number and its two place words in decimal", "its number and
    /// "unread"", and by N7 "the call's number, "dropped", event and data in decimal"
    fn text(&self, line: &Line) -> String {
        match line {
            Line::Cut { call, memory } => {
                let mut text = call.to_string();
                for word in memory {
                    let _ = write!(text, " {word:04X}");
                }
                text + "\n"
            }
            Line::Refused { call, refusal: Refusal { number, place: (first, second) } } => {
                format!("{call} refused {number} {first} {second}\n")
            }
            Line::Dropped { call, record: (event, datum) } => format!("{call} dropped {event} {datum}\n"),
            Line::Unread { call } => format!("{call} unread\n"),
        }
    }

    /// "such a line with call 0, and no more", "ends the sheet"
    fn ends(&self, line: &Line) -> bool {
        matches!(line, Line::Refused { call: 0, .. } | Line::Unread { .. })
    }
}

/// The clauses as they are.
pub struct Right;

impl Clauses for Right {}

/// A formatted store, if the check lets the program pass, and a device that is off.
fn machine(clauses: &dyn Clauses, runtime: &dyn Runtime, program: Vec<u16>) -> Machine {
    let (log_pairs, queue_records) = clauses.log_pairs_and_queue_records();
    let memory = program.get(3).copied().unwrap_or(0) as usize;
    let store = vec![0; store_length(memory, log_pairs as usize, queue_records as usize)];
    let mut machine = Machine { program, store, device: Device::OFF, stray: None, totals: Totals::default() };
    machine.call(runtime, &Call::Format { log_pairs, queue_records });
    machine
}

/// What a line of the schedule prints, if anything: a call that is neither a cut nor refused, and tells of no dropped
/// record, prints nothing.
fn printed(
    clauses: &dyn Clauses,
    runtime: &dyn Runtime,
    machine: &mut Machine,
    number: u64,
    line: &[u8],
) -> Option<Line> {
    let Some(call) = clauses.call(line) else { return Some(Line::Unread { call: number }) };
    if call == Call::Cut {
        return Some(Line::Cut { call: number, memory: clauses.cut(runtime, machine) });
    }
    match machine.call(runtime, &call)?.answer()? {
        Answer::Refused(refusal) => Some(Line::Refused { call: number, refusal }),
        answer => clauses.dropped(&answer, machine).map(|record| Line::Dropped { call: number, record }),
    }
}

/// What is told of a schedule, line by line as far as it is read: the machine before the call, and the line.
pub type Tell<'a> = &'a mut dyn FnMut(&Machine, &[u8]);

/// The sheet by these clauses, telling each line.
pub fn sheet_telling(
    clauses: &dyn Clauses,
    runtime: &dyn Runtime,
    image: &[u8],
    schedule: &[u8],
    tell: Tell,
) -> Vec<u8> {
    let program = clauses.words(image);
    let refused = clauses.refused(runtime, image, &program);
    let mut text = clauses.header(refused.is_some()).to_string();
    if let Some(refusal) = refused {
        let made = Line::Refused { call: 0, refusal };
        text.push_str(&clauses.text(&made));
        if clauses.ends(&made) {
            return text.into_bytes();
        }
    }
    let mut machine = machine(clauses, runtime, program);
    let mut number = 1;
    for line in clauses.lines(schedule) {
        tell(&machine, line);
        let made = printed(clauses, runtime, &mut machine, number, line);
        if let Some(made) = &made {
            text.push_str(&clauses.text(made));
            if clauses.ends(made) {
                break;
            }
        }
        number = clauses.next(number, made.as_ref());
    }
    text.into_bytes()
}

/// The sheet for program.img's bytes and the schedule's.
pub fn sheet(runtime: &dyn Runtime, image: &[u8], schedule: &[u8]) -> Vec<u8> {
    sheet_telling(&Right, runtime, image, schedule, &mut |_, _| ())
}
