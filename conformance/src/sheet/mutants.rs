//! Sheets that are wrong on purpose: the right one with one clause mistaken. The tests hold that the comparison notices;
//! so it is known to be able to fail.

use super::{memory, recover, Clauses, Line, Right};
use crate::drops::{after, record};
use crate::reference::TAIL;
use crate::runtime::*;
use crate::scenario::{Call, Machine};
use std::io::{self, ErrorKind};

#[derive(Clone, Copy, PartialEq, Eq, Debug)]
pub enum Mistake {
    // program.img.
    MissingFileFails,
    UnreadableFileFails,
    HighByteFirst,
    LengthInSixteenBits,
    OddByteDropped,
    // What recovery leaves.
    MemoryAtTheCut,
    RecoveryGoesOn,
    CopyCarriedOn,
    DeviceNotCut,
    LogOfTwo,
    QueueOfTwo,
    // How calls are read.
    EmptyLineSkipped,
    CarriageReturnDropped,
    LastLineLost,
    SpacesDropped,
    OnlyUtf8,
    EndsAtZeroByte,
    CapitalCallsRead,
    SignRead,
    LongPostRead,
    ShortPostRead,
    SmallDigitsOnly,
    CapitalDigitsOnly,
    EventInDecimal,
    // What a line has.
    CutsNumbered,
    RefusedNotNumbered,
    NumberInSixteenBits,
    SmallHex,
    LeadingZeroDropped,
    PlaceSwapped,
    PlaceInHex,
    LineFeedBefore,
    DroppedLeftOut,
    DroppedSwapped,
    DroppedInHex,
    DroppedWithoutData,
    DroppedAtTheHeadStore,
    // Where the sheet ends.
    HeaderMissing,
    OnAfterRefusedProgram,
    OnAfterUnread,
    EndsAtRefusedCall,
    EndsAtDrop,
}

pub const MISTAKES: [Mistake; 42] = [
    Mistake::MissingFileFails,
    Mistake::UnreadableFileFails,
    Mistake::HighByteFirst,
    Mistake::LengthInSixteenBits,
    Mistake::OddByteDropped,
    Mistake::MemoryAtTheCut,
    Mistake::RecoveryGoesOn,
    Mistake::CopyCarriedOn,
    Mistake::DeviceNotCut,
    Mistake::LogOfTwo,
    Mistake::QueueOfTwo,
    Mistake::EmptyLineSkipped,
    Mistake::CarriageReturnDropped,
    Mistake::LastLineLost,
    Mistake::SpacesDropped,
    Mistake::OnlyUtf8,
    Mistake::EndsAtZeroByte,
    Mistake::CapitalCallsRead,
    Mistake::SignRead,
    Mistake::LongPostRead,
    Mistake::ShortPostRead,
    Mistake::SmallDigitsOnly,
    Mistake::CapitalDigitsOnly,
    Mistake::EventInDecimal,
    Mistake::CutsNumbered,
    Mistake::RefusedNotNumbered,
    Mistake::NumberInSixteenBits,
    Mistake::SmallHex,
    Mistake::LeadingZeroDropped,
    Mistake::PlaceSwapped,
    Mistake::PlaceInHex,
    Mistake::LineFeedBefore,
    Mistake::DroppedLeftOut,
    Mistake::DroppedSwapped,
    Mistake::DroppedInHex,
    Mistake::DroppedWithoutData,
    Mistake::DroppedAtTheHeadStore,
    Mistake::HeaderMissing,
    Mistake::OnAfterRefusedProgram,
    Mistake::OnAfterUnread,
    Mistake::EndsAtRefusedCall,
    Mistake::EndsAtDrop,
];

/// The right clauses with a mistake.
pub struct Mutant(pub Mistake);

/// A post's event and data, of any length.
fn post(digits: &[u8]) -> Option<Call> {
    let (event, data) = std::str::from_utf8(digits).ok()?.split_at_checked(1)?;
    let number = |text: &str| u16::from_str_radix(text, 16).ok();
    Some(Call::Post { event: number(event)?, datum: number(data)? })
}

impl Clauses for Mutant {
    fn image(&self, read: io::Result<Vec<u8>>) -> Vec<u8> {
        let missing = matches!(&read, Err(error) if error.kind() == ErrorKind::NotFound);
        match self.0 {
            Mistake::MissingFileFails if missing => read.expect("program.img"),
            Mistake::UnreadableFileFails if !missing => read.expect("program.img"),
            _ => Right.image(read),
        }
    }

    fn words(&self, image: &[u8]) -> Vec<u16> {
        let words = Right.words(image);
        match self.0 {
            Mistake::HighByteFirst => words.into_iter().map(u16::swap_bytes).collect(),
            Mistake::LengthInSixteenBits => words[..words.len() % 65536].to_vec(),
            _ => words,
        }
    }

    fn refused(&self, runtime: &dyn Runtime, image: &[u8], program: &[u16]) -> Option<Refusal> {
        match self.0 {
            Mistake::OddByteDropped => Right.refused(runtime, &[], program),
            _ => Right.refused(runtime, image, program),
        }
    }

    fn log_pairs_and_queue_records(&self) -> (u16, u16) {
        match self.0 {
            Mistake::LogOfTwo => (2, 1),
            Mistake::QueueOfTwo => (1, 2),
            _ => Right.log_pairs_and_queue_records(),
        }
    }

    fn lines<'a>(&self, schedule: &'a [u8]) -> Vec<&'a [u8]> {
        let lines = Right.lines(schedule);
        let carriage_return = |line: &'a [u8]| line.strip_suffix(b"\r").unwrap_or(line);
        match self.0 {
            Mistake::EmptyLineSkipped => lines.into_iter().filter(|line| !line.is_empty()).collect(),
            Mistake::CarriageReturnDropped => lines.into_iter().map(carriage_return).collect(),
            Mistake::SpacesDropped => lines.into_iter().map(|line| line.trim_ascii()).collect(),
            Mistake::LastLineLost if !schedule.ends_with(b"\n") => {
                lines.split_last().map_or(Vec::new(), |(_, before)| before.to_vec())
            }
            Mistake::OnlyUtf8 if std::str::from_utf8(schedule).is_err() => Vec::new(),
            Mistake::EndsAtZeroByte => Right.lines(schedule.split(|byte| *byte == 0).next().unwrap_or(schedule)),
            _ => lines,
        }
    }

    fn call(&self, line: &[u8]) -> Option<Call> {
        let right = Right.call(line);
        match (self.0, line) {
            (Mistake::CapitalCallsRead, [letter, rest @ ..]) => {
                Right.call(&[&[letter.to_ascii_lowercase()], rest].concat())
            }
            (Mistake::SignRead, [b'p', digits @ ..]) if digits.len() == 5 => post(digits),
            (Mistake::LongPostRead, [b'p', ..]) => right.or_else(|| Right.call(line.get(..6)?)),
            (Mistake::ShortPostRead, [b'p', digits @ ..]) if digits.len() < 5 => post(digits),
            (Mistake::SmallDigitsOnly, [b'p', digits @ ..]) if digits.iter().any(u8::is_ascii_uppercase) => None,
            (Mistake::CapitalDigitsOnly, [b'p', digits @ ..]) if digits.iter().any(u8::is_ascii_lowercase) => None,
            (Mistake::EventInDecimal, [b'p', event, ..]) if event.is_ascii_alphabetic() => None,
            _ => right,
        }
    }

    fn cut(&self, runtime: &dyn Runtime, machine: &mut Machine) -> Vec<u16> {
        let mut copy = machine.clone();
        recover(runtime, &mut copy);
        match self.0 {
            Mistake::MemoryAtTheCut => {
                machine.call(runtime, &Call::Cut);
                memory(machine)
            }
            Mistake::RecoveryGoesOn => {
                machine.call(runtime, &Call::Cut);
                copy.call(runtime, &Call::Run { budget: 30 });
                memory(&copy)
            }
            Mistake::CopyCarriedOn => {
                *machine = copy;
                memory(machine)
            }
            Mistake::DeviceNotCut => memory(&copy),
            _ => Right.cut(runtime, machine),
        }
    }

    fn dropped(&self, answer: &Answer, machine: &Machine) -> Option<Record> {
        let right = Right.dropped(answer, machine);
        match self.0 {
            Mistake::DroppedLeftOut => None,
            Mistake::DroppedSwapped => right.map(|(event, datum)| (datum, event)),
            // The dropped record still stands in the slot after tail.
            Mistake::DroppedAtTheHeadStore => {
                let store = &machine.store;
                let handler = machine.device.handler.filter(|_| *answer == Answer::Stored);
                let dropped = handler.is_some_and(|handler| handler.work == Work::Replacing && handler.made == 0);
                dropped.then(|| record(store, after(store, store[TAIL])))
            }
            _ => right,
        }
    }

    fn next(&self, number: u64, printed: Option<&Line>) -> u64 {
        let right = Right.next(number, printed);
        match (self.0, printed) {
            (Mistake::CutsNumbered, Some(Line::Cut { .. })) => right,
            (Mistake::CutsNumbered, _) => number,
            (Mistake::RefusedNotNumbered, Some(Line::Refused { .. })) => number,
            (Mistake::NumberInSixteenBits, _) => right % 65536,
            _ => right,
        }
    }

    fn header(&self, refused: bool) -> &'static str {
        match self.0 {
            Mistake::HeaderMissing if refused => "",
            Mistake::LineFeedBefore => Right.header(refused).trim_end(),
            _ => Right.header(refused),
        }
    }

    fn text(&self, line: &Line) -> String {
        let right = Right.text(line);
        match (self.0, line) {
            (Mistake::SmallHex, _) => right.to_lowercase(),
            (Mistake::LeadingZeroDropped, Line::Cut { .. }) => right.replace(" 0", " "),
            (Mistake::PlaceSwapped, Line::Refused { call, refusal: Refusal { number, place: (first, second) } }) => {
                let refusal = Refusal { number: *number, place: (*second, *first) };
                Right.text(&Line::Refused { call: *call, refusal })
            }
            (Mistake::PlaceInHex, Line::Refused { call, refusal: Refusal { number, place: (first, second) } }) => {
                format!("{call} refused {number} {first:X} {second:X}\n")
            }
            (Mistake::DroppedInHex, Line::Dropped { call, record: (event, datum) }) => {
                format!("{call} dropped {event:X} {datum:04X}\n")
            }
            (Mistake::DroppedWithoutData, Line::Dropped { call, record: (event, _) }) => {
                format!("{call} dropped {event}\n")
            }
            (Mistake::LineFeedBefore, _) => format!("\n{}", right.trim_end()),
            _ => right,
        }
    }

    fn ends(&self, line: &Line) -> bool {
        match (self.0, line) {
            (Mistake::OnAfterRefusedProgram, Line::Refused { .. }) => false,
            (Mistake::OnAfterUnread, Line::Unread { .. }) => false,
            (Mistake::EndsAtRefusedCall, Line::Refused { .. }) => true,
            (Mistake::EndsAtDrop, Line::Dropped { .. }) => true,
            _ => Right.ends(line),
        }
    }
}
