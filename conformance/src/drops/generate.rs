//! Random handlers that drop a record, or have dropped one.

use crate::generate::Random;
use crate::runtime::*;

/// A record for a program with so many events; its event is bad so often in a hundred.
pub fn record(random: &mut Random, events: usize, bad: usize) -> Record {
    let event = match events > 0 && !random.percent(bad) {
        true => random.below(events) as u16,
        false => random.pick(&[events as u16, events as u16, events as u16 + 1, 256, 65535]),
    };
    (event, random.word())
}

/// A handler about to drop, or one that has dropped, at any of its stores or past the last.
pub fn handler(random: &mut Random, events: usize) -> Handler {
    let record = record(random, events, 20);
    match random.below(10) {
        0..=4 => Handler::dropping(record),
        5..=8 => Handler::replacing(record, random.below(4) as u16),
        _ => Handler::replacing(record, random.pick(&[3, 4, 256, 65535])),
    }
}

/// How many slots of a queue of so many records are taken: mostly all; or all but one, where this handler has dropped.
pub fn filled(random: &mut Random, queue_records: usize, handler: Option<Handler>) -> usize {
    let right = match handler {
        Some(Handler { work: Work::Replacing, .. }) => queue_records - 1,
        _ => queue_records,
    };
    match random.below(10) {
        0 | 1 => random.below(queue_records + 1),
        2 => queue_records - 1,
        3 => queue_records,
        _ => right,
    }
}
