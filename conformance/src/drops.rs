//! Request N7, records dropped from a full queue: the situations that must come up, fixed lists that meet them, random
//! handlers that drop, cases with fixed answers, and what calls, and the serial run, come to by each mistake about them.

pub mod cases;
pub mod generate;
pub mod lists;
pub mod mutants;
pub mod situations;

use crate::bursts::room;
use crate::reference::{BEGUN, EVENT_BEGUN, PHASE};
use crate::runtime::Record;

/// Whether a single post drops the record at head of a store whose contents and ring are right: the queue is full, and
/// neither word 16 nor the phase is 2.
pub fn drops(store: &[u16]) -> bool {
    room(store) == 0 && store[BEGUN] != EVENT_BEGUN && store[PHASE] != 2
}

/// The slot after another in the ring of such a store.
pub fn after(store: &[u16], slot: u16) -> u16 {
    (slot + 1) % (store[3] + 1)
}

/// Where a slot's event stands in such a store; its data follows.
pub fn event_word(store: &[u16], slot: u16) -> usize {
    store[7] as usize + 2 * slot as usize
}

/// The record in a slot.
pub fn record(store: &[u16], slot: u16) -> Record {
    let at = event_word(store, slot);
    (store[at], store[at + 1])
}
