//! Request N6, bursts: the situations that must come up, fixed lists that meet them, random bursts and handlers, cases with
//! fixed answers, and what calls come to by each mistake about them.

pub mod cases;
pub mod generate;
pub mod lists;
pub mod mutants;
pub mod situations;

use crate::reference::{HEAD, TAIL};

/// The slots from one to another round the ring of a store whose contents are right; both are in the ring.
pub fn slots(store: &[u16], from: u16, to: u16) -> usize {
    let ring = store[3] as usize + 1;
    (to as usize + ring - from as usize) % ring
}

/// How many records more the queue of such a store takes, by words 14 and 15.
pub fn room(store: &[u16]) -> usize {
    store[3] as usize - slots(store, store[HEAD], store[TAIL])
}
