//! What posts, the steps of a handler that drops, and the serial run come to by each mistake about dropped records: the
//! rules of N7, each with something that a mistake may change. All other mistakes leave the rules as they are.

use super::{after, drops, event_word, record};
use crate::bursts::mutants::met_first;
use crate::bursts::room;
use crate::mutants::Mistake;
use crate::reference::*;
use crate::runtime::*;
use crate::scenario::Call;

fn refused(number: u16, place: usize) -> Answer {
    Answer::Refused(Refusal { number, place: (place as u16, 0) })
}

/// The number of a burst's events, and its words.
type Posted<'a> = (u16, &'a BurstWords);

/// By which call a burst is posted.
#[derive(Clone, Copy, PartialEq, Eq, Debug)]
pub enum By {
    Post,
    Burst,
    Raise,
}

// ---------------------------------------------------------------------------------------------------------
// 25

/// Whether 25 meets a handler that drops, or has dropped, all else being right.
fn unlike(mistake: Mistake, program: &[u16], store: &[u16], handler: &Handler) -> bool {
    let bad_event = handler.words[0] >= program[2];
    let (begun, phase) = (store[BEGUN] == EVENT_BEGUN, store[PHASE] == 2);
    if handler.work == Work::Dropping {
        return match mistake {
            Mistake::DroppingFullnessUnseen => begun || phase || bad_event,
            Mistake::DroppingBegunUnseen | Mistake::DropWithEventBegun => room(store) > 0 || phase || bad_event,
            Mistake::DroppingPhaseUnseen => room(store) > 0 || begun || bad_event,
            Mistake::DropInEventCommit
            | Mistake::DropInEventCommitOnceMoved
            | Mistake::DropInEventCommitOnceCleared => room(store) > 0 || (begun && !phase) || bad_event,
            Mistake::DroppingEventUnseen => !drops(store),
            Mistake::DroppingAskedForRoom => true,
            Mistake::BurstOfTwoDrops | Mistake::LongerBurstDropsOne => begun || phase || bad_event,
            _ => !drops(store) || bad_event,
        };
    }
    let past = handler.made > 2;
    match mistake {
        Mistake::ReplacingRoomUnseen => past || bad_event,
        Mistake::ReplacingRoomUnseenOnceStoring => past || bad_event || (handler.made == 0 && room(store) == 0),
        Mistake::ReplacingPastTailUnseen => room(store) == 0 || bad_event,
        Mistake::ReplacingEventUnseen => past || room(store) == 0,
        Mistake::ReplacingAskedForRoomOfOne => past || room(store) != 1 || bad_event,
        Mistake::HeadAfterTail => handler.made > 3 || bad_event,
        Mistake::NewRecordOverHead => past || bad_event,
        _ => past || room(store) == 0 || bad_event,
    }
}

// ---------------------------------------------------------------------------------------------------------
// Posts

/// Whether a post that is to drop meets 21 by the mistake.
fn refuses_drop(mistake: Mistake, store: &[u16], by: By) -> bool {
    match mistake {
        Mistake::FullAsBefore => true,
        Mistake::DropInPhaseZeroOnly => store[PHASE] == 1,
        Mistake::DropWithNothingBegunOnly => store[PHASE] == 0 && store[BEGUN] == TASK_BEGUN,
        Mistake::DropOutsideTransactionsOnly => store[PHASE] == 0 && store[OPEN] != 0,
        Mistake::BurstOfOneDropsNothing => by == By::Burst,
        Mistake::RaiseDropsNothing => by == By::Raise,
        _ => false,
    }
}

/// Whether a burst that meets 21 drops by the mistake.
fn drops_too(mistake: Mistake, store: &[u16], count: u16) -> bool {
    let (begun, phase) = (store[BEGUN] == EVENT_BEGUN, store[PHASE] == 2);
    match mistake {
        Mistake::DropWithEventBegun => count == 1 && begun && !phase,
        Mistake::DropInEventCommit => count == 1 && phase,
        Mistake::DropInEventCommitOnceMoved => count == 1 && phase && store[PENDING] == store[HEAD],
        Mistake::DropInEventCommitOnceCleared => count == 1 && phase && !begun,
        Mistake::BurstOfTwoDrops => count == 2 && drops(store),
        Mistake::LongerBurstDropsOne => count as usize == room(store) + 1 && count > 1 && !begun && !phase,
        _ => false,
    }
}

/// A post that is to drop, where it is done.
fn set_to_work(mistake: Mistake, store: &mut [u16], device: &mut Device, record: Record) -> Answer {
    device.handler = Some(match mistake {
        Mistake::DropAsStoring => Handler::single(record.0, record.1),
        Mistake::PostStoresHead => {
            store[HEAD] = after(store, store[HEAD]);
            Handler::replacing(record, 0)
        }
        _ => Handler::dropping(record),
    });
    Answer::Done
}

/// What a post meets while a handler is at work that drops: 25 by the mistake, or what comes behind it.
fn busy(mistake: Mistake, program: &[u16], store: &mut [u16], device: &mut Device, (count, words): Posted) -> Answer {
    let handler = device.handler.expect("at work");
    if let Some(refusal) = met_first(program, store, device) {
        return Answer::Refused(refusal);
    }
    if unlike(mistake, program, store, &handler) {
        return refused(25, 0);
    }
    let mut resting = Device { handler: None, ..*device };
    match Reference.burst(program, store, &mut resting, count, words) {
        Answer::Done | Answer::Refused(Refusal { number: 21, .. }) => {
            if mistake == Mistake::RefusedPostEndsDrop && handler.work == Work::Dropping {
                device.handler = None;
            }
            refused(20, 0)
        }
        other => other,
    }
}

/// A burst by the mistake, a post among them; none where the reference's stands.
pub fn burst(
    mistake: Mistake,
    program: &[u16],
    store: &mut [u16],
    device: &mut Device,
    (count, words): Posted,
    by: By,
) -> Option<Answer> {
    if device.on && device.handler.is_some_and(|handler| handler.drops()) {
        return Some(busy(mistake, program, store, device, (count, words)));
    }
    let new = (words[0], words[1]);
    match Reference.burst(program, store, &mut device.clone(), count, words) {
        Answer::Done if count == 1 && drops(store) => {
            let slot = event_word(store, store[HEAD]);
            if mistake == Mistake::PostReadsDroppedRecord && store[slot] >= program[2] {
                return Some(refused(7, slot));
            }
            match refuses_drop(mistake, store, by) {
                true => Some(refused(21, 0)),
                false => Some(set_to_work(mistake, store, device, new)),
            }
        }
        Answer::Refused(Refusal { number: 21, .. }) if drops_too(mistake, store, count) => {
            Some(set_to_work(mistake, store, device, new))
        }
        _ => None,
    }
}

// ---------------------------------------------------------------------------------------------------------
// Steps

fn make(store: &mut [u16], totals: &mut Totals, (index, word): (usize, u16), answer: Answer) -> StepAnswer {
    store[index] = word;
    totals.stores = totals.stores.saturating_add(1);
    StepAnswer { answer, stored: Some(index as u16) }
}

/// The word of the record that 7 names before a drop, if it names one.
fn bad_record(mistake: Mistake, program: &[u16], store: &[u16]) -> Option<usize> {
    let bad = |slot: u16| record(store, slot).0 >= program[2];
    let head = event_word(store, store[HEAD]);
    match mistake {
        Mistake::DroppedRecordUnchecked => None,
        Mistake::DroppedRecordNamedByData if bad(store[HEAD]) => Some(head + 1),
        Mistake::AllRecordsChecked => {
            let (ring, from) = (store[3] + 1, store[HEAD]);
            let slots = (0..store[3]).map(|offset| (from + offset) % ring);
            slots.filter(|slot| bad(*slot)).map(|slot| event_word(store, slot)).min()
        }
        _ => bad(store[HEAD]).then_some(head),
    }
}

/// The slot before another in the ring.
fn before(store: &[u16], slot: u16) -> u16 {
    if slot == 0 {
        store[3]
    } else {
        slot - 1
    }
}

/// The store of a handler about to drop, and what it has made of its burst then.
fn first_store(mistake: Mistake, store: &[u16], handler: &Handler) -> ((usize, u16), u16) {
    let (head, tail, records) = (store[HEAD], store[TAIL], store[3]);
    match mistake {
        Mistake::HeadAfterTail => ((event_word(store, tail), handler.words[0]), 1),
        Mistake::NewRecordOverHead => ((event_word(store, head), handler.words[0]), 1),
        Mistake::NewestDropped => ((TAIL, before(store, tail)), 0),
        Mistake::TwoDropped if records > 1 => ((HEAD, after(store, after(store, head))), 0),
        Mistake::AllDropped => ((HEAD, tail), 0),
        Mistake::HeadNotWrapped => ((HEAD, head + 1), 0),
        Mistake::HeadWrapsBeforeLastSlot => ((HEAD, (head + 1) % records), 0),
        _ => ((HEAD, after(store, head)), 0),
    }
}

fn drop_next(mistake: Mistake, store: &mut [u16], device: &mut Device, totals: &mut Totals, handler: Handler) -> StepAnswer {
    let stores = totals.stores;
    let (made, count) = first_store(mistake, store, &handler);
    let step = make(store, totals, made, Answer::Stored);
    device.handler = match mistake {
        Mistake::HeadStoreEndsHandler => None,
        _ => Some(Handler { work: Work::Replacing, made: count, ..handler }),
    };
    match mistake {
        Mistake::HeadStoreNotCounted => totals.stores = stores,
        Mistake::HeadStoreNotTold => return StepAnswer { stored: None, ..step },
        Mistake::HeadStoreAnswersWorked => return StepAnswer { answer: Answer::Worked, ..step },
        Mistake::HeadStoreAnswersAccepted => return StepAnswer { answer: Answer::Accepted(None), ..step },
        _ => {}
    }
    step
}

/// What the accepting answer names as dropped. The record still stands in the slot after tail.
fn named(mistake: Mistake, store: &[u16], handler: &Handler) -> Option<Record> {
    let (event, datum) = record(store, after(store, store[TAIL]));
    match mistake {
        Mistake::DropLeftOutOfAnswer => None,
        Mistake::DroppedSwapped => Some((datum, event)),
        Mistake::NewRecordInAnswer => Some(handler.record()),
        Mistake::OldestLeftInAnswer => Some(record(store, store[HEAD])),
        _ => Some((event, datum)),
    }
}

fn replace_next(
    mistake: Mistake,
    store: &mut [u16],
    device: &mut Device,
    totals: &mut Totals,
    handler: Handler,
) -> StepAnswer {
    let tail = store[TAIL];
    let slot = match mistake {
        Mistake::NewRecordOverHead => store[HEAD],
        Mistake::NewRecordInDroppedSlot => after(store, tail),
        _ => tail,
    };
    let next = Some(Handler { made: handler.made.wrapping_add(1), ..handler });
    match handler.made {
        made @ 0..=1 => {
            device.handler = next;
            let word = (event_word(store, slot) + made as usize, handler.words[made as usize]);
            make(store, totals, word, Answer::Stored)
        }
        3 if mistake == Mistake::HeadAfterTail => {
            device.handler = None;
            let head = after(store, store[HEAD]);
            make(store, totals, (HEAD, head), Answer::Stored)
        }
        _ => {
            let answer = Answer::Accepted(named(mistake, store, &handler));
            device.handler = next.filter(|_| mistake == Mistake::HeadAfterTail);
            if mistake != Mistake::AcceptedNotRaisedForReplaced {
                totals.accepted = totals.accepted.saturating_add(1);
            }
            let moved = if mistake == Mistake::NewRecordOverHead { tail } else { after(store, tail) };
            make(store, totals, (TAIL, moved), answer)
        }
    }
}

/// A step of any other handler: the answer names the slot after tail, too.
fn storing_step(program: &[u16], store: &mut [u16], device: &mut Device, totals: &mut Totals) -> StepAnswer {
    let tail = store[TAIL];
    let step = Reference.step(program, store, device, totals);
    match step.answer {
        Answer::Accepted(None) => StepAnswer { answer: Answer::Accepted(Some(record(store, after(store, tail)))), ..step },
        _ => step,
    }
}

/// A step by the mistake; none where the reference's stands.
pub fn step(
    mistake: Mistake,
    program: &[u16],
    store: &mut [u16],
    device: &mut Device,
    totals: &mut Totals,
) -> Option<StepAnswer> {
    let handler = device.handler.filter(|_| device.on)?;
    if met_first(program, store, device).is_some() {
        return None;
    }
    if !handler.drops() {
        return (mistake == Mistake::DropNamedByEveryAnswer).then(|| storing_step(program, store, device, totals));
    }
    let refuse = |answer: Answer| Some(StepAnswer { answer, stored: None });
    let bad = bad_record(mistake, program, store).filter(|_| handler.work == Work::Dropping);
    if let (Mistake::DroppedRecordBeforeState, Some(word)) = (mistake, bad) {
        return refuse(refused(7, word));
    }
    if unlike(mistake, program, store, &handler) {
        return refuse(refused(25, 0));
    }
    if let Some(word) = bad {
        return refuse(refused(7, word));
    }
    let slot = after(store, store[TAIL]);
    if mistake == Mistake::DroppedRecordCheckedWhenNamed && handler.made == 2 && record(store, slot).0 >= program[2] {
        return refuse(refused(7, event_word(store, slot)));
    }
    Some(match handler.work {
        Work::Dropping => drop_next(mistake, store, device, totals, handler),
        _ => replace_next(mistake, store, device, totals, handler),
    })
}

// ---------------------------------------------------------------------------------------------------------
// The serial run

/// When the serial run drops a record, and which: by N7, or by a mistake about it.
#[derive(Clone, Copy, PartialEq, Eq, Debug)]
pub enum Rule {
    Right,
    /// It drops at the post, or at the accepting answer.
    AtThePost,
    AtTheAccepting,
    /// It drops the newest record.
    Newest,
    /// Any post marks, or one that finds a record less.
    AnyPost,
    OneLess,
    /// A refused call clears the mark.
    ClearedByRefusedCall,
    /// A cut and a boot leave it, or every call but a post does.
    LeftByCut,
    LeftUntilPost,
    /// A drop is counted at the accepting answer alone, or never.
    CountedWhenAccepted,
    NeverCounted,
}

pub const WRONG_RULES: [Rule; 10] = [
    Rule::AtThePost,
    Rule::AtTheAccepting,
    Rule::Newest,
    Rule::AnyPost,
    Rule::OneLess,
    Rule::ClearedByRefusedCall,
    Rule::LeftByCut,
    Rule::LeftUntilPost,
    Rule::CountedWhenAccepted,
    Rule::NeverCounted,
];

fn names_a_record(answer: &Answer) -> bool {
    matches!(answer, Answer::Accepted(Some(_)))
}

impl Rule {
    /// Whether a post that finds so many records marks.
    pub fn full(self, records: usize, queue_records: usize) -> bool {
        match self {
            Rule::AnyPost => records > 0,
            Rule::OneLess => records + 1 >= queue_records && records > 0,
            _ => records == queue_records,
        }
    }

    /// Whether a record is dropped at an answer, by the mark and by what a post finds.
    pub fn drops(self, found_full: bool, finds_full: bool, answer: &Answer) -> bool {
        match self {
            Rule::AtThePost => finds_full,
            Rule::AtTheAccepting => names_a_record(answer),
            _ => found_full && *answer == Answer::Stored,
        }
    }

    pub fn newest(self) -> bool {
        self == Rule::Newest
    }

    /// Whether it is counted.
    pub fn counts(self, found_full: bool, finds_full: bool, answer: &Answer) -> bool {
        match self {
            Rule::CountedWhenAccepted => names_a_record(answer),
            Rule::NeverCounted => false,
            _ => self.drops(found_full, finds_full, answer),
        }
    }

    pub fn reads_refused_calls(self) -> bool {
        self == Rule::ClearedByRefusedCall
    }

    /// The mark after a call.
    pub fn mark(self, found_full: bool, finds_full: bool, call: &Call, answer: &Answer) -> bool {
        let post = *answer == Answer::Done && !matches!(call, Call::Boot | Call::Cut);
        match self {
            Rule::LeftByCut if matches!(call, Call::Boot | Call::Cut) => found_full,
            Rule::LeftUntilPost if !post => found_full,
            _ => finds_full,
        }
    }
}
