//! What bursts and the steps of a handler come to by each mistake about them: the rules of N6, each with something that a
//! mistake may change. All other mistakes leave the rules as they are.

use super::{room, slots};
use crate::drops::drops;
use crate::mutants::Mistake;
use crate::reference::*;
use crate::runtime::*;

fn refused(number: u16, place: usize) -> Answer {
    Answer::Refused(Refusal { number, place: (place as u16, 0) })
}

/// The number of a burst's events, and its words.
type Posted<'a> = (u16, &'a BurstWords);

// ---------------------------------------------------------------------------------------------------------
// 25, and what comes before it

/// What a burst meets before 33 with the handler at rest: 1, 2, 3, 6, 7, 25, 22. A burst of none tells.
pub fn met_first(program: &[u16], store: &mut [u16], device: &Device) -> Option<Refusal> {
    let mut resting = Device { handler: if device.on { None } else { device.handler }, ..*device };
    match Reference.burst(program, store, &mut resting, 0, &[0; BURST_WORDS]) {
        Answer::Refused(refusal) if refusal.number != 33 => Some(refusal),
        _ => None,
    }
}

/// The room, by a mistake's words.
fn room_by(mistake: Mistake, store: &[u16]) -> usize {
    match mistake {
        Mistake::OneMoreThanRoomPasses => room(store) + 1,
        Mistake::RoomByWaitingRecords if store[PHASE] == 2 => {
            store[3] as usize - slots(store, store[PENDING], store[TAIL])
        }
        Mistake::RoomOfOneIsEnough | Mistake::FullQueueAlone if room(store) > 0 => MAX_BURST,
        _ => room(store),
    }
}

/// Which events of a handler's burst are looked at.
fn events_in_state(mistake: Mistake, handler: &Handler) -> std::ops::Range<usize> {
    let (length, made) = (handler.used() / 2, handler.made as usize);
    match mistake {
        // Those whose own store isn't made.
        Mistake::StoredEventsUnseen => made.div_ceil(2).min(length)..length,
        Mistake::FirstEventAloneInState => 0..length.min(1),
        Mistake::NextEventAloneInState => (made / 2).min(length)..(made / 2 + 1).min(length),
        _ => 0..length,
    }
}

/// Whether 25 meets a handler at work, all else being right.
fn unlike(mistake: Mistake, program: &[u16], store: &[u16], handler: &Handler) -> bool {
    let (length, made) = (handler.length as usize, handler.made as usize);
    let bad_length = match mistake {
        Mistake::LengthZeroUnseen => length > MAX_BURST,
        Mistake::LengthAboveFourUnseen => length == 0,
        _ => length == 0 || length > MAX_BURST,
    };
    let last = match mistake {
        Mistake::PastTailStoreUnseen => usize::MAX,
        Mistake::PastTailStoreByOneUnseen => 2 * length + 1,
        Mistake::TailAfterEachRecord => 3 * length,
        Mistake::LastStoreUnlike if length > 1 => 2 * length - 1,
        _ => 2 * length,
    };
    let wanted = match mistake {
        Mistake::RoomUnseenOnceStoring if made > 0 => 0,
        Mistake::RoomForTheRest => length.saturating_sub(made / 2),
        Mistake::TailAfterEachRecord => length.saturating_sub(made / 3),
        _ => length,
    };
    let bad_event = |position: usize| handler.words[2 * position] >= program[2];
    bad_length || made > last || wanted > room_by(mistake, store) || events_in_state(mistake, handler).any(bad_event)
}

/// What a call meets of 1, 2, 3, 6, 7, 25 and 22.
fn look(mistake: Mistake, program: &[u16], store: &mut [u16], device: &Device) -> Option<Refusal> {
    let first = met_first(program, store, device);
    match device.handler {
        Some(handler) if first.is_none() && unlike(mistake, program, store, &handler) => {
            Some(Refusal { number: 25, place: (0, 0) })
        }
        _ => first,
    }
}

// ---------------------------------------------------------------------------------------------------------
// Bursts

/// What a burst may meet.
#[derive(Clone, Copy, PartialEq, Eq, Debug)]
enum Check {
    Look,
    Length,
    Events,
    Busy,
    Full,
}

/// In the right order.
const CHECKS: [Check; 5] = [Check::Look, Check::Length, Check::Events, Check::Busy, Check::Full];

/// A check that comes before another by the mistake.
fn swapped(mistake: Mistake) -> Option<(Check, Check)> {
    match mistake {
        Mistake::EventsBeforeLength => Some((Check::Events, Check::Length)),
        Mistake::LengthBeforeProgram => Some((Check::Length, Check::Look)),
        Mistake::BusyBeforeLength => Some((Check::Busy, Check::Length)),
        Mistake::BusyBeforeEvents => Some((Check::Busy, Check::Events)),
        Mistake::FullBeforeLength => Some((Check::Full, Check::Length)),
        Mistake::FullBeforeEvents => Some((Check::Full, Check::Events)),
        Mistake::FullBeforeBusy => Some((Check::Full, Check::Busy)),
        _ => None,
    }
}

/// 33, with its place.
fn bad_length(mistake: Mistake, store: &[u16], count: u16) -> Option<Answer> {
    let length = count as usize;
    let passes = match mistake {
        Mistake::LengthZeroPasses => length <= MAX_BURST,
        Mistake::LengthFiveAsFour => (1..=MAX_BURST + 1).contains(&length),
        Mistake::LengthOfEightBits => (1..=MAX_BURST).contains(&(length % 256)),
        Mistake::LongerThanQueueRefusedAsLength => (1..=MAX_BURST.min(store[3] as usize)).contains(&length),
        _ => (1..=MAX_BURST).contains(&length),
    };
    let place = if mistake == Mistake::LengthWithPlace { length } else { 0 };
    (!passes).then(|| refused(33, place))
}

/// 8, with its place.
fn bad_event(mistake: Mistake, program: &[u16], (count, words): Posted) -> Option<Answer> {
    let length = (count as usize).min(MAX_BURST);
    let looked = match mistake {
        Mistake::FirstEventAlone => 0..length.min(1),
        Mistake::LastEventUnseen if length > 1 => 0..length - 1,
        Mistake::EventsBehindSeen => 0..MAX_BURST,
        _ => 0..length,
    };
    let event = |position: usize| match mistake {
        Mistake::DataSeenAsEvents => words[position],
        _ => words[2 * position],
    };
    let mut bad = looked.filter(|position| event(*position) >= program[2]);
    let first = match mistake {
        Mistake::LastBadEvent => bad.next_back(),
        _ => bad.next(),
    };
    first.map(|position| match mistake {
        Mistake::EventPlaceZero => refused(8, 0),
        Mistake::EventPlaceFromOne => refused(8, position + 1),
        Mistake::EventPlaceAsWord => refused(8, 2 * position),
        _ => refused(8, position),
    })
}

/// 21.
fn no_room(mistake: Mistake, store: &[u16], count: u16) -> Option<Answer> {
    let length = count as usize;
    let fits = match mistake {
        Mistake::BurstOfAllRoomRefused => length < room(store) || (length == 1 && room(store) == 1),
        // By 25 alone.
        Mistake::FullQueueAlone => length <= room(store),
        _ => length <= room_by(mistake, store),
    };
    // A single post to a full queue drops.
    let fits = fits || (length == 1 && drops(store));
    (!fits).then(|| refused(21, 0))
}

/// What the look refuses, unless the mistake passes over it or has 33 before it.
fn looked(mistake: Mistake, refusal: Option<Refusal>, length: Option<Answer>) -> Option<Answer> {
    let refusal = refusal?;
    let before = match mistake {
        Mistake::LengthBeforePower => refusal.number == 22,
        Mistake::LengthBeforeState => matches!(refusal.number, 22 | 25),
        Mistake::LengthBeforeStore => matches!(refusal.number, 6 | 7 | 22 | 25),
        _ => false,
    };
    match length {
        Some(length) if before => Some(length),
        _ => Some(Answer::Refused(refusal)),
    }
}

/// A burst by the mistake, a post among them; none where the reference's stands.
pub fn burst(
    mistake: Mistake,
    program: &[u16],
    store: &mut [u16],
    device: &mut Device,
    posted: Posted,
) -> Option<Answer> {
    if device.on && device.handler.is_some_and(|handler| handler.drops()) {
        return None;
    }
    let refusal = match mistake {
        Mistake::HandlerUnseenAtBurst if device.on => met_first(program, store, device),
        _ => look(mistake, program, store, device),
    };
    // What the other checks read must be there.
    if refusal.is_some_and(|refusal| refusal.number < 7) || store.len() < MEMORY {
        let of_store = refusal.is_some_and(|refusal| refusal.number == 6);
        let before = mistake == Mistake::LengthBeforeProgram || (mistake == Mistake::LengthBeforeStore && of_store);
        return bad_length(mistake, &[0; 4], posted.0).filter(|_| before);
    }
    let length = bad_length(mistake, store, posted.0);
    let met = |check: Check| match check {
        Check::Look => looked(mistake, refusal, length),
        Check::Length => length,
        Check::Events => bad_event(mistake, program, posted),
        Check::Busy => device.handler.map(|_| refused(20, 0)),
        Check::Full => no_room(mistake, store, posted.0),
    };
    if let Some(first) = CHECKS.into_iter().find(|check| met(*check).is_some()) {
        let other = swapped(mistake).filter(|(_, after)| *after == first).and_then(|(before, _)| met(before));
        return other.or(met(first));
    }
    Some(begun(mistake, store, device, posted))
}

/// The handler is set to work.
fn begun(mistake: Mistake, store: &[u16], device: &mut Device, (count, words): Posted) -> Answer {
    let handler = match count == 1 && drops(store) {
        true => Handler::dropping((words[0], words[1])),
        false => Handler::new(count, words),
    };
    device.handler = match mistake {
        Mistake::LengthZeroPasses if count == 0 => None,
        Mistake::LengthFiveAsFour => Some(Handler { length: count.min(4), ..handler }),
        Mistake::LengthOfEightBits => Some(Handler::new(count % 256, words)),
        Mistake::WordsBehindKept => Some(Handler { words: *words, ..handler }),
        _ => Some(handler),
    };
    Answer::Done
}

// ---------------------------------------------------------------------------------------------------------
// Stores

/// The slot so many after this one, by a mistake's ring.
fn past(mistake: Mistake, store: &[u16], slot: usize, many: usize) -> usize {
    let records = store[3] as usize;
    match mistake {
        Mistake::EverySlotAtTail => slot,
        Mistake::NoWrapInBurst => (slot + many).min(records),
        Mistake::RingOfQueueRecords if many > 0 => (slot + many) % records,
        _ => (slot + many) % (records + 1),
    }
}

/// Which of a burst's words is stored in which place of which record, as one of the stores before the tail's.
fn stored_word(mistake: Mistake, handler: &Handler) -> (usize, usize, u16) {
    let (made, length) = (handler.made as usize, handler.used() / 2);
    let (record, part) = match mistake {
        Mistake::EventsBeforeData if length > 0 => (made % length, made / length),
        Mistake::DatumBeforeEvent => (made / 2, 1 - made % 2),
        _ => (made / 2, made % 2),
    };
    let from = match mistake {
        Mistake::BurstReversed => 2 * (length - 1 - record.min(length - 1)) + part,
        Mistake::DatumStoredAsEvent if record == 1 => 2 * record + 1,
        _ => 2 * record + part,
    };
    (record, part, handler.words.get(from).copied().unwrap_or(0))
}

/// How far a burst's tail store moves, and how many the accepted total rises by.
fn accepted(mistake: Mistake, store: &[u16], length: u16) -> (u16, u16) {
    let (tail, slots) = (store[TAIL], store[3] + 1);
    let sum = tail as u32 + length as u32;
    let moved = match mistake {
        Mistake::TailByOne => (tail + 1) % slots,
        Mistake::TailWrapsAtTheEndOnly if sum != slots as u32 => sum as u16,
        Mistake::RingOfQueueRecords if length > 1 => (sum % store[3] as u32) as u16,
        _ => (sum % slots as u32) as u16,
    };
    let counted = match mistake {
        Mistake::AcceptedCountedOnce | Mistake::AcceptedCountedOnceInRun => 1,
        _ => length,
    };
    (moved, counted)
}

/// The accepted total afterwards.
fn risen(mistake: Mistake, total: u32, counted: u32) -> u32 {
    match mistake {
        Mistake::AcceptedWraps if counted > 1 => total.wrapping_add(counted),
        Mistake::AcceptedNotRaisedPastLargest => total.checked_add(counted).unwrap_or(total),
        _ => total.saturating_add(counted),
    }
}

fn make(store: &mut [u16], totals: &mut Totals, (index, word): (usize, u16), answer: Answer) -> StepAnswer {
    store[index] = word;
    totals.stores = totals.stores.saturating_add(1);
    StepAnswer { answer, stored: Some(index as u16) }
}

/// How many stores come before the tail's.
fn stores_before_tail(mistake: Mistake, length: u16) -> usize {
    match mistake {
        Mistake::LastRecordNotStored if length > 1 => 2 * (length as usize - 1),
        _ => 2 * length as usize,
    }
}

/// A handler's next store.
fn store_next(
    mistake: Mistake,
    store: &mut [u16],
    device: &mut Device,
    totals: &mut Totals,
    handler: Handler,
) -> StepAnswer {
    let before_tail = stores_before_tail(mistake, handler.length);
    if (handler.made as usize) < before_tail {
        let (record, part, word) = stored_word(mistake, &handler);
        let slot = past(mistake, store, store[TAIL] as usize, record);
        let index = (store[7] as usize + 2 * slot + part).min(store.len() - 1);
        device.handler = Some(Handler { made: handler.made + 1, ..handler });
        let last = handler.made as usize + 1 == before_tail;
        let answer = match mistake {
            Mistake::LastDatumAnswersAccepted if last && handler.length > 1 => Answer::Accepted(None),
            _ => Answer::Stored,
        };
        return make(store, totals, (index, word), answer);
    }
    let (tail, counted) = accepted(mistake, store, handler.length);
    totals.accepted = risen(mistake, totals.accepted, counted as u32);
    device.handler = None;
    make(store, totals, (TAIL, tail), Answer::Accepted(None))
}

/// A tail store after each record.
fn store_record(store: &mut [u16], device: &mut Device, totals: &mut Totals, handler: Handler) -> StepAnswer {
    let (record, part) = (handler.made as usize / 3, handler.made as usize % 3);
    let last = handler.made + 1 == 3 * handler.length;
    device.handler = (!last).then_some(Handler { made: handler.made + 1, ..handler });
    let tail = store[TAIL] as usize;
    if part < 2 {
        let word = handler.words[2 * record + part];
        return make(store, totals, (store[7] as usize + 2 * tail + part, word), Answer::Stored);
    }
    totals.accepted = totals.accepted.saturating_add(1);
    let moved = past(Mistake::TailAfterEachRecord, store, tail, 1) as u16;
    make(store, totals, (TAIL, moved), Answer::Accepted(None))
}

/// The tail store before the last event's data.
pub fn tail_before_last_datum(
    store: &mut [u16],
    device: &mut Device,
    totals: &mut Totals,
    handler: Handler,
) -> Option<StepAnswer> {
    let (length, made) = (handler.length, handler.made);
    if handler.drops() || length == 0 || length > MAX_BURST as u16 || made + 1 < 2 * length || made > 2 * length {
        return None;
    }
    if made < 2 * length {
        let (tail, counted) = accepted(Mistake::TailBeforeDatum, store, length);
        device.handler = Some(Handler { made: made + 1, ..handler });
        totals.accepted = totals.accepted.saturating_add(counted as u32);
        return Some(make(store, totals, (TAIL, tail), Answer::Accepted(None)));
    }
    let slot = if store[TAIL] == 0 { store[3] } else { store[TAIL] - 1 };
    let index = store[7] as usize + 2 * slot as usize + 1;
    device.handler = None;
    Some(make(store, totals, (index, handler.words[2 * length as usize - 1]), Answer::Stored))
}

/// A step by the mistake; none where the reference's stands.
pub fn step(
    mistake: Mistake,
    program: &[u16],
    store: &mut [u16],
    device: &mut Device,
    totals: &mut Totals,
) -> Option<StepAnswer> {
    let handler = device.handler.filter(|handler| device.on && !handler.drops())?;
    if met_first(program, store, device).is_some() {
        return None;
    }
    if mistake == Mistake::TailBeforeLastDatum {
        return if handler.length > 1 { tail_before_last_datum(store, device, totals, handler) } else { None };
    }
    if mistake != Mistake::HandlerUnseenAtBurst && unlike(mistake, program, store, &handler) {
        return Some(StepAnswer { answer: refused(25, 0), stored: None });
    }
    match mistake {
        Mistake::HandlerUnseenAtBurst => None,
        Mistake::TailAfterEachRecord => Some(store_record(store, device, totals, handler)),
        _ => Some(store_next(mistake, store, device, totals, handler)),
    }
}

// ---------------------------------------------------------------------------------------------------------
// Cuts and boots

/// A cut by the mistake: what is stored of a burst is kept in mind.
pub fn cut(mistake: Mistake, device: &mut Device) -> Answer {
    let kept = device.handler.filter(|_| device.on && mistake == Mistake::CutKeepsStoredRecords);
    let answer = Reference.cut(device);
    device.handler = kept;
    answer
}

/// A boot that moves tail past the records that a cut burst had stored.
pub fn boot(program: &[u16], store: &mut [u16], device: &mut Device) -> Answer {
    let kept = device.handler.filter(|_| !device.on);
    let answer = Reference.boot(program, store, device);
    if let (Answer::Done, Some(handler)) = (answer, kept) {
        let records = (handler.made / 2).min(room(store) as u16);
        store[TAIL] = ((store[TAIL] as u32 + records as u32) % (store[3] as u32 + 1)) as u16;
    }
    answer
}
