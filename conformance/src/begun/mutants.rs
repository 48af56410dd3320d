//! What calls come to by each mistake about word 16.

use crate::mutants::Mistake;
use crate::reference::*;
use crate::runtime::*;

/// What a step works on.
pub struct Node<'a> {
    pub program: &'a [u16],
    pub store: &'a mut [u16],
    pub device: &'a mut Device,
    pub totals: &'a mut Totals,
}

fn refused(number: u16, place: usize) -> Answer {
    Answer::Refused(Refusal { number, place: (place as u16, 0) })
}

/// 25, or 22 of the device that is off.
fn unlike_or_off(device: &Device) -> Answer {
    refused(if *device == Device::OFF { 22 } else { 25 }, 0)
}

/// Whether 7 names word 16.
fn names_begun(answer: &Answer) -> bool {
    *answer == refused(7, BEGUN)
}

/// Whether an answer comes before a 7 that would name word 16, or is one that names a lower word.
fn comes_before(answer: &Answer) -> bool {
    match answer {
        Answer::Refused(Refusal { number: 7, place }) => (place.0 as usize) < BEGUN,
        Answer::Refused(Refusal { number, .. }) => *number < 7,
        _ => false,
    }
}

/// Whether there is a 2 that the queue or word 10 wouldn't allow in phase 0.
fn not_allowed(store: &[u16]) -> bool {
    store[BEGUN] == EVENT_BEGUN && (store[HEAD] == store[TAIL] || store[OPEN] != 0)
}

fn is_commit(store: &[u16]) -> bool {
    matches!(store[PHASE], 1 | 2)
}

/// Whether the device runs something else than word 16 says.
fn differs(store: &[u16], device: &Device) -> bool {
    device.on && store[PHASE] == 0 && running_word(device) != store[BEGUN]
}

/// The place of a commit at which it stores 0 in word 16; the last store is the next.
fn begun_place(store: &[u16]) -> u16 {
    store[COUNT].saturating_add(if store[PHASE] == 1 { 2 } else { 1 })
}

// ---------------------------------------------------------------------------------------------------------
// Steps

impl Node<'_> {
    fn right(&mut self) -> StepAnswer {
        Reference.step(self.program, self.store, self.device, self.totals)
    }

    /// The reference's step with this in word 16, which is as before afterwards, unless the step stores it.
    fn with_begun(&mut self, begun: u16) -> StepAnswer {
        let old = std::mem::replace(&mut self.store[BEGUN], begun);
        let step = self.right();
        if step.stored != Some(BEGUN as u16) {
            self.store[BEGUN] = old;
        }
        step
    }

    /// The reference's step with word 16 as if it said what runs.
    fn with_what_runs(&mut self) -> StepAnswer {
        let begun = if self.store[PHASE] == 0 { running_word(self.device) } else { NOTHING_BEGUN };
        let step = self.with_begun(begun);
        match names_begun(&step.answer) {
            true => StepAnswer { answer: unlike_or_off(self.device), stored: None },
            false => step,
        }
    }

    /// What the reference would answer.
    fn answer(&self) -> Answer {
        let (mut store, mut device, mut totals) = (self.store.to_vec(), *self.device, *self.totals);
        Reference.step(self.program, &mut store, &mut device, &mut totals).answer
    }

    /// A commit's place, where its next store would be made.
    fn commit(&self) -> Option<u16> {
        let Place::NoBody { commit } = self.device.place else { return None };
        let goes_on = is_commit(self.store) && self.device.handler.is_none() && self.answer() == Answer::Stored;
        goes_on.then_some(commit)
    }

    /// The commit's store of another place in this one's.
    fn commit_as(&mut self, commit: u16, other: u16) -> Option<StepAnswer> {
        let old = *self.device;
        self.device.place = Place::NoBody { commit: other };
        let step = self.right();
        match (step.answer, *self.device == Device::ON) {
            (Answer::Stored, false) => self.device.place = Place::NoBody { commit: commit + 1 },
            (Answer::Stored, true) => {}
            _ => *self.device = old,
        }
        Some(step)
    }

    /// 8 becomes 0, and only then 16.
    fn cleared_after_phase(&mut self) -> Option<StepAnswer> {
        let store = |node: &mut Node, index: usize| {
            node.store[index] = 0;
            node.totals.stores = node.totals.stores.saturating_add(1);
            Some(StepAnswer { answer: Answer::Stored, stored: Some(index as u16) })
        };
        if let Some(commit) = self.commit() {
            if commit != begun_place(self.store) {
                return None;
            }
            self.device.place = Place::NoBody { commit: commit + 1 };
            return store(self, PHASE);
        }
        let Place::NoBody { commit: 1.. } = self.device.place else { return None };
        if self.store[PHASE] != 0 || self.store[BEGUN] == NOTHING_BEGUN || self.device.handler.is_some() {
            return None;
        }
        *self.device = Device::ON;
        store(self, BEGUN)
    }

    /// A mistake about the order and the number of a commit's stores.
    fn commit_step(&mut self, mistake: Mistake) -> Option<StepAnswer> {
        if mistake == Mistake::BegunClearedAfterPhase {
            return self.cleared_after_phase();
        }
        let commit = self.commit()?;
        let place = begun_place(self.store);
        match mistake {
            Mistake::BegunClearedBeforeCopies if commit == 0 => self.commit_as(commit, place),
            Mistake::BegunClearedBeforeCopies if commit <= place => self.commit_as(commit, commit - 1),
            Mistake::BegunNotCleared if commit == place => self.commit_as(commit, place + 1),
            Mistake::ZeroOnlyOverOther if commit == place && self.store[BEGUN] == NOTHING_BEGUN => {
                self.commit_as(commit, place + 1)
            }
            Mistake::BegunClearedInName if commit == place => {
                let old = self.store[BEGUN];
                let step = self.right();
                self.store[BEGUN] = old;
                Some(step)
            }
            _ => None,
        }
    }

    /// A mistake about choosing, and the steps of what was chosen so.
    fn choosing_step(&mut self, mistake: Mistake) -> Option<StepAnswer> {
        let stores = self.totals.stores;
        if mistake == Mistake::ChoosingStoresNothing && differs(self.store, self.device) {
            return Some(self.with_what_runs());
        }
        let step = self.right();
        let Answer::Chosen(body) = step.answer else { return Some(step) };
        match mistake {
            Mistake::ChoosingStoresNothing => {
                self.store[BEGUN] = NOTHING_BEGUN;
                self.totals.stores = stores;
                return Some(StepAnswer { stored: None, ..step });
            }
            Mistake::ChoosingAnswersStored => return Some(StepAnswer { answer: Answer::Stored, ..step }),
            Mistake::ChoosingNotCounted => self.totals.stores = stores,
            Mistake::ChoosingNotTold => return Some(StepAnswer { stored: None, ..step }),
            Mistake::TaskBegunForEvent if matches!(body, Body::Event(_)) => self.store[BEGUN] = TASK_BEGUN,
            _ => {}
        }
        Some(step)
    }

    /// After a boot that has left nothing running: choosing anew, or what is begun again.
    fn chosen_after_boot(&mut self, mistake: Mistake) -> Option<StepAnswer> {
        let idle = *self.device == Device::ON && differs(self.store, self.device);
        if !idle || self.answer() != refused(25, 0) {
            return None;
        }
        let tail = self.store[TAIL];
        let step = match (mistake, self.store[BEGUN]) {
            (Mistake::BegunChosenAgain, TASK_BEGUN) => {
                self.store[TAIL] = self.store[HEAD];
                self.with_begun(NOTHING_BEGUN)
            }
            _ => self.with_begun(NOTHING_BEGUN),
        };
        self.store[TAIL] = tail;
        Some(step)
    }

    /// A mistake about 7 and 25.
    fn looking_step(&mut self, mistake: Mistake) -> Option<StepAnswer> {
        let refuse = |answer: Answer| Some(StepAnswer { answer, stored: None });
        let answer = self.answer();
        match mistake {
            Mistake::BegunUnseenInUnlikeAtStep if answer == refused(25, 0) && differs(self.store, self.device) => {
                Some(self.with_what_runs())
            }
            Mistake::HandlerNotHeldAgainstBegun
                if self.device.handler.is_some() && differs(self.store, self.device) =>
            {
                Some(self.with_what_runs())
            }
            Mistake::BegunUnseenInSevenAtStep | Mistake::BegunAboveTwoAllowed
                if names_begun(&answer) && is_commit(self.store) =>
            {
                Some(self.with_begun(NOTHING_BEGUN))
            }
            _ => refuse(other_refusal(mistake, self.store, self.device, &answer, Mistake::BegunUnseenInSevenAtStep)?),
        }
    }
}

/// The refusal that a step or a post meets by a mistake about 7 and 25, where the reference answers this; one of the
/// mistakes is about this call alone.
fn other_refusal(
    mistake: Mistake,
    store: &[u16],
    device: &Device,
    answer: &Answer,
    unseen_here: Mistake,
) -> Option<Answer> {
    let looked = comes_before(answer) || matches!(answer, Answer::Refused(Refusal { number: 7 | 25, .. }));
    let commits = is_commit(store) && device.on && !looked;
    match mistake {
        _ if mistake == unseen_here && names_begun(answer) => Some(unlike_or_off(device)),
        Mistake::BegunAboveTwoAllowed if names_begun(answer) && store[BEGUN] > EVENT_BEGUN => {
            Some(unlike_or_off(device))
        }
        Mistake::EventBegunWithoutOpenRule if names_begun(answer) && store[BEGUN] == EVENT_BEGUN => {
            (store[HEAD] != store[TAIL]).then(|| unlike_or_off(device))
        }
        Mistake::EventBegunWithoutQueueRule if names_begun(answer) && store[BEGUN] == EVENT_BEGUN => {
            (store[OPEN] == 0).then(|| unlike_or_off(device))
        }
        Mistake::OffHeldAgainstBegun if *answer == refused(22, 0) && store[PHASE] == 0 && store[BEGUN] != 0 => {
            Some(refused(25, 0))
        }
        Mistake::CommitHeldAgainstBegun if commits && store[BEGUN] != 0 => Some(refused(25, 0)),
        Mistake::BegunHeldAgainstPhase if commits && store[BEGUN] != 0 && store[BEGUN] != store[PHASE] => {
            Some(refused(25, 0))
        }
        Mistake::EventBegunRuleInCommits if is_commit(store) && not_allowed(store) && !comes_before(answer) => {
            Some(refused(7, BEGUN))
        }
        _ => None,
    }
}

/// A step by the mistake; none where the reference's stands.
pub fn step(mistake: Mistake, mut node: Node) -> Option<StepAnswer> {
    if node.store.len() < MEMORY {
        return None;
    }
    match mistake {
        Mistake::BegunClearedAfterPhase
        | Mistake::BegunClearedBeforeCopies
        | Mistake::BegunNotCleared
        | Mistake::BegunClearedInName
        | Mistake::ZeroOnlyOverOther => node.commit_step(mistake),
        Mistake::ChoosingStoresNothing
        | Mistake::ChoosingAnswersStored
        | Mistake::ChoosingNotCounted
        | Mistake::ChoosingNotTold
        | Mistake::TaskBegunForEvent => node.choosing_step(mistake),
        Mistake::BootChoosesAnew | Mistake::BegunChosenAgain => node.chosen_after_boot(mistake),
        _ => node.looking_step(mistake),
    }
}

/// In a run, a step after a commit's last store: without a look at what that has left.
pub fn unlooked_step(mut node: Node) -> Option<StepAnswer> {
    let left = *node.device == Device::ON && node.store[PHASE] == 0 && node.store[BEGUN] != NOTHING_BEGUN;
    left.then(|| node.with_begun(NOTHING_BEGUN))
}

// ---------------------------------------------------------------------------------------------------------
// Boots

/// The device with a body at its first instruction.
fn running(body: Body, datum: u16) -> Device {
    let mut device = Device { place: Place::Running { body, instruction: 0, ending: 0 }, ..Device::ON };
    device.registers[0] = datum;
    device
}

/// The event and the data of the record at head.
fn record(store: &[u16]) -> (u16, u16) {
    let slot = store[7] as usize + 2 * store[HEAD] as usize;
    (store[slot], store[slot + 1])
}

/// What a mistaken boot that is done leaves.
fn taken_up(mistake: Mistake, store: &mut [u16], device: Device) -> Device {
    let (event, datum) = record(store);
    let task = running(Body::Task(store[TASK]), 0);
    let event = running(Body::Event(event), datum);
    let begun = if store[PHASE] == 0 { store[BEGUN] } else { NOTHING_BEGUN };
    let by_word = match store[BEGUN] {
        TASK_BEGUN => task,
        EVENT_BEGUN => event,
        _ => device,
    };
    match (mistake, begun) {
        (Mistake::BootChoosesAnew | Mistake::BegunChosenAgain, _) => Device::ON,
        (Mistake::EventTakenUpBeforeTask, TASK_BEGUN) if store[HEAD] != store[TAIL] && store[OPEN] == 0 => event,
        (Mistake::TaskTakenUpForEvent, EVENT_BEGUN) => task,
        (Mistake::TakenUpEventWithoutData, EVENT_BEGUN) => Device { registers: [0; 8], ..device },
        (Mistake::TakenUpTaskWithData, TASK_BEGUN) if store[HEAD] != store[TAIL] => {
            Device { registers: event.registers, ..device }
        }
        (Mistake::TakenUpInTaskCommit, _) if store[PHASE] == 1 => by_word,
        (Mistake::TakenUpInEventCommit, _) if store[PHASE] == 2 => by_word,
        (Mistake::TakingUpClearsBegun, _) => {
            store[BEGUN] = if begun == NOTHING_BEGUN { store[BEGUN] } else { NOTHING_BEGUN };
            device
        }
        _ => device,
    }
}

/// A boot past a rule of word 16 that the mistake leaves out.
fn unseen_boot(mistake: Mistake, program: &[u16], store: &mut [u16], device: &mut Device) -> Option<Answer> {
    let (begun, open, empty) = (store[BEGUN], store[OPEN], store[HEAD] == store[TAIL]);
    let passes = match mistake {
        Mistake::BegunUnseenInSevenAtBoot => true,
        Mistake::BegunAboveTwoAllowed => begun > EVENT_BEGUN,
        Mistake::EventBegunWithoutOpenRule => begun == EVENT_BEGUN && !empty,
        Mistake::EventBegunWithoutQueueRule => begun == EVENT_BEGUN && open == 0,
        _ => false,
    };
    if !passes {
        return None;
    }
    store[BEGUN] = NOTHING_BEGUN;
    let answer = Reference.boot(program, store, device);
    store[BEGUN] = begun;
    if answer == Answer::Done && store[PHASE] == 0 && begun == EVENT_BEGUN {
        let (event, datum) = record(store);
        *device = running(Body::Event(event), datum);
    }
    Some(answer)
}

/// A boot by the mistake.
pub fn boot(mistake: Mistake, program: &[u16], store: &mut [u16], device: &mut Device) -> Answer {
    let answer = Reference.boot(program, store, device);
    if store.len() < MEMORY {
        return answer;
    }
    if mistake == Mistake::EventBegunRuleInCommits && is_commit(store) && not_allowed(store) && !comes_before(&answer) {
        *device = if answer == Answer::Done { Device::OFF } else { *device };
        return refused(7, BEGUN);
    }
    if names_begun(&answer) {
        return unseen_boot(mistake, program, store, device).unwrap_or(answer);
    }
    if answer == Answer::Done {
        *device = taken_up(mistake, store, *device);
    }
    answer
}

// ---------------------------------------------------------------------------------------------------------
// Posts

/// The number of a burst's events, and its words.
type Posted<'a> = (u16, &'a BurstWords);

/// The reference's burst with word 16 as if it said what runs.
fn burst_with_what_runs(program: &[u16], store: &mut [u16], device: &mut Device, posted: Posted) -> Answer {
    let begun = if store[PHASE] == 0 { running_word(device) } else { NOTHING_BEGUN };
    let old = std::mem::replace(&mut store[BEGUN], begun);
    let answer = Reference.burst(program, store, device, posted.0, posted.1);
    store[BEGUN] = old;
    if names_begun(&answer) {
        unlike_or_off(device)
    } else {
        answer
    }
}

/// A burst by the mistake, a post among them; none where the reference's stands.
pub fn burst(
    mistake: Mistake,
    program: &[u16],
    store: &mut [u16],
    device: &mut Device,
    posted: Posted,
) -> Option<Answer> {
    if store.len() < MEMORY {
        return None;
    }
    let answer = Reference.burst(program, store, &mut device.clone(), posted.0, posted.1);
    let other = differs(store, device) && answer == refused(25, 0);
    let unseen = match mistake {
        Mistake::BegunUnseenInUnlikeAtPost | Mistake::ChoosingStoresNothing => other,
        Mistake::BootChoosesAnew | Mistake::BegunChosenAgain => other && *device == Device::ON,
        Mistake::HandlerNotHeldAgainstBegun => other && device.handler.is_some(),
        Mistake::BegunUnseenInSevenAtPost => names_begun(&answer) && is_commit(store),
        Mistake::BegunAboveTwoAllowed => names_begun(&answer) && is_commit(store),
        _ => false,
    };
    if unseen {
        return Some(burst_with_what_runs(program, store, device, posted));
    }
    match mistake {
        Mistake::PostReadsBegunRecord => {
            let Place::Running { body: Body::Event(event), .. } = device.place else { return None };
            (answer == Answer::Done && record(store).0 != event).then(|| refused(25, 0))
        }
        _ => other_refusal(mistake, store, device, &answer, Mistake::BegunUnseenInSevenAtPost),
    }
}

/// The word that the mistake names where 7 names word 16.
pub fn other_word(mistake: Mistake, store: &[u16]) -> u16 {
    let named = match mistake {
        Mistake::EventBegunNamesOtherWord if store[BEGUN] > EVENT_BEGUN => BEGUN,
        Mistake::EventBegunNamesOtherWord if store[OPEN] != 0 => OPEN,
        Mistake::EventBegunNamesOtherWord => HEAD,
        _ => BEGUN,
    };
    named as u16
}
