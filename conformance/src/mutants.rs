//! Implementations that are wrong on purpose: the reference with one mistake each. The tests hold that the
//! driver, or the check of demand 3, notices; so they are known to be able to fail.

use crate::begun;
use crate::bursts;
use crate::drops;
use crate::drops::mutants::By;
use crate::lines;
use crate::reference::*;
use crate::runtime::*;
use crate::scenario::{Call, Outcome};
use crate::shift;

#[derive(Clone, Copy, PartialEq, Eq, Debug)]
pub enum Mistake {
    // The blackboard's.
    HeadPlusOneOnRedo,
    TailBeforeDatum,
    PhaseBeforeTask,
    CountFromLostState,
    EventInOpenTransaction,
    // Early, late, or in name only.
    LogFullEarly,
    QueueFullEarly,
    TaskBeforeEvent,
    RunCountsRefusedStep,
    RunSpentEarly,
    TotalsMissCommitStore,
    TotalsWrap,
    RefusedStepClears,
    // The word told as stored.
    ValueToldAsAddress,
    SameValueNotTold,
    // SHR: how it rounds, what it divides and by what, and which k pass; the last ones are wrong for one word or one k.
    ShiftTowardsZero,
    ShiftToNearest,
    ShiftUnsigned,
    ShiftOneTooFar,
    ShiftZeroHalves,
    ShiftFifteenAsFourteen,
    ShiftModuloSixteen,
    ShiftLowestWordToZero,
    ShiftOneWordWrong,
    ShiftOneWordWrongInRun,
    ShiftOneLargePasses,
    // Other instructions.
    UnsignedLess,
    IndexWraps,
    LoadPassesLog,
    LastPairFound,
    // Checks.
    SecondHalfLooksAgain,
    OpenNumberByStoredTask,
    ChoosingReadsRow,
    GoRowOnce,
    OffBeforeUnlike,
    BootRefusesUnlike,
    // The place of 7: none; the highest word, in one call alone; by another order or other rules; of words that the
    // call doesn't look at there.
    SevenWithoutPlace,
    HighestAtBoot,
    HighestAtStep,
    HighestAtPost,
    HighestInRun,
    ReadingOrder,
    HeadAndTailBeforeTwelve,
    TwelveOneRule,
    TwelveAlwaysWhole,
    LastAddress,
    RecordsBeforeAddresses,
    OldestRecord,
    BootInTwoLooks,
    FirstLookNamesAll,
    UsedWordNamesAll,
    StepLooksAtAll,
    PostLooksAtAll,
    // Word 16: a commit's store of 0.
    BegunClearedAfterPhase,
    BegunClearedBeforeCopies,
    BegunNotCleared,
    BegunClearedInName,
    ZeroOnlyOverOther,
    // Choosing's store.
    ChoosingStoresNothing,
    ChoosingAnswersStored,
    ChoosingNotCounted,
    ChoosingNotTold,
    TaskBegunForEvent,
    // What a boot takes up.
    BootChoosesAnew,
    BegunChosenAgain,
    EventTakenUpBeforeTask,
    TaskTakenUpForEvent,
    TakenUpEventWithoutData,
    TakenUpTaskWithData,
    TakenUpInTaskCommit,
    TakenUpInEventCommit,
    TakingUpClearsBegun,
    // Its rules in 7, and 25's clause: left out, or asked where they don't speak.
    BegunUnseenInSevenAtBoot,
    BegunUnseenInSevenAtStep,
    BegunUnseenInSevenAtPost,
    BegunAboveTwoAllowed,
    EventBegunWithoutOpenRule,
    EventBegunWithoutQueueRule,
    EventBegunRuleInCommits,
    EventBegunNamesOtherWord,
    BegunUnseenInUnlikeAtStep,
    BegunUnseenInUnlikeAtPost,
    HandlerNotHeldAgainstBegun,
    OffHeldAgainstBegun,
    CommitHeldAgainstBegun,
    BegunHeldAgainstPhase,
    PostReadsBegunRecord,
    RunLooksOnce,
    // Line tables. 30, and its place.
    SixtyFifthRowAllowed,
    SixtyFourthRowRefused,
    IncompleteRowIgnored,
    IncompleteSixtyFifthIgnored,
    LineSixteenAllowed,
    LineFifteenRefused,
    LowEqualToHighRefused,
    LowAboveHighAllowed,
    EventPastSixteenRefused,
    EmptyTableRefused,
    LengthCutTo16Bits,
    LinesBeforeLevels,
    LevelsBeforeLines,
    LengthBeforeRows,
    IncompleteBeforeRows,
    RowsBeforeLength,
    LastWrongRow,
    RowPlaceFromOne,
    RowPlaceAsWord,
    // 31 and 32, their order and their place.
    HighLevelExclusive,
    LowLevelExclusive,
    RowWithoutEventCoversNothing,
    BorderOverlapPasses,
    GapAtZeroPasses,
    GapAtTheTopPasses,
    ThreeTimesPasses,
    OverlapPasses,
    GapPasses,
    RowsInRisingOrderExpected,
    GapBehindInnerRow,
    UnnamedLineUncovered,
    OverlapBeforeGap,
    LineByLine,
    HighestLine,
    HighestLevel,
    LowestLevelOfAllLines,
    LevelBeforeLine,
    PlaceWithoutLevel,
    // A raise: what it checks, which row it takes, what it posts.
    TableUnchecked,
    LevelsUncheckedAtRaise,
    RaisedLineCheckedAlone,
    RaiseOfLineSixteenRefused,
    RaiseHighExclusive,
    RaiseLowExclusive,
    AnyLinesRow,
    FirstRowOfTable,
    FirstRowOfLine,
    LineMasked,
    SignedLevels,
    LowLevelAsData,
    HighLevelAsData,
    LineAsData,
    LineAsEvent,
    EventNotBelowERefused,
    EventNotBelowEPostsNothing,
    NoEventPosted,
    LineWithoutRowsUncovered,
    NothingPostedAnsweredDone,
    // A raise that posts nothing, or whose table is refused, looks at other words.
    NothingPostedNeedsDevice,
    NothingPostedLooksAtPower,
    NothingPostedLooksAtHandler,
    NothingPostedLooksAtProgram,
    NothingPostedLooksAtStore,
    DeviceBeforeTable,
    PowerBeforeTable,
    ProgramBeforeTable,
    StoreBeforeTable,
    // Bursts. A handler's stores, what they answer, and the accepted total.
    TailBeforeLastDatum,
    TailByOne,
    TailWrapsAtTheEndOnly,
    TailAfterEachRecord,
    BurstReversed,
    DatumStoredAsEvent,
    DatumBeforeEvent,
    EventsBeforeData,
    EverySlotAtTail,
    NoWrapInBurst,
    RingOfQueueRecords,
    LastRecordNotStored,
    LastDatumAnswersAccepted,
    AcceptedCountedOnce,
    AcceptedCountedOnceInRun,
    AcceptedWraps,
    AcceptedNotRaisedPastLargest,
    CutKeepsStoredRecords,
    // Room.
    OneMoreThanRoomPasses,
    RoomOfOneIsEnough,
    RoomByWaitingRecords,
    BurstOfAllRoomRefused,
    LongerThanQueueRefusedAsLength,
    // 33 and 8, their places and the order.
    LengthZeroPasses,
    LengthFiveAsFour,
    LengthOfEightBits,
    LengthWithPlace,
    EventPlaceZero,
    EventPlaceFromOne,
    EventPlaceAsWord,
    LastBadEvent,
    FirstEventAlone,
    LastEventUnseen,
    DataSeenAsEvents,
    EventsBehindSeen,
    WordsBehindKept,
    EventsBeforeLength,
    LengthBeforePower,
    LengthBeforeState,
    LengthBeforeStore,
    LengthBeforeProgram,
    BusyBeforeLength,
    BusyBeforeEvents,
    FullBeforeLength,
    FullBeforeEvents,
    FullBeforeBusy,
    // 25 of a handler at work.
    HandlerUnseenAtBurst,
    StoredEventsUnseen,
    FirstEventAloneInState,
    NextEventAloneInState,
    LengthZeroUnseen,
    LengthAboveFourUnseen,
    PastTailStoreUnseen,
    PastTailStoreByOneUnseen,
    RoomUnseenOnceStoring,
    RoomForTheRest,
    FullQueueAlone,
    LastStoreUnlike,
    // Records dropped from a full queue. Which posts drop.
    DropWithEventBegun,
    DropInEventCommit,
    DropInEventCommitOnceMoved,
    DropInEventCommitOnceCleared,
    FullAsBefore,
    DropInPhaseZeroOnly,
    DropWithNothingBegunOnly,
    DropOutsideTransactionsOnly,
    BurstOfTwoDrops,
    LongerBurstDropsOne,
    BurstOfOneDropsNothing,
    RaiseDropsNothing,
    DropAsStoring,
    PostStoresHead,
    PostReadsDroppedRecord,
    RefusedPostEndsDrop,
    // The stores.
    HeadAfterTail,
    NewRecordOverHead,
    NewRecordInDroppedSlot,
    NewestDropped,
    TwoDropped,
    AllDropped,
    HeadNotWrapped,
    HeadWrapsBeforeLastSlot,
    HeadStoreNotCounted,
    HeadStoreNotTold,
    HeadStoreAnswersWorked,
    HeadStoreAnswersAccepted,
    HeadStoreEndsHandler,
    // The accepting answer, the accepted total, and runs.
    DropLeftOutOfAnswer,
    DroppedSwapped,
    NewRecordInAnswer,
    OldestLeftInAnswer,
    DropNamedByEveryAnswer,
    AcceptedNotRaisedForReplaced,
    RunEndsAtDrop,
    // 7 and 25 of a handler that drops.
    DroppedRecordUnchecked,
    DroppedRecordNamedByData,
    DroppedRecordBeforeState,
    DroppedRecordCheckedWhenNamed,
    AllRecordsChecked,
    DroppingFullnessUnseen,
    DroppingBegunUnseen,
    DroppingPhaseUnseen,
    DroppingEventUnseen,
    DroppingAskedForRoom,
    ReplacingRoomUnseen,
    ReplacingRoomUnseenOnceStoring,
    ReplacingPastTailUnseen,
    ReplacingEventUnseen,
    ReplacingAskedForRoomOfOne,
}

pub const MISTAKES: [Mistake; 264] = [
    Mistake::HeadPlusOneOnRedo,
    Mistake::TailBeforeDatum,
    Mistake::PhaseBeforeTask,
    Mistake::CountFromLostState,
    Mistake::EventInOpenTransaction,
    Mistake::LogFullEarly,
    Mistake::QueueFullEarly,
    Mistake::TaskBeforeEvent,
    Mistake::RunCountsRefusedStep,
    Mistake::RunSpentEarly,
    Mistake::TotalsMissCommitStore,
    Mistake::TotalsWrap,
    Mistake::RefusedStepClears,
    Mistake::ValueToldAsAddress,
    Mistake::SameValueNotTold,
    Mistake::ShiftTowardsZero,
    Mistake::ShiftToNearest,
    Mistake::ShiftUnsigned,
    Mistake::ShiftOneTooFar,
    Mistake::ShiftZeroHalves,
    Mistake::ShiftFifteenAsFourteen,
    Mistake::ShiftModuloSixteen,
    Mistake::ShiftLowestWordToZero,
    Mistake::ShiftOneWordWrong,
    Mistake::ShiftOneWordWrongInRun,
    Mistake::ShiftOneLargePasses,
    Mistake::UnsignedLess,
    Mistake::IndexWraps,
    Mistake::LoadPassesLog,
    Mistake::LastPairFound,
    Mistake::SecondHalfLooksAgain,
    Mistake::OpenNumberByStoredTask,
    Mistake::ChoosingReadsRow,
    Mistake::GoRowOnce,
    Mistake::OffBeforeUnlike,
    Mistake::BootRefusesUnlike,
    Mistake::SevenWithoutPlace,
    Mistake::HighestAtBoot,
    Mistake::HighestAtStep,
    Mistake::HighestAtPost,
    Mistake::HighestInRun,
    Mistake::ReadingOrder,
    Mistake::HeadAndTailBeforeTwelve,
    Mistake::TwelveOneRule,
    Mistake::TwelveAlwaysWhole,
    Mistake::LastAddress,
    Mistake::RecordsBeforeAddresses,
    Mistake::OldestRecord,
    Mistake::BootInTwoLooks,
    Mistake::FirstLookNamesAll,
    Mistake::UsedWordNamesAll,
    Mistake::StepLooksAtAll,
    Mistake::PostLooksAtAll,
    Mistake::BegunClearedAfterPhase,
    Mistake::BegunClearedBeforeCopies,
    Mistake::BegunNotCleared,
    Mistake::BegunClearedInName,
    Mistake::ZeroOnlyOverOther,
    Mistake::ChoosingStoresNothing,
    Mistake::ChoosingAnswersStored,
    Mistake::ChoosingNotCounted,
    Mistake::ChoosingNotTold,
    Mistake::TaskBegunForEvent,
    Mistake::BootChoosesAnew,
    Mistake::BegunChosenAgain,
    Mistake::EventTakenUpBeforeTask,
    Mistake::TaskTakenUpForEvent,
    Mistake::TakenUpEventWithoutData,
    Mistake::TakenUpTaskWithData,
    Mistake::TakenUpInTaskCommit,
    Mistake::TakenUpInEventCommit,
    Mistake::TakingUpClearsBegun,
    Mistake::BegunUnseenInSevenAtBoot,
    Mistake::BegunUnseenInSevenAtStep,
    Mistake::BegunUnseenInSevenAtPost,
    Mistake::BegunAboveTwoAllowed,
    Mistake::EventBegunWithoutOpenRule,
    Mistake::EventBegunWithoutQueueRule,
    Mistake::EventBegunRuleInCommits,
    Mistake::EventBegunNamesOtherWord,
    Mistake::BegunUnseenInUnlikeAtStep,
    Mistake::BegunUnseenInUnlikeAtPost,
    Mistake::HandlerNotHeldAgainstBegun,
    Mistake::OffHeldAgainstBegun,
    Mistake::CommitHeldAgainstBegun,
    Mistake::BegunHeldAgainstPhase,
    Mistake::PostReadsBegunRecord,
    Mistake::RunLooksOnce,
    Mistake::SixtyFifthRowAllowed,
    Mistake::SixtyFourthRowRefused,
    Mistake::IncompleteRowIgnored,
    Mistake::IncompleteSixtyFifthIgnored,
    Mistake::LineSixteenAllowed,
    Mistake::LineFifteenRefused,
    Mistake::LowEqualToHighRefused,
    Mistake::LowAboveHighAllowed,
    Mistake::EventPastSixteenRefused,
    Mistake::EmptyTableRefused,
    Mistake::LengthCutTo16Bits,
    Mistake::LinesBeforeLevels,
    Mistake::LevelsBeforeLines,
    Mistake::LengthBeforeRows,
    Mistake::IncompleteBeforeRows,
    Mistake::RowsBeforeLength,
    Mistake::LastWrongRow,
    Mistake::RowPlaceFromOne,
    Mistake::RowPlaceAsWord,
    Mistake::HighLevelExclusive,
    Mistake::LowLevelExclusive,
    Mistake::RowWithoutEventCoversNothing,
    Mistake::BorderOverlapPasses,
    Mistake::GapAtZeroPasses,
    Mistake::GapAtTheTopPasses,
    Mistake::ThreeTimesPasses,
    Mistake::OverlapPasses,
    Mistake::GapPasses,
    Mistake::RowsInRisingOrderExpected,
    Mistake::GapBehindInnerRow,
    Mistake::UnnamedLineUncovered,
    Mistake::OverlapBeforeGap,
    Mistake::LineByLine,
    Mistake::HighestLine,
    Mistake::HighestLevel,
    Mistake::LowestLevelOfAllLines,
    Mistake::LevelBeforeLine,
    Mistake::PlaceWithoutLevel,
    Mistake::TableUnchecked,
    Mistake::LevelsUncheckedAtRaise,
    Mistake::RaisedLineCheckedAlone,
    Mistake::RaiseOfLineSixteenRefused,
    Mistake::RaiseHighExclusive,
    Mistake::RaiseLowExclusive,
    Mistake::AnyLinesRow,
    Mistake::FirstRowOfTable,
    Mistake::FirstRowOfLine,
    Mistake::LineMasked,
    Mistake::SignedLevels,
    Mistake::LowLevelAsData,
    Mistake::HighLevelAsData,
    Mistake::LineAsData,
    Mistake::LineAsEvent,
    Mistake::EventNotBelowERefused,
    Mistake::EventNotBelowEPostsNothing,
    Mistake::NoEventPosted,
    Mistake::LineWithoutRowsUncovered,
    Mistake::NothingPostedAnsweredDone,
    Mistake::NothingPostedNeedsDevice,
    Mistake::NothingPostedLooksAtPower,
    Mistake::NothingPostedLooksAtHandler,
    Mistake::NothingPostedLooksAtProgram,
    Mistake::NothingPostedLooksAtStore,
    Mistake::DeviceBeforeTable,
    Mistake::PowerBeforeTable,
    Mistake::ProgramBeforeTable,
    Mistake::StoreBeforeTable,
    Mistake::TailBeforeLastDatum,
    Mistake::TailByOne,
    Mistake::TailWrapsAtTheEndOnly,
    Mistake::TailAfterEachRecord,
    Mistake::BurstReversed,
    Mistake::DatumStoredAsEvent,
    Mistake::DatumBeforeEvent,
    Mistake::EventsBeforeData,
    Mistake::EverySlotAtTail,
    Mistake::NoWrapInBurst,
    Mistake::RingOfQueueRecords,
    Mistake::LastRecordNotStored,
    Mistake::LastDatumAnswersAccepted,
    Mistake::AcceptedCountedOnce,
    Mistake::AcceptedCountedOnceInRun,
    Mistake::AcceptedWraps,
    Mistake::AcceptedNotRaisedPastLargest,
    Mistake::CutKeepsStoredRecords,
    Mistake::OneMoreThanRoomPasses,
    Mistake::RoomOfOneIsEnough,
    Mistake::RoomByWaitingRecords,
    Mistake::BurstOfAllRoomRefused,
    Mistake::LongerThanQueueRefusedAsLength,
    Mistake::LengthZeroPasses,
    Mistake::LengthFiveAsFour,
    Mistake::LengthOfEightBits,
    Mistake::LengthWithPlace,
    Mistake::EventPlaceZero,
    Mistake::EventPlaceFromOne,
    Mistake::EventPlaceAsWord,
    Mistake::LastBadEvent,
    Mistake::FirstEventAlone,
    Mistake::LastEventUnseen,
    Mistake::DataSeenAsEvents,
    Mistake::EventsBehindSeen,
    Mistake::WordsBehindKept,
    Mistake::EventsBeforeLength,
    Mistake::LengthBeforePower,
    Mistake::LengthBeforeState,
    Mistake::LengthBeforeStore,
    Mistake::LengthBeforeProgram,
    Mistake::BusyBeforeLength,
    Mistake::BusyBeforeEvents,
    Mistake::FullBeforeLength,
    Mistake::FullBeforeEvents,
    Mistake::FullBeforeBusy,
    Mistake::HandlerUnseenAtBurst,
    Mistake::StoredEventsUnseen,
    Mistake::FirstEventAloneInState,
    Mistake::NextEventAloneInState,
    Mistake::LengthZeroUnseen,
    Mistake::LengthAboveFourUnseen,
    Mistake::PastTailStoreUnseen,
    Mistake::PastTailStoreByOneUnseen,
    Mistake::RoomUnseenOnceStoring,
    Mistake::RoomForTheRest,
    Mistake::FullQueueAlone,
    Mistake::LastStoreUnlike,
    Mistake::DropWithEventBegun,
    Mistake::DropInEventCommit,
    Mistake::DropInEventCommitOnceMoved,
    Mistake::DropInEventCommitOnceCleared,
    Mistake::FullAsBefore,
    Mistake::DropInPhaseZeroOnly,
    Mistake::DropWithNothingBegunOnly,
    Mistake::DropOutsideTransactionsOnly,
    Mistake::BurstOfTwoDrops,
    Mistake::LongerBurstDropsOne,
    Mistake::BurstOfOneDropsNothing,
    Mistake::RaiseDropsNothing,
    Mistake::DropAsStoring,
    Mistake::PostStoresHead,
    Mistake::PostReadsDroppedRecord,
    Mistake::RefusedPostEndsDrop,
    Mistake::HeadAfterTail,
    Mistake::NewRecordOverHead,
    Mistake::NewRecordInDroppedSlot,
    Mistake::NewestDropped,
    Mistake::TwoDropped,
    Mistake::AllDropped,
    Mistake::HeadNotWrapped,
    Mistake::HeadWrapsBeforeLastSlot,
    Mistake::HeadStoreNotCounted,
    Mistake::HeadStoreNotTold,
    Mistake::HeadStoreAnswersWorked,
    Mistake::HeadStoreAnswersAccepted,
    Mistake::HeadStoreEndsHandler,
    Mistake::DropLeftOutOfAnswer,
    Mistake::DroppedSwapped,
    Mistake::NewRecordInAnswer,
    Mistake::OldestLeftInAnswer,
    Mistake::DropNamedByEveryAnswer,
    Mistake::AcceptedNotRaisedForReplaced,
    Mistake::RunEndsAtDrop,
    Mistake::DroppedRecordUnchecked,
    Mistake::DroppedRecordNamedByData,
    Mistake::DroppedRecordBeforeState,
    Mistake::DroppedRecordCheckedWhenNamed,
    Mistake::AllRecordsChecked,
    Mistake::DroppingFullnessUnseen,
    Mistake::DroppingBegunUnseen,
    Mistake::DroppingPhaseUnseen,
    Mistake::DroppingEventUnseen,
    Mistake::DroppingAskedForRoom,
    Mistake::ReplacingRoomUnseen,
    Mistake::ReplacingRoomUnseenOnceStoring,
    Mistake::ReplacingPastTailUnseen,
    Mistake::ReplacingEventUnseen,
    Mistake::ReplacingAskedForRoomOfOne,
];

/// The mistakes about SHR.
pub fn mistakes_about_shifts() -> &'static [Mistake] {
    &MISTAKES[Mistake::ShiftTowardsZero as usize..=Mistake::ShiftOneLargePasses as usize]
}

/// Of these, the mistakes of one word or one k, which random lists don't meet.
pub fn mistakes_in_one_shift() -> &'static [Mistake] {
    &MISTAKES[Mistake::ShiftLowestWordToZero as usize..=Mistake::ShiftOneLargePasses as usize]
}

/// The mistakes about which of several broken rules 7 names.
pub fn mistakes_about_the_lowest() -> &'static [Mistake] {
    &MISTAKES[Mistake::HighestAtBoot as usize..=Mistake::PostLooksAtAll as usize]
}

/// The mistakes about word 16.
pub fn mistakes_about_begun() -> &'static [Mistake] {
    &MISTAKES[Mistake::BegunClearedAfterPhase as usize..=Mistake::RunLooksOnce as usize]
}

/// The mistakes about line tables and raises.
pub fn mistakes_about_lines() -> &'static [Mistake] {
    &MISTAKES[Mistake::SixtyFifthRowAllowed as usize..=Mistake::StoreBeforeTable as usize]
}

/// The mistakes about bursts.
pub fn mistakes_about_bursts() -> &'static [Mistake] {
    &MISTAKES[Mistake::TailBeforeLastDatum as usize..=Mistake::LastStoreUnlike as usize]
}

/// The mistakes about records dropped from a full queue.
pub fn mistakes_about_drops() -> &'static [Mistake] {
    &MISTAKES[Mistake::DropWithEventBegun as usize..]
}

/// Of these, the mistakes in a table's check.
pub fn mistakes_in_the_lines_check() -> &'static [Mistake] {
    &MISTAKES[Mistake::SixtyFifthRowAllowed as usize..=Mistake::PlaceWithoutLevel as usize]
}

/// The reference with a mistake.
pub struct Mutant(pub Mistake);

fn refused(number: u16) -> Answer {
    Answer::Refused(Refusal { number, place: (0, 0) })
}

/// Refusal 7.
fn refused_at_word(word: u16) -> Answer {
    Answer::Refused(Refusal { number: 7, place: (word, 0) })
}

/// A step that stored nothing, and one that stored a word.
fn without(answer: Answer) -> StepAnswer {
    StepAnswer { answer, stored: None }
}

fn storing(answer: Answer, index: usize) -> StepAnswer {
    StepAnswer { answer, stored: Some(index as u16) }
}

/// Whether program and store are wholly right.
fn sound(program: &[u16], store: &mut [u16]) -> bool {
    Reference.boot(program, store, &mut Device::OFF.clone()) == Answer::Done
}

/// The instruction that a running body stands at, in a sound program.
pub(crate) fn instruction(program: &[u16], device: &Device) -> Option<(u16, usize, usize, u16)> {
    let (body, index) = match device.place {
        Place::Running { body, instruction, .. } => (body, instruction as usize),
        Place::HalfSave { body, instruction } => (body, instruction as usize),
        Place::NoBody { .. } => return None,
    };
    let row = match body {
        Body::Task(task) => 6 + 3 * task as usize,
        Body::Event(event) => 6 + 3 * (*program.get(1)? as usize + event as usize),
    };
    let at = *program.get(row)? as usize + 2 * index;
    let (word, k) = (*program.get(at)?, *program.get(at + 1)?);
    Some((word >> 8, (word >> 4 & 7) as usize, (word & 7) as usize, k))
}

fn after(store: &[u16], slot: u16) -> u16 {
    if slot >= store[3] {
        0
    } else {
        slot + 1
    }
}

/// What becomes of a store with an event begun as if no transaction were open; word 10 is as before afterwards.
fn as_if_closed(store: &mut [u16], call: impl FnOnce(&mut [u16]) -> Answer) -> Answer {
    if store.get(BEGUN) != Some(&EVENT_BEGUN) || store[PHASE] != 0 {
        return call(store);
    }
    let open = std::mem::replace(&mut store[OPEN], 0);
    let answer = call(store);
    store[OPEN] = open;
    answer
}

impl Mutant {
    /// The mistaken step where the mistake applies; none where the reference's stands.
    fn mistaken_step(
        &self,
        program: &[u16],
        store: &mut [u16],
        device: &mut Device,
        totals: &mut Totals,
    ) -> Option<StepAnswer> {
        let count_store = |totals: &mut Totals| totals.stores = totals.stores.saturating_add(1);
        let resting = device.on && device.handler.is_none();
        let old = *device;
        match self.0 {
            Mistake::HeadPlusOneOnRedo => {
                let Place::NoBody { commit } = device.place else { return None };
                if !resting || !sound(program, store) || store[PHASE] != 2 || commit != store[COUNT] {
                    return None;
                }
                store[HEAD] = after(store, store[HEAD]);
                device.place = Place::NoBody { commit: commit + 1 };
                count_store(totals);
                Some(storing(Answer::Stored, HEAD))
            }
            Mistake::TailBeforeDatum => {
                let handler = device.handler?;
                if !device.on || !sound(program, store) {
                    return None;
                }
                bursts::mutants::tail_before_last_datum(store, device, totals, handler)
            }
            Mistake::PhaseBeforeTask => {
                let Place::NoBody { commit } = device.place else { return None };
                if !resting || !sound(program, store) {
                    return None;
                }
                let past = commit.checked_sub(store[COUNT])?;
                let (index, word) = match (store[PHASE], past) {
                    (1, 0) => (PHASE, 0),
                    (0, 1) => (TASK, store[PENDING]),
                    (0, 2) => (OPEN, store[PENDING_OPEN]),
                    (0, 3) => (BEGUN, NOTHING_BEGUN),
                    _ => return None,
                };
                store[index] = word;
                count_store(totals);
                device.place = Place::NoBody { commit: commit.wrapping_add(1) };
                if past == 3 {
                    *device = Device::ON;
                }
                Some(storing(Answer::Stored, index))
            }
            Mistake::CountFromLostState => {
                if resting && sound(program, store) && store[PHASE] != 0 {
                    if let Place::NoBody { commit } = device.place {
                        if commit >= device.log_count && commit < store[COUNT] {
                            device.place = Place::NoBody { commit: store[COUNT] };
                        }
                    }
                }
                let step = Reference.step(program, store, device, totals);
                if let Answer::Committed(_) = step.answer {
                    device.log_count = old.log_count;
                }
                Some(step)
            }
            Mistake::EventInOpenTransaction => {
                let open = *store.get(OPEN)?;
                store[OPEN] = 0;
                if !sound(program, store) || !device.on {
                    store[OPEN] = open;
                    return None;
                }
                let step = Reference.step(program, store, device, totals);
                if store[PHASE] == 0 && store[OPEN] == 0 {
                    store[OPEN] = open;
                }
                Some(step)
            }
            Mistake::TaskBeforeEvent => {
                if !resting || !sound(program, store) || device.place != (Place::NoBody { commit: 0 }) {
                    return None;
                }
                if store[PHASE] != 0 {
                    return None;
                }
                let tail = store[TAIL];
                store[TAIL] = store[HEAD];
                let step = Reference.step(program, store, device, totals);
                store[TAIL] = tail;
                Some(step)
            }
            Mistake::LogFullEarly => {
                if !resting || !sound(program, store) || device.log_count.checked_add(1) != Some(store[2]) {
                    return None;
                }
                let mut copy = store.to_vec();
                let (mut next, mut sums) = (*device, *totals);
                Reference.step(program, &mut copy, &mut next, &mut sums);
                let halved = matches!(next.place, Place::HalfSave { .. }) && next != *device;
                halved.then(|| without(refused(24)))
            }
            Mistake::ChoosingReadsRow => {
                let idle = device.place == Place::NoBody { commit: 0 };
                let words = broken(program, store).all;
                (resting && idle && words.contains(&(OPEN as u16)) && Reference.check(program) == Answer::Done)
                    .then(|| without(refused_at_word(OPEN as u16)))
            }
            Mistake::SecondHalfLooksAgain => {
                let Place::HalfSave { .. } = device.place else { return None };
                if !resting || !sound(program, store) {
                    return None;
                }
                let (opcode, _, b, k) = instruction(program, device)?;
                let address = k as usize + device.registers[b] as usize;
                let mut copy = store.to_vec();
                let fine = Reference.step(program, &mut copy, &mut old.clone(), &mut totals.clone()).answer;
                (opcode == SAVEX && fine == Answer::Stored && address >= program[3] as usize)
                    .then(|| without(refused(23)))
            }
            Mistake::OpenNumberByStoredTask => {
                let Place::Running { ending: 2, .. } = device.place else { return None };
                let step = Reference.step(program, store, device, totals);
                if let (Answer::Stored, Some((GO, ..)), Place::Running { body: Body::Task(task), .. }) =
                    (step.answer, instruction(program, &old), old.place)
                {
                    if resting && store[PENDING] < program[1] {
                        let own = program[8 + 3 * task as usize];
                        let next = program[8 + 3 * store[PENDING] as usize];
                        store[PENDING_OPEN] = if own == next { own } else { 0 };
                    }
                }
                Some(step)
            }
            Mistake::GoRowOnce => {
                let Place::Running { body, instruction: index, ending: 1 } = device.place else { return None };
                let (opcode, _, _, k) = instruction(program, device)?;
                let answer = Reference.step(program, &mut store.to_vec(), &mut old.clone(), &mut totals.clone()).answer;
                let other = Answer::Refused(Refusal { number: 4, place: (k, 0) });
                if opcode != GO || answer != other || body == Body::Task(k) || k == 0 || !resting {
                    return None;
                }
                store[PENDING] = k;
                device.place = Place::Running { body, instruction: index, ending: 2 };
                count_store(totals);
                Some(storing(Answer::Stored, PENDING))
            }
            Mistake::OffBeforeUnlike => {
                let step = Reference.step(program, store, device, totals);
                Some(if !device.on && step.answer == refused(25) { without(refused(22)) } else { step })
            }
            Mistake::TotalsMissCommitStore => {
                let stores = totals.stores;
                let step = Reference.step(program, store, device, totals);
                if let Answer::Committed(_) = step.answer {
                    totals.stores = stores;
                }
                Some(step)
            }
            Mistake::TotalsWrap => {
                let before = *totals;
                let step = Reference.step(program, store, device, totals);
                if before.stores == u32::MAX && step.stored.is_some() {
                    totals.stores = 0;
                }
                Some(step)
            }
            Mistake::RefusedStepClears => {
                let step = Reference.step(program, store, device, totals);
                if let Answer::Refused(_) = step.answer {
                    device.registers = [0; 8];
                }
                Some(step)
            }
            Mistake::StepLooksAtAll => {
                let lowest = broken(program, store).all.first().copied()?;
                Some(without(refused_at_word(lowest)))
            }
            Mistake::ValueToldAsAddress => {
                let step = Reference.step(program, store, device, totals);
                let half = matches!(old.place, Place::HalfSave { .. }) && old.handler.is_none();
                Some(StepAnswer { stored: step.stored.map(|index| index - half as u16), ..step })
            }
            Mistake::SameValueNotTold => {
                let before = store.to_vec();
                let step = Reference.step(program, store, device, totals);
                Some(StepAnswer { stored: step.stored.filter(|_| before != store), ..step })
            }
            Mistake::UnsignedLess | Mistake::IndexWraps | Mistake::LoadPassesLog | Mistake::LastPairFound => {
                let step = Reference.step(program, store, device, totals);
                let answer = step.answer;
                let Some((opcode, a, b, k)) = instruction(program, &old) else { return Some(step) };
                let Place::Running { body, instruction: index, .. } = old.place else { return Some(step) };
                let (ra, rb) = (old.registers[a], old.registers[b]);
                let next = Place::Running { body, instruction: index.wrapping_add(1), ending: 0 };
                if answer == Answer::Worked && self.0 == Mistake::UnsignedLess && opcode == JLT {
                    device.place =
                        if ra < rb { Place::Running { body, instruction: k, ending: 0 } } else { next };
                }
                let wrapped = k.wrapping_add(rb);
                if answer == refused(23) && self.0 == Mistake::IndexWraps && wrapped < program[3] {
                    if opcode == LOADX {
                        device.registers[a] = store[MEMORY + wrapped as usize];
                        device.place = next;
                        return Some(without(Answer::Worked));
                    }
                }
                if answer == Answer::Worked && (opcode == LOAD || opcode == LOADX) {
                    let address = if opcode == LOAD { k } else { wrapped };
                    if self.0 == Mistake::LoadPassesLog {
                        device.registers[a] = store[MEMORY + address as usize];
                    }
                    if self.0 == Mistake::LastPairFound {
                        for pair in 0..old.log_count as usize {
                            let at = store[6] as usize + 2 * pair;
                            if store[at] == address {
                                device.registers[a] = store[at + 1];
                            }
                        }
                    }
                }
                Some(step)
            }
            Mistake::ShiftOneWordWrongInRun => None,
            _ if mistakes_about_shifts().contains(&self.0) => {
                Some(shift::mutants::step(self.0, program, store, device, totals))
            }
            _ if mistakes_about_begun().contains(&self.0) => {
                begun::mutants::step(self.0, begun::mutants::Node { program, store, device, totals })
            }
            Mistake::AcceptedCountedOnceInRun => None,
            _ if mistakes_about_bursts().contains(&self.0) => {
                bursts::mutants::step(self.0, program, store, device, totals)
            }
            _ if mistakes_about_drops().contains(&self.0) => {
                drops::mutants::step(self.0, program, store, device, totals)
            }
            _ => None,
        }
    }
}

impl Mutant {
    /// The word that the mistake names where the reference names another one in refusal 7.
    fn other_word(&self, call: Call, program: &[u16], store: &[u16], right: u16) -> u16 {
        let Broken { all, early } = broken(program, store);
        // The words that this call looks at in the place of the order where it met 7.
        let looked = match call {
            Call::Boot => all.clone(),
            _ if early.is_empty() => vec![right],
            _ => early.clone(),
        };
        let [queue_records, log, queue] = [store[3], store[6], store[7]];
        let [phase, pending, head, tail] = [PHASE, PENDING, HEAD, TAIL].map(|index| store[index]);
        let is_address = |word: u16| word >= log && word < queue;
        let is_record = |word: u16| word >= queue;
        let words = || looked.iter().copied();
        let first_by = |key: &dyn Fn(u16) -> (u16, u16)| words().min_by_key(|word| key(*word)).unwrap_or(right);
        let highest = words().max().unwrap_or(right);
        let ring_broken = head > queue_records || tail > queue_records;
        match self.0 {
            Mistake::SevenWithoutPlace => 0,
            Mistake::HighestAtBoot if call == Call::Boot => highest,
            Mistake::HighestAtStep if call == Call::Step => highest,
            Mistake::HighestAtPost if matches!(call, Call::Burst { .. }) => highest,
            Mistake::HighestInRun if matches!(call, Call::Run { .. }) => highest,
            // As 7 has the rules: 8, 9, 10, 14, 15, records; 11, addresses; 12, 13.
            Mistake::ReadingOrder => first_by(&|word| match word {
                8..=10 => (0, word),
                14 | 15 => (1, word),
                11 => (3, word),
                12 | 13 => (5, word),
                _ if is_address(word) => (4, word),
                _ => (2, word),
            }),
            Mistake::HeadAndTailBeforeTwelve => first_by(&|word| match word {
                12 | 13 => (1, word),
                _ if word as usize >= MEMORY => (2, word),
                _ => (0, word),
            }),
            // As document 01 had it.
            Mistake::TwelveOneRule if phase == 2 && ring_broken => words().find(|word| *word != 12).unwrap_or(right),
            Mistake::TwelveAlwaysWhole if phase == 2 && ring_broken && right > 12 => {
                let moves = pending == after(store, head) && head != tail;
                if pending == head || moves { right } else { 12 }
            }
            Mistake::LastAddress if is_address(right) => {
                words().filter(|word| is_address(*word)).max().unwrap_or(right)
            }
            Mistake::RecordsBeforeAddresses if is_address(right) => {
                words().find(|word| is_record(*word)).unwrap_or(right)
            }
            Mistake::OldestRecord if is_record(right) => {
                let (slots, first) = (queue_records + 1, if phase == 2 { pending } else { head });
                first_by(&|word| (((word - queue) / 2 + slots - first) % slots, word))
            }
            Mistake::BootInTwoLooks if call == Call::Boot => early.first().copied().unwrap_or(right),
            Mistake::FirstLookNamesAll if !early.is_empty() => all[0],
            Mistake::UsedWordNamesAll if early.is_empty() => all[0],
            _ if right == BEGUN as u16 => begun::mutants::other_word(self.0, store),
            _ => right,
        }
    }

    /// The refusal with the word that the mistake names.
    fn refusal(&self, call: Call, program: &[u16], store: &[u16], refusal: Refusal) -> Refusal {
        match refusal {
            Refusal { number: 7, place: (right, _) } => {
                Refusal { number: 7, place: (self.other_word(call, program, store, right), 0) }
            }
            _ => refusal,
        }
    }

    /// The refusals of a post that a raise with this answer, which posts nothing, meets before it.
    fn looked_at_first(&self, answer: &Answer) -> &'static [u16] {
        match (self.0, answer) {
            (Mistake::NothingPostedLooksAtPower, Answer::NothingPosted) => &[22],
            (Mistake::NothingPostedLooksAtHandler, Answer::NothingPosted) => &[20],
            (Mistake::NothingPostedLooksAtProgram, Answer::NothingPosted) => &[1, 2, 3],
            (Mistake::NothingPostedLooksAtStore, Answer::NothingPosted) => &[6, 7],
            (Mistake::PowerBeforeTable, Answer::Refused(_)) => &[22],
            (Mistake::ProgramBeforeTable, Answer::Refused(_)) => &[1, 2, 3],
            (Mistake::StoreBeforeTable, Answer::Refused(_)) => &[6, 7],
            _ => &[],
        }
    }

    fn answer(&self, call: Call, program: &[u16], store: &[u16], answer: Answer) -> Answer {
        match answer {
            Answer::Refused(refusal) => Answer::Refused(self.refusal(call, program, store, refusal)),
            _ => answer,
        }
    }

    /// A step of its own, or the reference's; the place of 7 is still the reference's.
    fn own_step(&self, program: &[u16], store: &mut [u16], device: &mut Device, totals: &mut Totals) -> StepAnswer {
        match self.mistaken_step(program, store, device, totals) {
            Some(step) => step,
            None => Reference.step(program, store, device, totals),
        }
    }
}

impl Mutant {
    /// A step in a run, so many steps after its start.
    fn step_in_run(
        &self,
        program: &[u16],
        store: &mut [u16],
        device: &mut Device,
        totals: &mut Totals,
        steps: u32,
    ) -> StepAnswer {
        if self.0 == Mistake::RunLooksOnce && steps > 0 {
            let node = begun::mutants::Node { program, store, device, totals };
            if let Some(step) = begun::mutants::unlooked_step(node) {
                return step;
            }
        }
        if self.0 == Mistake::ShiftOneWordWrongInRun {
            return shift::mutants::step(self.0, program, store, device, totals);
        }
        if self.0 == Mistake::AcceptedCountedOnceInRun {
            if let Some(step) = bursts::mutants::step(self.0, program, store, device, totals) {
                return step;
            }
        }
        self.own_step(program, store, device, totals)
    }

    /// A post, a burst or a raise.
    fn posted(
        &self,
        by: By,
        program: &[u16],
        store: &mut [u16],
        device: &mut Device,
        (count, words): (u16, &BurstWords),
    ) -> Answer {
        let old = *device;
        if self.0 == Mistake::PostLooksAtAll {
            if let Some(lowest) = broken(program, store).all.first() {
                return refused_at_word(*lowest);
            }
        }
        let mistaken = match self.0 {
            Mistake::EventInOpenTransaction => {
                Some(as_if_closed(store, |store| Reference.burst(program, store, device, count, words)))
            }
            _ if mistakes_about_begun().contains(&self.0) => {
                begun::mutants::burst(self.0, program, store, device, (count, words))
            }
            _ if mistakes_about_bursts().contains(&self.0) => {
                bursts::mutants::burst(self.0, program, store, device, (count, words))
            }
            _ if mistakes_about_drops().contains(&self.0) => {
                drops::mutants::burst(self.0, program, store, device, (count, words), by)
            }
            _ => None,
        };
        let answer = mistaken.unwrap_or_else(|| Reference.burst(program, store, device, count, words));
        if self.0 == Mistake::QueueFullEarly && answer == Answer::Done && bursts::room(store) == count as usize {
            *device = old;
            return refused(21);
        }
        self.answer(Call::Burst { count, words: *words }, program, store, answer)
    }
}

impl Runtime for Mutant {
    fn check(&self, program: &[u16]) -> Answer {
        Reference.check(&shift::mutants::read(self.0, program))
    }

    fn format(&self, program: &[u16], log_pairs: u16, queue_records: u16, store: &mut [u16]) -> Answer {
        Reference.format(&shift::mutants::read(self.0, program), log_pairs, queue_records, store)
    }

    fn boot(&self, program: &[u16], store: &mut [u16], device: &mut Device) -> Answer {
        let program = &*shift::mutants::read(self.0, program);
        let old = *device;
        let answer = match self.0 {
            Mistake::EventInOpenTransaction => as_if_closed(store, |store| Reference.boot(program, store, device)),
            Mistake::CutKeepsStoredRecords => bursts::mutants::boot(program, store, device),
            _ => begun::mutants::boot(self.0, program, store, device),
        };
        if self.0 == Mistake::BootRefusesUnlike && answer == Answer::Done && old != Device::OFF {
            *device = old;
            return refused(25);
        }
        self.answer(Call::Boot, program, store, answer)
    }

    fn step(&self, program: &[u16], store: &mut [u16], device: &mut Device, totals: &mut Totals) -> StepAnswer {
        let step = self.own_step(program, store, device, totals);
        StepAnswer { answer: self.answer(Call::Step, program, store, step.answer), ..step }
    }

    fn burst(
        &self,
        program: &[u16],
        store: &mut [u16],
        device: &mut Device,
        count: u16,
        words: &BurstWords,
    ) -> Answer {
        self.posted(By::Burst, program, store, device, (count, words))
    }

    fn post(&self, program: &[u16], store: &mut [u16], device: &mut Device, event: u16, datum: u16) -> Answer {
        self.posted(By::Post, program, store, device, (1, &single(event, datum)))
    }

    fn cut(&self, device: &mut Device) -> Answer {
        bursts::mutants::cut(self.0, device)
    }

    fn run(
        &self,
        program: &[u16],
        store: &mut [u16],
        device: &mut Device,
        totals: &mut Totals,
        budget: u32,
    ) -> RunAnswer {
        let mut steps = 0;
        while steps < budget {
            if self.0 == Mistake::RunSpentEarly && steps == 100 {
                break;
            }
            let step = self.step_in_run(program, store, device, totals, steps);
            if let Answer::Refused(refusal) = step.answer {
                if self.0 == Mistake::RunCountsRefusedStep {
                    steps += 1;
                }
                return RunAnswer { steps, end: End::Refused(self.refusal(Call::Run { budget }, program, store, refusal)) };
            }
            steps += 1;
            if self.0 == Mistake::RunEndsAtDrop && matches!(step.answer, Answer::Accepted(Some(_))) {
                break;
            }
        }
        RunAnswer { steps, end: End::Spent }
    }

    fn lines_check(&self, table: &[u16]) -> Answer {
        match lines::mutants::check(self.0, table) {
            Ok(()) => Answer::Done,
            Err(refusal) => Answer::Refused(refusal),
        }
    }

    fn raise(
        &self,
        program: &[u16],
        store: &mut [u16],
        device: &mut Device,
        table: &[u16],
        line: u16,
        level: u16,
    ) -> Answer {
        let events = program.get(2).copied().unwrap_or(0);
        match lines::mutants::post(self.0, table, line, level, events) {
            Ok((event, datum)) => self.posted(By::Raise, program, store, device, (1, &single(event, datum))),
            Err(answer) => {
                let first = self.looked_at_first(&answer);
                match Reference.post(program, store, &mut device.clone(), 0, level) {
                    Answer::Refused(refusal) if first.contains(&refusal.number) => Answer::Refused(refusal),
                    _ => answer,
                }
            }
        }
    }

    fn stray(
        &self,
        call: &Call,
        program: &[u16],
        store: &mut [u16],
        words: &mut [u16; DEVICE_WORDS],
        totals: &mut Totals,
    ) -> Outcome {
        let Call::Raise { table, line, level } = call else {
            return Reference.stray(call, program, store, words, totals);
        };
        let events = program.get(2).copied().unwrap_or(0);
        let answer = match (self.0, lines::mutants::post(self.0, table, *line, *level, events)) {
            (_, Ok(_)) => Answer::NoDevice,
            (Mistake::NothingPostedNeedsDevice, Err(Answer::NothingPosted)) => Answer::NoDevice,
            (Mistake::DeviceBeforeTable, Err(Answer::Refused(_))) => Answer::NoDevice,
            (_, Err(answer)) => answer,
        };
        Outcome::Answer(answer)
    }
}
