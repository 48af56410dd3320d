//! The boundary at which implementations are compared: the values that go in and out of the calls, and
//! the trait `Runtime` that every implementation stands behind. Nothing here decides anything.
//!
//! A word is a `u16`. A program and a store are slices of words. The device state is a plain value, also
//! available as 26 words (`Device::to_words`), which is the form for functions of another language.

use crate::lines;
use crate::scenario::{Call, Outcome};

/// A body: a task or an event, each with its own number counted from 0.
#[derive(Clone, Copy, PartialEq, Eq, Debug)]
pub enum Body {
    Task(u16),
    Event(u16),
}

/// A record of the queue: event and data.
pub type Record = (u16, u16);

/// A refusal: its number and a place of two words.
#[derive(Clone, Copy, PartialEq, Eq, Debug)]
pub struct Refusal {
    pub number: u16,
    pub place: (u16, u16),
}

/// What a call answers. The checks of a program and of a line table answer done where these are accepted.
#[derive(Clone, Copy, PartialEq, Eq, Debug)]
pub enum Answer {
    Done,
    Chosen(Body),
    Worked,
    Stored,
    Committed(Body),
    /// With the record that was dropped for the accepted one, or none.
    Accepted(Option<Record>),
    Refused(Refusal),
    /// The words in the device's place stand for no device state.
    NoDevice,
    /// Of a raise: the line has no rows, or the level's row has no event.
    NothingPosted,
}

/// What a step answers, and the index of the word that it stored, if it stored one; where the value stays the same, too.
#[derive(Clone, Copy, PartialEq, Eq, Debug)]
pub struct StepAnswer {
    pub answer: Answer,
    pub stored: Option<u16>,
}

/// How a run ended.
#[derive(Clone, Copy, PartialEq, Eq, Debug)]
pub enum End {
    Spent,
    Refused(Refusal),
    /// The words in the device's place stand for no device state.
    NoDevice,
}

/// What a run answers: the steps made (a refused one isn't counted) and its end.
#[derive(Clone, Copy, PartialEq, Eq, Debug)]
pub struct RunAnswer {
    pub steps: u32,
    pub end: End,
}

/// Where the device stands.
#[derive(Clone, Copy, PartialEq, Eq, Debug)]
pub enum Place {
    /// No body. In phases 1 and 2, `commit` is the number of stores made since copying began.
    NoBody { commit: u16 },
    /// A running body, its instruction, and how many of its ending stores are made.
    Running { body: Body, instruction: u16, ending: u16 },
    /// A running body with half a SAVE made: the address stands in the log, the value doesn't.
    HalfSave { body: Body, instruction: u16 },
}

/// The most events of a burst, and the words of a burst: its first event, that event's data, its second event, ..
pub const MAX_BURST: usize = 4;
pub const BURST_WORDS: usize = 2 * MAX_BURST;
pub type BurstWords = [u16; BURST_WORDS];

/// What a handler is about.
#[derive(Clone, Copy, PartialEq, Eq, Debug)]
pub enum Work {
    /// It stores a burst.
    Storing,
    /// It is about to drop the oldest record: a burst of one, with no store made. Another one is no device state.
    Dropping,
    /// It has dropped that record, and stores a burst of one in its place. One of another length is no device state.
    Replacing,
}

/// A handler at work: what it is about, how many events its burst has, how many of its stores are made (of each event, of
/// its data, and last of the tail), and the burst's words. Those behind its last event's data are 0.
#[derive(Clone, Copy, PartialEq, Eq, Debug)]
pub struct Handler {
    pub work: Work,
    pub length: u16,
    pub made: u16,
    pub words: BurstWords,
}

impl Handler {
    /// Storing, with no store made, and 0 behind the last event's data, whatever was there.
    pub fn new(length: u16, words: &BurstWords) -> Handler {
        let mut words = *words;
        words[used_words(length)..].fill(0);
        Handler { work: Work::Storing, length, made: 0, words }
    }

    /// About to drop the oldest record for this one.
    pub fn dropping((event, datum): Record) -> Handler {
        Handler { work: Work::Dropping, ..Handler::single(event, datum) }
    }

    /// With the oldest record dropped for this one, of which so many stores are made.
    pub fn replacing((event, datum): Record, made: u16) -> Handler {
        Handler { work: Work::Replacing, made, ..Handler::single(event, datum) }
    }

    /// Whether it drops a record, or has dropped one.
    pub fn drops(&self) -> bool {
        self.work != Work::Storing
    }

    /// Its first record.
    pub fn record(&self) -> Record {
        (self.words[0], self.words[1])
    }

    /// Of one event.
    pub fn single(event: u16, datum: u16) -> Handler {
        Handler::new(1, &single(event, datum))
    }

    /// How many of its words are events and data; all of them where the length is out of range above.
    pub fn used(&self) -> usize {
        used_words(self.length)
    }
}

/// How many words of a burst of so many events are looked at.
fn used_words(length: u16) -> usize {
    2 * (length as usize).min(MAX_BURST)
}

/// The words of a burst of one.
pub fn single(event: u16, datum: u16) -> BurstWords {
    let mut words = [0; BURST_WORDS];
    words[..2].copy_from_slice(&[event, datum]);
    words
}

/// The device state, which a cut loses. No handler means a handler at rest.
#[derive(Clone, Copy, PartialEq, Eq, Debug)]
pub struct Device {
    pub on: bool,
    pub registers: [u16; 8],
    pub place: Place,
    pub log_count: u16,
    pub handler: Option<Handler>,
}

/// The number of words in the flat form of a device state.
pub const DEVICE_WORDS: usize = 26;

impl Device {
    /// Off: one fixed value.
    pub const OFF: Device = Device {
        on: false,
        registers: [0; 8],
        place: Place::NoBody { commit: 0 },
        log_count: 0,
        handler: None,
    };

    /// The fixed value turned on.
    pub const ON: Device = Device { on: true, ..Device::OFF };

    /// The flat form. Words: 0 on; 1 to 8 registers; 9 place (0 no body, 1 running, 2 half a SAVE);
    /// 10 kind of body (0 task, 1 event); 11 its number; 12 its instruction; 13 commit place, or ending
    /// stores made; 14 log count; 15 handler (0 at rest, 1 storing, 2 dropping, 3 replacing); 16 the length of its
    /// burst; 17 how many of its stores are made; 18 to 25 the burst's words. What a case doesn't have is 0.
    pub fn to_words(&self) -> [u16; DEVICE_WORDS] {
        let mut words = [0; DEVICE_WORDS];
        words[0] = self.on as u16;
        words[1..9].copy_from_slice(&self.registers);
        let mut put_body = |body: Body| match body {
            Body::Task(number) => words[11] = number,
            Body::Event(number) => {
                words[10] = 1;
                words[11] = number;
            }
        };
        match self.place {
            Place::NoBody { commit } => words[13] = commit,
            Place::Running { body, instruction, ending } => {
                put_body(body);
                words[9] = 1;
                words[12] = instruction;
                words[13] = ending;
            }
            Place::HalfSave { body, instruction } => {
                put_body(body);
                words[9] = 2;
                words[12] = instruction;
            }
        }
        words[14] = self.log_count;
        if let Some(handler) = self.handler {
            words[15] = handler.work as u16 + 1;
            words[16] = handler.length;
            words[17] = handler.made;
            words[18..].copy_from_slice(&handler.words);
        }
        words
    }

    /// The device of a flat form, or none if the words are no device's flat form.
    pub fn from_words(words: &[u16; DEVICE_WORDS]) -> Option<Device> {
        let body = match words[10] {
            0 => Body::Task(words[11]),
            _ => Body::Event(words[11]),
        };
        let place = match words[9] {
            0 => Place::NoBody { commit: words[13] },
            1 => Place::Running { body, instruction: words[12], ending: words[13] },
            _ => Place::HalfSave { body, instruction: words[12] },
        };
        let mut registers = [0; 8];
        registers.copy_from_slice(&words[1..9]);
        let mut burst = [0; BURST_WORDS];
        burst.copy_from_slice(&words[18..]);
        let stored = Handler { made: words[17], ..Handler::new(words[16], &burst) };
        let handler = match words[15] {
            0 => None,
            1 => Some(stored),
            2 => Some(Handler::dropping(stored.record())),
            _ => Some(Handler::replacing(stored.record(), stored.made)),
        };
        let device = Device { on: words[0] != 0, registers, place, log_count: words[14], handler };
        (device.to_words() == *words).then_some(device)
    }
}

/// The host's totals. Each stays at its largest value.
#[derive(Clone, Copy, PartialEq, Eq, Debug, Default)]
pub struct Totals {
    pub committed: u32,
    pub accepted: u32,
    pub stores: u32,
}

/// An implementation. Boot, post, burst and raise get the store as a slice to be written, although they make no store,
/// so that a store made by mistake shows in the comparison.
pub trait Runtime {
    fn check(&self, program: &[u16]) -> Answer;

    fn format(&self, program: &[u16], log_pairs: u16, queue_records: u16, store: &mut [u16]) -> Answer;

    fn boot(&self, program: &[u16], store: &mut [u16], device: &mut Device) -> Answer;

    fn step(&self, program: &[u16], store: &mut [u16], device: &mut Device, totals: &mut Totals) -> StepAnswer;

    /// A burst of so many events, any number. Of its words those behind the last event's data aren't looked at.
    fn burst(
        &self,
        program: &[u16],
        store: &mut [u16],
        device: &mut Device,
        count: u16,
        words: &BurstWords,
    ) -> Answer;

    /// "A single post is a burst of one."
    fn post(&self, program: &[u16], store: &mut [u16], device: &mut Device, event: u16, datum: u16) -> Answer {
        self.burst(program, store, device, 1, &single(event, datum))
    }

    fn cut(&self, device: &mut Device) -> Answer;

    fn run(
        &self,
        program: &[u16],
        store: &mut [u16],
        device: &mut Device,
        totals: &mut Totals,
        budget: u32,
    ) -> RunAnswer;

    fn lines_check(&self, table: &[u16]) -> Answer;

    #[allow(clippy::too_many_arguments)]
    fn raise(
        &self,
        program: &[u16],
        store: &mut [u16],
        device: &mut Device,
        table: &[u16],
        line: u16,
        level: u16,
    ) -> Answer;

    /// A call with words in the device's place that are no device's flat form. Where the device is a value there
    /// are no such words, and this is what the comparison expects of the others: no device, and nothing changes.
    /// A raise looks at its table first.
    fn stray(
        &self,
        call: &Call,
        _program: &[u16],
        _store: &mut [u16],
        words: &mut [u16; DEVICE_WORDS],
        _totals: &mut Totals,
    ) -> Outcome {
        match call {
            Call::Run { .. } => Outcome::Run(RunAnswer { steps: 0, end: End::NoDevice }),
            Call::Step => Outcome::Step(StepAnswer { answer: Answer::NoDevice, stored: None }),
            Call::Cut => {
                *words = Device::OFF.to_words();
                Outcome::Answer(Answer::Done)
            }
            Call::Raise { table, line, level } => {
                Outcome::Answer(lines::event(table, *line, *level).err().unwrap_or(Answer::NoDevice))
            }
            _ => Outcome::Answer(Answer::NoDevice),
        }
    }
}
