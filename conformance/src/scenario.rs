//! A scenario: a program, a store's sizes and a list of calls, with the means to perform a call on one
//! implementation and a text form that a person can read, change and replay. Besides the runtime's calls
//! the list may have changes that stand for damage.

use crate::foreign::{BAD_DEVICE, NO_ANSWER, OUTSIDE};
use crate::reference::store_length;
use crate::runtime::*;
use std::fmt::Write;
use std::num::IntErrorKind;
use std::rc::Rc;

/// A line table: any words. Many calls of a list share one.
pub type Table = Rc<[u16]>;

#[derive(Clone, PartialEq, Eq, Debug)]
pub enum Call {
    Check,
    Format { log_pairs: u16, queue_records: u16 },
    Boot,
    Step,
    Post { event: u16, datum: u16 },
    /// So many events; of the words those behind the last one's data aren't looked at.
    Burst { count: u16, words: BurstWords },
    Cut,
    Run { budget: u32 },
    LinesCheck { table: Table },
    Raise { table: Table, line: u16, level: u16 },
    /// Damage: a word of the program or of the store, where it has that word.
    SetProgram { index: usize, word: u16 },
    SetStore { index: usize, word: u16 },
    /// Damage: a length. What is added is 0.
    ProgramLength(usize),
    StoreLength(usize),
    /// Damage: the device state, or words in its place that are no device's.
    SetDevice(Device),
    SetWords([u16; DEVICE_WORDS]),
    SetTotals(Totals),
    /// Keep program, store, device and totals; go back to what was kept last, at first that after formatting.
    Keep,
    Restore,
}

/// Budgets above this one are for runs that a refusal ends before it.
pub const LARGE_BUDGET: u32 = 10_000;

/// The calls of the runtime by name, for counting.
pub const CALL_NAMES: [&str; CALL_KINDS] =
    ["check", "format", "boot", "step", "post", "cut", "run", "lines-check", "raise", "burst"];

pub const CALL_KINDS: usize = 10;

impl Call {
    /// The index in `CALL_NAMES`, or none for a change.
    pub fn kind(&self) -> Option<usize> {
        match self {
            Call::Check => Some(0),
            Call::Format { .. } => Some(1),
            Call::Boot => Some(2),
            Call::Step => Some(3),
            Call::Post { .. } => Some(4),
            Call::Cut => Some(5),
            Call::Run { .. } => Some(6),
            Call::LinesCheck { .. } => Some(7),
            Call::Raise { .. } => Some(8),
            Call::Burst { .. } => Some(9),
            _ => None,
        }
    }

    /// Whether it is given the device.
    pub fn takes_device(&self) -> bool {
        matches!(self.kind(), Some(2..=6 | 8..))
    }

    /// Whether a list with it is undamaged: every call is, but formatting anew.
    pub fn undamaging(&self) -> bool {
        self.kind().is_some() && !matches!(self, Call::Format { .. })
    }

    /// Whether it looks at it. A cut leaves the off value, whatever it finds.
    pub fn looks_at_device(&self) -> bool {
        self.takes_device() && *self != Call::Cut
    }

    /// The line table that it is given.
    pub fn table(&self) -> Option<&Table> {
        match self {
            Call::LinesCheck { table } | Call::Raise { table, .. } => Some(table),
            _ => None,
        }
    }

    /// The same call with another table, if it is given one.
    pub fn with_table(&self, new: &[u16]) -> Call {
        match self {
            Call::LinesCheck { .. } => Call::LinesCheck { table: new.into() },
            Call::Raise { line, level, .. } => Call::Raise { table: new.into(), line: *line, level: *level },
            _ => self.clone(),
        }
    }
}

/// What a call gave.
#[derive(Clone, Copy, PartialEq, Eq, Debug)]
pub enum Outcome {
    Answer(Answer),
    Step(StepAnswer),
    Run(RunAnswer),
}

impl Outcome {
    /// The answer of a call that isn't a run.
    pub fn answer(&self) -> Option<Answer> {
        match self {
            Outcome::Answer(answer) | Outcome::Step(StepAnswer { answer, .. }) => Some(*answer),
            Outcome::Run(_) => None,
        }
    }

    pub fn refusal(&self) -> Option<Refusal> {
        match (self, self.answer()) {
            (_, Some(Answer::Refused(refusal))) => Some(refusal),
            (Outcome::Run(RunAnswer { end: End::Refused(refusal), .. }), _) => Some(*refusal),
            _ => None,
        }
    }

    /// Whether the words in the device's place stood for no device state.
    pub fn no_device(&self) -> bool {
        self.answer() == Some(Answer::NoDevice) || matches!(self, Outcome::Run(RunAnswer { end: End::NoDevice, .. }))
    }

    /// Whether a raise posted nothing, and said so.
    pub fn nothing_posted(&self) -> bool {
        self.answer() == Some(Answer::NothingPosted)
    }
}

#[derive(Clone, PartialEq, Debug)]
pub struct Scenario {
    pub seed: u64,
    pub program: Vec<u16>,
    pub log_pairs: u16,
    pub queue_records: u16,
    /// The totals that the host lends at first.
    pub totals: Totals,
    pub calls: Vec<Call>,
}

/// A store before formatting: as many words as it needs, none of them 0 by intent.
pub fn unformatted(memory: u16, log_pairs: u16, queue_records: u16) -> Vec<u16> {
    let length = store_length(memory as usize, log_pairs as usize, queue_records as usize);
    (0..length).map(|index| (index as u16).wrapping_mul(40503).wrapping_add(12345) | 1).collect()
}

/// The words and values that one implementation works on.
#[derive(Clone, PartialEq, Debug)]
pub struct Machine {
    pub program: Vec<u16>,
    pub store: Vec<u16>,
    pub device: Device,
    /// Words in the device's place that are no device's.
    pub stray: Option<[u16; DEVICE_WORDS]>,
    pub totals: Totals,
}

impl Machine {
    /// Before formatting.
    pub fn new(scenario: &Scenario) -> Machine {
        let memory = scenario.program.get(3).copied().unwrap_or(0);
        Machine {
            program: scenario.program.clone(),
            store: unformatted(memory, scenario.log_pairs, scenario.queue_records),
            device: Device::OFF,
            stray: None,
            totals: scenario.totals,
        }
    }

    /// Become equal to another machine, keeping the allocations.
    pub fn copy_from(&mut self, other: &Machine) {
        self.program.clone_from(&other.program);
        self.store.clone_from(&other.store);
        self.device = other.device;
        self.stray = other.stray;
        self.totals = other.totals;
    }

    /// The words in the device's place.
    pub fn device_words(&self) -> [u16; DEVICE_WORDS] {
        self.stray.unwrap_or_else(|| self.device.to_words())
    }

    /// Perform a call of the runtime; none for a change.
    pub fn call(&mut self, runtime: &dyn Runtime, call: &Call) -> Option<Outcome> {
        let Machine { program, store, device, stray, totals } = self;
        if let (Some(words), true) = (stray.as_mut(), call.takes_device()) {
            let outcome = runtime.stray(call, program, store, words, totals);
            if let Some(new) = Device::from_words(words) {
                *device = new;
                *stray = None;
            }
            return Some(outcome);
        }
        let answer = match call {
            Call::Check => runtime.check(program),
            Call::Format { log_pairs, queue_records } => {
                runtime.format(program, *log_pairs, *queue_records, store)
            }
            Call::Boot => runtime.boot(program, store, device),
            Call::Step => return Some(Outcome::Step(runtime.step(program, store, device, totals))),
            Call::Post { event, datum } => runtime.post(program, store, device, *event, *datum),
            Call::Burst { count, words } => runtime.burst(program, store, device, *count, words),
            Call::Cut => runtime.cut(device),
            Call::Run { budget } => {
                return Some(Outcome::Run(runtime.run(program, store, device, totals, *budget)));
            }
            Call::LinesCheck { table } => runtime.lines_check(table),
            Call::Raise { table, line, level } => runtime.raise(program, store, device, table, *line, *level),
            _ => return None,
        };
        Some(Outcome::Answer(answer))
    }

    /// The call itself, but a run with a very large budget only where it ends soon; elsewhere, as in a
    /// shortened list, it might take hours, and the budget becomes a smaller one.
    pub fn affordable(&self, runtime: &dyn Runtime, call: &Call) -> Call {
        match call {
            Call::Run { budget } if *budget > LARGE_BUDGET && !self.ends_within(runtime, LARGE_BUDGET) => {
                Call::Run { budget: LARGE_BUDGET }
            }
            _ => call.clone(),
        }
    }

    /// Whether a run ends before so many steps, by a refusal or for want of a device.
    pub fn ends_within(&self, runtime: &dyn Runtime, steps: u32) -> bool {
        let outcome = self.clone().call(runtime, &Call::Run { budget: steps });
        matches!(outcome, Some(outcome) if outcome.refusal().is_some() || outcome.no_device())
    }

    /// Carry out a change; `kept` is for keeping and going back.
    pub fn change(&mut self, call: &Call, kept: &mut Machine) {
        match *call {
            Call::SetProgram { index, word } => {
                if let Some(place) = self.program.get_mut(index) {
                    *place = word;
                }
            }
            Call::SetStore { index, word } => {
                if let Some(place) = self.store.get_mut(index) {
                    *place = word;
                }
            }
            Call::ProgramLength(length) => self.program.resize(length, 0),
            Call::StoreLength(length) => self.store.resize(length, 0),
            Call::SetDevice(device) => {
                self.device = device;
                self.stray = None;
            }
            Call::SetWords(words) => self.stray = Some(words),
            Call::SetTotals(totals) => self.totals = totals,
            Call::Keep => kept.copy_from(self),
            Call::Restore => self.copy_from(kept),
            _ => {}
        }
    }
}

// ---------------------------------------------------------------------------------------------------------
// The text form: one line for the program (hex), one for the sizes, one for the totals, then the calls.

/// A name and words.
fn words_text(name: &str, words: &[u16]) -> String {
    let mut text = name.to_string();
    for word in words {
        let _ = write!(text, " {word}");
    }
    text
}

pub fn call_text(call: &Call) -> String {
    match call {
        Call::Check => "check".into(),
        Call::Format { log_pairs, queue_records } => format!("format {log_pairs} {queue_records}"),
        Call::Boot => "boot".into(),
        Call::Step => "step".into(),
        Call::Post { event, datum } => format!("post {event} {datum}"),
        Call::Burst { count, words } => words_text(&format!("burst {count}"), words),
        Call::Cut => "cut".into(),
        Call::Run { budget } => format!("run {budget}"),
        Call::LinesCheck { table } => words_text("lines-check", table),
        Call::Raise { table, line, level } => words_text(&format!("raise {line} {level}"), table),
        Call::SetProgram { index, word } => format!("set-program {index} {word}"),
        Call::SetStore { index, word } => format!("set-store {index} {word}"),
        Call::ProgramLength(length) => format!("program-length {length}"),
        Call::StoreLength(length) => format!("store-length {length}"),
        Call::SetDevice(device) => words_text("set-device", &device.to_words()),
        Call::SetWords(words) => words_text("set-device", words),
        Call::SetTotals(totals) => {
            format!("set-totals {} {} {}", totals.committed, totals.accepted, totals.stores)
        }
        Call::Keep => "keep".into(),
        Call::Restore => "restore".into(),
    }
}

fn answer_text(answer: &Answer) -> String {
    let body_text = |body: &Body| match body {
        Body::Task(number) => format!("task {number}"),
        Body::Event(number) => format!("event {number}"),
    };
    match answer {
        Answer::Done => "done".into(),
        Answer::Chosen(body) => format!("chosen {}", body_text(body)),
        Answer::Worked => "worked".into(),
        Answer::Stored => "stored".into(),
        Answer::Committed(body) => format!("committed {}", body_text(body)),
        Answer::Accepted(None) => "accepted".into(),
        Answer::Accepted(Some((event, datum))) => format!("accepted, dropped {event} {datum}"),
        Answer::Refused(Refusal { number, place: (first, second) }) => match *number {
            NO_ANSWER => format!("no answer of this call (words {first} {second} ..)"),
            BAD_DEVICE => "words that are no device's".into(),
            OUTSIDE => "a word written outside what was lent".into(),
            _ => format!("refused {number}, place {first} {second}"),
        },
        Answer::NoDevice => "no device".into(),
        Answer::NothingPosted => "nothing posted".into(),
    }
}

/// What a call gave, in words.
pub fn outcome_text(outcome: &Outcome) -> String {
    match outcome {
        Outcome::Answer(answer) => answer_text(answer),
        Outcome::Step(StepAnswer { answer, stored: Some(word) }) => format!("{}, word {word}", answer_text(answer)),
        Outcome::Step(StepAnswer { answer, stored: None }) => answer_text(answer),
        Outcome::Run(RunAnswer { steps, end }) => match end {
            End::Spent => format!("{steps} steps, spent"),
            End::Refused(refusal) => format!("{steps} steps, {}", answer_text(&Answer::Refused(*refusal))),
            End::NoDevice => format!("{steps} steps, no device"),
        },
    }
}

impl Scenario {
    pub fn to_text(&self) -> String {
        let mut text = String::new();
        text.push_str("program");
        for word in &self.program {
            let _ = write!(text, " {word:04X}");
        }
        let _ = writeln!(text, "\nsizes {} {}", self.log_pairs, self.queue_records);
        let Totals { committed, accepted, stores } = self.totals;
        let _ = writeln!(text, "totals {committed} {accepted} {stores}");
        for call in &self.calls {
            text.push_str(&call_text(call));
            text.push('\n');
        }
        text
    }

    /// Read the text form. Empty lines and lines that start with # are passed over. The error names the line and what
    /// is wrong with it; a number that doesn't fit isn't cut.
    pub fn from_text(text: &str) -> Result<Scenario, String> {
        let mut scenario = Scenario {
            seed: 0,
            program: Vec::new(),
            log_pairs: 0,
            queue_records: 0,
            totals: Totals::default(),
            calls: Vec::new(),
        };
        for (index, line) in text.lines().enumerate() {
            let line = line.trim();
            if line.is_empty() || line.starts_with('#') {
                continue;
            }
            let mut line = Line::new(index + 1, line);
            match line.name {
                "program" => scenario.program = line.words()?,
                "sizes" => (scenario.log_pairs, scenario.queue_records) = (line.word()?, line.word()?),
                "totals" => scenario.totals = line.totals()?,
                _ => scenario.calls.push(line.call()?),
            }
            line.end()?;
        }
        Ok(scenario)
    }
}

/// The largest index and length in the text form.
const LONGEST: u64 = 1_000_000;

/// A line of the text form: a name and numbers, in hex for a program.
struct Line<'a> {
    number: usize,
    name: &'a str,
    rest: std::str::SplitWhitespace<'a>,
}

impl<'a> Line<'a> {
    fn new(number: usize, line: &'a str) -> Line<'a> {
        let mut rest = line.split_whitespace();
        Line { number, name: rest.next().unwrap_or(""), rest }
    }

    fn wrong(&self, text: String) -> String {
        format!("line {}, {}: {text}", self.number, self.name)
    }

    /// The next number, at most so large.
    fn take(&mut self, largest: u64) -> Result<u64, String> {
        let text = self.rest.next().ok_or_else(|| self.wrong("a number is missing".into()))?;
        let hex = self.name == "program";
        let above = || match hex {
            true => self.wrong(format!("{text} is above {largest:X}")),
            false => self.wrong(format!("{text} is above {largest}")),
        };
        match u64::from_str_radix(text, if hex { 16 } else { 10 }) {
            Ok(number) if number <= largest => Ok(number),
            Ok(_) => Err(above()),
            Err(error) if *error.kind() == IntErrorKind::PosOverflow => Err(above()),
            Err(_) => Err(self.wrong(format!("{text} isn't a number from 0 on"))),
        }
    }

    fn word(&mut self) -> Result<u16, String> {
        Ok(self.take(u16::MAX as u64)? as u16)
    }

    /// Every number that is left.
    fn words(&mut self) -> Result<Vec<u16>, String> {
        let count = self.rest.clone().count();
        (0..count).map(|_| self.word()).collect()
    }

    /// An index or a length.
    fn length(&mut self) -> Result<usize, String> {
        Ok(self.take(LONGEST)? as usize)
    }

    fn number(&mut self) -> Result<u32, String> {
        Ok(self.take(u32::MAX as u64)? as u32)
    }

    fn totals(&mut self) -> Result<Totals, String> {
        Ok(Totals { committed: self.number()?, accepted: self.number()?, stores: self.number()? })
    }

    /// So many words.
    fn array<const COUNT: usize>(&mut self) -> Result<[u16; COUNT], String> {
        let mut words = [0; COUNT];
        for place in &mut words {
            *place = self.word()?;
        }
        Ok(words)
    }

    fn device(&mut self) -> Result<Call, String> {
        let words = self.array()?;
        Ok(match Device::from_words(&words) {
            Some(device) => Call::SetDevice(device),
            None => Call::SetWords(words),
        })
    }

    fn call(&mut self) -> Result<Call, String> {
        Ok(match self.name {
            "check" => Call::Check,
            "format" => Call::Format { log_pairs: self.word()?, queue_records: self.word()? },
            "boot" => Call::Boot,
            "step" => Call::Step,
            "post" => Call::Post { event: self.word()?, datum: self.word()? },
            "burst" => Call::Burst { count: self.word()?, words: self.array()? },
            "cut" => Call::Cut,
            "run" => Call::Run { budget: self.number()? },
            "lines-check" => Call::LinesCheck { table: self.words()?.into() },
            "raise" => Call::Raise { line: self.word()?, level: self.word()?, table: self.words()?.into() },
            "set-program" => Call::SetProgram { index: self.length()?, word: self.word()? },
            "set-store" => Call::SetStore { index: self.length()?, word: self.word()? },
            "program-length" => Call::ProgramLength(self.length()?),
            "store-length" => Call::StoreLength(self.length()?),
            "set-device" => self.device()?,
            "set-totals" => Call::SetTotals(self.totals()?),
            "keep" => Call::Keep,
            "restore" => Call::Restore,
            _ => return Err(self.wrong("no call has this name".into())),
        })
    }

    fn end(&mut self) -> Result<(), String> {
        match self.rest.next() {
            Some(text) => Err(self.wrong(format!("{text} is one number too many"))),
            None => Ok(()),
        }
    }
}
