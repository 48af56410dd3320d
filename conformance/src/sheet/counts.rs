//! What came up in the cases of sheets: of program.img, of the schedule as far as it is read, and on the sheet.

use super::generate::{Case, Image};
use super::{sheet_telling, Clauses, Right};
use crate::bursts::room;
use crate::drops::{after, record};
use crate::reference::*;
use crate::runtime::*;
use crate::scenario::{Call, Machine};

/// What must come up in a comparison, in the order of the table.
pub const SITUATIONS: [&str; 75] = [
    "program.img missing",
    "program.img a folder",
    "program.img of an odd byte count",
    "program.img above 131070 bytes",
    "program.img of 65535 words",
    "program.img of 65536 words",
    "program refused 1",
    "program refused 2",
    "program refused 3, T",
    "program refused 3, E",
    "program refused 3, M",
    "program refused 3, entry",
    "program refused 4, rows past the program",
    "program refused 4, a row",
    "program refused 4, the end",
    "program refused 5, in a task",
    "program refused 5, in an event",
    "M of 1",
    "M of 1024",
    "input from a pipe",
    "input from a file",
    "no input",
    "a single line feed",
    "last line feed missing",
    "10000 lines or more",
    "1000000 lines or more",
    "post with capital digits",
    "post with small digits",
    "post of an event above 9",
    "unread: empty line",
    "unread: CR",
    "unread: space",
    "unread: capital letter",
    "unread: too long",
    "unread: too short",
    "unread: no hex digit",
    "unread: byte 0",
    "unread: byte 255",
    "unread: above 1000 bytes",
    "unread at call 1",
    "unread with lines behind it",
    "cut while off",
    "cut in a task's commit",
    "cut in an event's commit",
    "cut with memory not yet copied",
    "cut in the recovery from a cut",
    "cut before a post's first store",
    "cut between a post's stores",
    "cut before a head store",
    "cut after a head store",
    "cut after a head store, before the tail's",
    "cut with a task begun, a record waiting",
    "cut with an event begun",
    "boot that takes up a body",
    "cut in half a SAVE",
    "cut between ending stores",
    "cut inside an open transaction",
    "call refused 8",
    "call refused 20",
    "call refused 21",
    "call refused 22",
    "call refused 23",
    "call refused 24",
    "call refused 26",
    "call refused 21, an event begun",
    "call refused 21, in an event's commit",
    "dropped, nothing begun",
    "dropped, a task begun",
    "dropped in a task's commit",
    "dropped, a transaction open",
    "dropped, event 0",
    "dropped, another event",
    "dropped, an event above 9",
    "dropped, data above 9999",
    "call number above 65535",
];

#[derive(Clone, Debug)]
pub struct Counts {
    pub cases: u64,
    /// Lines of schedules, as far as they are read, and lines of sheets.
    pub calls: u64,
    pub lines: u64,
    /// By `SITUATIONS`.
    met: [u64; SITUATIONS.len()],
}

impl Default for Counts {
    fn default() -> Counts {
        Counts { cases: 0, calls: 0, lines: 0, met: [0; SITUATIONS.len()] }
    }
}

impl Counts {
    fn add(&mut self, situations: &[(&str, bool)]) {
        for (name, _) in situations.iter().filter(|(_, met)| *met) {
            let index = SITUATIONS.iter().position(|listed| listed == name);
            self.met[index.unwrap_or_else(|| panic!("{name} isn't listed"))] += 1;
        }
    }

    pub fn add_all(&mut self, other: &Counts) {
        self.cases += other.cases;
        self.calls += other.calls;
        self.lines += other.lines;
        for (sum, more) in self.met.iter_mut().zip(other.met) {
            *sum += more;
        }
    }

    /// Each situation with how often it came up.
    pub fn rows(&self) -> Vec<(&'static str, u64)> {
        SITUATIONS.into_iter().zip(self.met).collect()
    }

    /// What never came up.
    pub fn missing(&self) -> Vec<&'static str> {
        self.rows().into_iter().filter(|(_, count)| *count == 0).map(|(name, _)| name).collect()
    }

    fn case(&mut self, case: &Case) {
        let length = case.image_bytes().len();
        let lines = case.schedule.iter().filter(|byte| **byte == b'\n').count();
        self.add(&[
            ("program.img missing", case.image == Image::Missing),
            ("program.img a folder", case.image == Image::Folder),
            ("program.img of an odd byte count", length % 2 == 1),
            ("program.img above 131070 bytes", length > 131_070),
            ("program.img of 65535 words", length == 131_070),
            ("program.img of 65536 words", length == 131_072),
            ("input from a pipe", case.pipe),
            ("input from a file", !case.pipe),
            ("no input", case.schedule.is_empty()),
            ("a single line feed", case.schedule == b"\n"),
            ("last line feed missing", case.schedule.last().is_some_and(|byte| *byte != b'\n')),
            ("10000 lines or more", lines >= 10_000),
            ("1000000 lines or more", lines >= 1_000_000),
        ]);
    }

    /// A program that the check refuses.
    fn program(&mut self, program: &[u16], Refusal { number, place: (first, _) }: Refusal) {
        let word = |index: usize| program.get(index).copied().unwrap_or(0);
        let bodies = word(1).wrapping_add(word(2));
        let past = number == 4 && 6 + 3 * bodies as usize > program.len();
        self.add(&[
            ("program refused 1", number == 1),
            ("program refused 2", number == 2),
            ("program refused 3, T", number == 3 && first == 1),
            ("program refused 3, E", number == 3 && first == 2),
            ("program refused 3, M", number == 3 && first == 3),
            ("program refused 3, entry", number == 3 && first == 4),
            ("program refused 4, rows past the program", past),
            ("program refused 4, a row", number == 4 && !past && first < bodies),
            ("program refused 4, the end", number == 4 && !past && first == bodies),
            ("program refused 5, in a task", number == 5 && first < word(1)),
            ("program refused 5, in an event", number == 5 && first >= word(1)),
        ]);
    }

    fn unread(&mut self, line: &[u8], first: bool) {
        let hex = |digits: &[u8]| digits.iter().all(u8::is_ascii_hexdigit);
        let begins = |length: usize| line.len() > length && Right.call(&line[..length]).is_some();
        let (letter, digits) = line.split_first().map_or((0, line), |(letter, digits)| (*letter, digits));
        let small = [&[letter.to_ascii_lowercase()], digits].concat();
        self.add(&[
            ("unread: empty line", line.is_empty()),
            ("unread: CR", line.contains(&b'\r')),
            ("unread: space", line.contains(&b' ')),
            ("unread: capital letter", Right.call(&small).is_some()),
            ("unread: too long", (begins(1) || begins(6)) && line.iter().all(u8::is_ascii_alphanumeric)),
            ("unread: too short", letter == b'p' && digits.len() < 5 && hex(digits)),
            ("unread: no hex digit", letter == b'p' && digits.len() == 5 && !hex(digits)),
            ("unread: byte 0", line.contains(&0)),
            ("unread: byte 255", line.contains(&255)),
            ("unread: above 1000 bytes", line.len() > 1000),
            ("unread at call 1", first),
        ]);
    }

    fn cut(&mut self, Machine { store, device, .. }: &Machine, recovering: bool) {
        let (phase, log) = (if device.on { store[PHASE] } else { 0 }, store[6] as usize);
        let made = device.handler.map(|handler| handler.made);
        let work = device.handler.map(|handler| handler.work);
        let begun = device.on && store[PHASE] == 0 && store[BEGUN] == TASK_BEGUN;
        let waited_for = begun && store[OPEN] == 0 && store[HEAD] != store[TAIL];
        let copied = store[COUNT] == 0 || store[MEMORY + store[log] as usize] == store[log + 1];
        self.add(&[
            ("cut while off", !device.on),
            ("cut in a task's commit", phase == 1),
            ("cut in an event's commit", phase == 2),
            ("cut with memory not yet copied", phase != 0 && !copied),
            ("cut in the recovery from a cut", phase != 0 && recovering),
            ("cut before a post's first store", made == Some(0)),
            ("cut between a post's stores", matches!(made, Some(1..))),
            ("cut before a head store", work == Some(Work::Dropping)),
            ("cut after a head store", work == Some(Work::Replacing)),
            ("cut after a head store, before the tail's", work == Some(Work::Replacing) && made == Some(2)),
            ("cut with a task begun, a record waiting", waited_for),
            ("cut with an event begun", device.on && store[PHASE] == 0 && store[BEGUN] == EVENT_BEGUN),
            ("cut in half a SAVE", matches!(device.place, Place::HalfSave { .. })),
            ("cut between ending stores", matches!(device.place, Place::Running { ending, .. } if ending > 0)),
            ("cut inside an open transaction", device.on && store[PHASE] == 0 && store[OPEN] != 0),
        ]);
    }

    /// A line of the schedule, with the machine before it. `recovering` is whether a boot has come upon a commit that
    /// still goes on.
    fn line(&mut self, machine: &Machine, line: &[u8], recovering: &mut bool) {
        let phase = machine.store[PHASE];
        *recovering &= phase != 0;
        match Right.call(line) {
            None => self.unread(line, self.calls == 0),
            Some(Call::Boot) => {
                *recovering |= phase != 0 && !machine.device.on;
                let begun = phase == 0 && machine.store[BEGUN] != NOTHING_BEGUN;
                self.add(&[("boot that takes up a body", begun && !machine.device.on)]);
            }
            Some(Call::Cut) => {
                self.cut(machine, *recovering);
                *recovering = false;
            }
            Some(Call::Post { event, .. }) => {
                self.add(&[
                    ("post with capital digits", line.iter().any(u8::is_ascii_uppercase)),
                    ("post with small digits", line[1..].iter().any(u8::is_ascii_lowercase)),
                    ("post of an event above 9", event > 9),
                ]);
                self.post(machine, event);
            }
            Some(Call::Step) => self.step(machine),
            _ => {}
        }
    }

    /// A post to a full queue that drops nothing.
    fn post(&mut self, Machine { program, store, device, .. }: &Machine, event: u16) {
        let full = device.on && device.handler.is_none() && event < program[2] && room(store) == 0;
        self.add(&[
            ("call refused 21, an event begun", full && store[PHASE] == 0 && store[BEGUN] == EVENT_BEGUN),
            ("call refused 21, in an event's commit", full && store[PHASE] == 2),
        ]);
    }

    /// A step that accepts an event for a dropped one, which is in the slot after tail.
    fn step(&mut self, Machine { store, device, .. }: &Machine) {
        let last = |handler: Handler| handler.work == Work::Replacing && handler.made == 2;
        if !device.handler.is_some_and(last) {
            return;
        }
        let (event, datum) = record(store, after(store, store[TAIL]));
        let (phase, begun) = (store[PHASE], store[BEGUN]);
        self.add(&[
            ("dropped, nothing begun", phase == 0 && begun == NOTHING_BEGUN),
            ("dropped, a task begun", phase == 0 && begun == TASK_BEGUN),
            ("dropped in a task's commit", phase == 1),
            ("dropped, a transaction open", phase == 0 && store[OPEN] != 0),
            ("dropped, event 0", event == 0),
            ("dropped, another event", event != 0),
            ("dropped, an event above 9", event > 9),
            ("dropped, data above 9999", datum > 9999),
        ]);
    }

    /// A line of the sheet: the call's number and what it is about.
    fn printed(&mut self, line: &str) {
        let (number, rest) = line.split_once(' ').unwrap_or((line, ""));
        self.add(&[("call number above 65535", number.parse::<u64>().is_ok_and(|number| number > 65535))]);
        if let (Some(rest), true) = (rest.strip_prefix("refused "), number != "0") {
            let refused = rest.split(' ').next().unwrap_or("");
            self.add(&[(&format!("call refused {refused}"), true)]);
        }
    }
}

/// The right sheet of a case, and what came up in it.
pub fn counted(case: &Case) -> (Vec<u8>, Counts) {
    let (mut counts, mut recovering) = (Counts { cases: 1, ..Counts::default() }, false);
    let image = case.image_bytes();
    let mut tell = |machine: &Machine, line: &[u8]| {
        counts.line(machine, line, &mut recovering);
        counts.calls += 1;
    };
    let sheet = sheet_telling(&Right, &Reference, image, &case.schedule, &mut tell);
    counts.case(case);
    let program = Right.words(image);
    match Right.refused(&Reference, image, &program) {
        Some(refusal) => counts.program(&program, refusal),
        None => counts.add(&[("M of 1", program[3] == 1), ("M of 1024", program[3] == 1024)]),
    }
    let text = String::from_utf8_lossy(&sheet);
    for line in text.lines().skip(1) {
        counts.lines += 1;
        counts.printed(line);
    }
    let behind = Right.lines(&case.schedule).len() as u64 > counts.calls;
    counts.add(&[("unread with lines behind it", text.ends_with("unread\n") && behind)]);
    (sheet, counts)
}
