//! Question four's screens, from the reference and from implementations with one mistake each. What this prints is
//! the file ../crates/question_four/stdout, to which the proved program is held.
//!
//!     screens > ../crates/question_four/stdout
//!
//! A list of calls is written as text: b boot, s step, c cut, and a digit for the post of event 0 with this data.

use conformance::cases::COUNTING;
use conformance::mutants::{Mistake, Mutant};
use conformance::reference::*;
use conformance::runtime::*;

/// T0 adds 1 to word 0, T1 copies word 0 to word 1, both in transaction 1; T2 goes on to itself. The event saves
/// its data in word 0.
const TRANSACTION: [u16; 40] = [
    0xC0B1, 3, 1, 2, 0, 40, // contents
    18, 5, 1, 28, 3, 1, 34, 1, 0, // the tasks' rows
    36, 2, 0, // the event's row
    0x0800, 0, 0x0010, 1, 0x0201, 0, 0x0900, 0, 0x0F00, 1, // T0
    0x0800, 0, 0x0900, 1, 0x0F00, 2, // T1
    0x0F00, 2, // T2
    0x0900, 0, 0x1000, 0, // E0
];

const MNEMONICS: [&str; 17] = [
    "SET", "MOV", "ADD", "SUB", "AND", "OR", "XOR", "SHR", "LOAD", "SAVE", "LOADX", "SAVEX", "JUMP", "JZ", "JLT", "GO",
    "DONE",
];

// ---------------------------------------------------------------------------------------------------------
// A node: an implementation with a program, a store and a device

#[derive(Clone)]
struct Node<'a> {
    runtime: &'a dyn Runtime,
    program: &'a [u16],
    store: Vec<u16>,
    device: Device,
    steps: u32,
}

impl<'a> Node<'a> {
    /// A formatted store with L 1, and a device that is off.
    fn new(runtime: &'a dyn Runtime, program: &'a [u16], queue_records: u16) -> Node<'a> {
        let mut store = vec![0; store_length(program[3] as usize, 1, queue_records as usize)];
        assert_eq!(runtime.format(program, 1, queue_records, &mut store), Answer::Done);
        Node { runtime, program, store, device: Device::OFF, steps: 0 }
    }

    fn call(&mut self, call: char) -> StepAnswer {
        let (program, store, device) = (self.program, &mut self.store, &mut self.device);
        let answer = match call {
            'b' => self.runtime.boot(program, store, device),
            'c' => self.runtime.cut(device),
            's' => {
                self.steps += 1;
                return self.runtime.step(program, store, device, &mut Totals::default());
            }
            _ => self.runtime.post(program, store, device, 0, call.to_digit(10).expect("a call") as u16),
        };
        StepAnswer { answer, stored: None }
    }

    fn calls(&mut self, calls: &str) {
        for call in calls.chars() {
            self.call(call);
        }
    }

    /// A copy, cut, booted, and stepped while the phase isn't 0.
    fn recovered(&self) -> Node<'a> {
        let mut copy = Node { steps: 0, ..self.clone() };
        copy.calls("cb");
        while copy.store[PHASE] != 0 {
            copy.call('s');
        }
        copy
    }

    /// What a call runs.
    fn runs(&self, call: char) -> String {
        let (body, instruction) = match self.device.place {
            _ if call != 's' => return call_cell(call),
            _ if self.device.handler.is_some() => return "handler".into(),
            Place::NoBody { .. } if self.store[PHASE] != 0 => return "commit".into(),
            Place::NoBody { .. } => return "choose".into(),
            Place::Running { body, instruction, .. } | Place::HalfSave { body, instruction } => (body, instruction),
        };
        let number = match body {
            Body::Task(task) => task,
            Body::Event(event) => self.program[1] + event,
        };
        let start = self.program[6 + 3 * number as usize] + 2 * instruction;
        MNEMONICS[self.program[start as usize] as usize / 256].into()
    }
}

// ---------------------------------------------------------------------------------------------------------
// Cells

fn call_cell(call: char) -> String {
    match call {
        'b' => "boot".into(),
        'c' => "cut".into(),
        's' => "step".into(),
        _ => format!("post {call}"),
    }
}

fn number_cell(node: &Node, call: char) -> String {
    if call == 's' {
        node.steps.to_string()
    } else {
        String::new()
    }
}

fn body_cell(body: Body) -> String {
    match body {
        Body::Task(task) => format!("T{task}"),
        Body::Event(event) => format!("E{event}"),
    }
}

fn answer_cell(answer: Answer) -> String {
    match answer {
        Answer::Chosen(body) => format!("chosen {}", body_cell(body)),
        Answer::Committed(body) => format!("committed {}", body_cell(body)),
        Answer::Refused(refusal) => format!("refused {}", refusal.number),
        Answer::Accepted(_) => "accepted".into(),
        other => format!("{other:?}").to_lowercase(),
    }
}

/// The name of a word of the store. Word 12 is a commit's pending task, or in an event its pending head.
fn name(node: &Node, index: usize, event: bool) -> String {
    let part = |word: usize| index - node.store[word] as usize;
    match index {
        PHASE => "phase".into(),
        TASK => "current task".into(),
        OPEN => "open number".into(),
        COUNT => "count".into(),
        PENDING => if event { "pending head" } else { "pending task" }.into(),
        PENDING_OPEN => "pending open".into(),
        HEAD => "head".into(),
        TAIL => "tail".into(),
        BEGUN => "begun".into(),
        _ if index < node.store[6] as usize => format!("memory {}", part(5)),
        _ if index < node.store[7] as usize => if part(6) % 2 == 0 { "log address" } else { "log value" }.into(),
        _ => format!("slot {} {}", part(7) / 2, if part(7) % 2 == 0 { "event" } else { "data" }),
    }
}

fn stored_cell(node: &Node, stored: Option<u16>) -> String {
    let Some(index) = stored.map(usize::from) else { return "-".into() };
    let event = matches!(node.device.place, Place::Running { body: Body::Event(_), .. });
    format!("{index:>2} {:<12} {:04X}", name(node, index, event), node.store[index])
}

fn memory_cell(node: &Node) -> String {
    format!("{:04X} {:04X}", node.store[MEMORY], node.store[MEMORY + 1])
}

fn waiting_cell(node: &Node) -> String {
    let (store, mut slot, mut records) = (&node.store, node.store[HEAD], Vec::new());
    while slot != store[TAIL] {
        let at = (store[7] + 2 * slot) as usize;
        records.push(format!("E{} {:04X}", store[at], store[at + 1]));
        slot = (slot + 1) % (store[3] + 1);
    }
    if records.is_empty() {
        return "none".into();
    }
    records.join(" ")
}

// ---------------------------------------------------------------------------------------------------------
// One run, cut at each point

/// The body that runs after recovery: the one that the boot took up, or that is chosen then.
fn next_cell(recovered: &Node) -> String {
    if let Place::Running { body, .. } = recovered.device.place {
        return body_cell(body);
    }
    match recovered.clone().call('s').answer {
        Answer::Chosen(body) => body_cell(body),
        _ => "-".into(),
    }
}

fn row(node: &mut Node, call: char) {
    let runs = node.runs(call);
    let made = node.call(call);
    let recovered = node.recovered();
    println!(
        "{:>2} {:<7} {:<12} {:<20} {:>2} {:>2}  {:>5} {} {:<7} {}",
        number_cell(node, call),
        runs,
        answer_cell(made.answer),
        stored_cell(node, made.stored),
        node.store[PHASE],
        node.store[OPEN],
        recovered.steps,
        memory_cell(&recovered),
        waiting_cell(&recovered),
        next_cell(&recovered),
    );
}

fn table(program: &[u16], before: &str, calls: &str) {
    let mut node = Node::new(&Reference, program, 1);
    node.calls(before);
    if !before.is_empty() {
        println!("Before the first row: {}.", listed(before));
    }
    println!("                                                    uncut recovery would leave");
    println!(" # runs    answers      stores               ph op  steps memory    waiting next");
    for call in calls.chars() {
        row(&mut node, call);
    }
}

// ---------------------------------------------------------------------------------------------------------
// The right run beside a mistaken one

/// Adding one to head, at a commit's head store and its redoing: word 12 isn't looked at. The mutant of this
/// name stops at refusal 7, since word 12 then disagrees with head.
struct HeadPlusOne;

impl Runtime for HeadPlusOne {
    fn check(&self, program: &[u16]) -> Answer {
        Reference.check(program)
    }

    fn format(&self, program: &[u16], log_pairs: u16, queue_records: u16, store: &mut [u16]) -> Answer {
        Reference.format(program, log_pairs, queue_records, store)
    }

    fn boot(&self, program: &[u16], store: &mut [u16], device: &mut Device) -> Answer {
        Reference.boot(program, store, device)
    }

    fn step(&self, program: &[u16], store: &mut [u16], device: &mut Device, totals: &mut Totals) -> StepAnswer {
        let pending = store[PENDING];
        if store[PHASE] != 2 {
            return Reference.step(program, store, device, totals);
        }
        store[PENDING] = store[HEAD];
        if store[HEAD] != store[TAIL] {
            store[PENDING] = (store[HEAD] + 1) % (store[3] + 1);
        }
        let made = Reference.step(program, store, device, totals);
        store[PENDING] = pending;
        made
    }

    fn burst(
        &self,
        program: &[u16],
        store: &mut [u16],
        device: &mut Device,
        count: u16,
        words: &BurstWords,
    ) -> Answer {
        Reference.burst(program, store, device, count, words)
    }

    fn cut(&self, device: &mut Device) -> Answer {
        Reference.cut(device)
    }

    fn run(
        &self,
        program: &[u16],
        store: &mut [u16],
        device: &mut Device,
        totals: &mut Totals,
        budget: u32,
    ) -> RunAnswer {
        Reference.run(program, store, device, totals, budget)
    }

    fn lines_check(&self, table: &[u16]) -> Answer {
        Reference.lines_check(table)
    }

    fn raise(
        &self,
        program: &[u16],
        store: &mut [u16],
        device: &mut Device,
        table: &[u16],
        line: u16,
        level: u16,
    ) -> Answer {
        Reference.raise(program, store, device, table, line, level)
    }
}

/// A list of calls in words.
fn listed(calls: &str) -> String {
    let (mut items, mut steps) = (Vec::new(), 0);
    for (at, call) in calls.char_indices() {
        if call != 's' {
            items.push(call_cell(call));
            continue;
        }
        steps += 1;
        if !calls[at + 1..].starts_with('s') {
            items.push(format!("{steps} step{}", if steps == 1 { "" } else { "s" }));
            steps = 0;
        }
    }
    items.join(", ")
}

/// A line with a cell of each run, parted by a bar where they differ.
fn beside(label: &str, right: &str, mistaken: &str) {
    println!("{label:<9} {right:<33} {} {mistaken}", if right == mistaken { ' ' } else { '|' });
}

fn performed(node: &mut Node, call: char) -> String {
    let made = node.call(call);
    format!("{:<12} {}", answer_cell(made.answer), stored_cell(node, made.stored))
}

/// Calls before the first row, in rows, and behind the last.
fn runs_beside(mistaken: &dyn Runtime, program: &[u16], queue_records: u16, [before, shown, behind]: [&str; 3]) {
    let mut right = Node::new(&Reference, program, queue_records);
    let mut mistaken = Node::new(mistaken, program, queue_records);
    right.calls(before);
    mistaken.calls(before);
    println!("Before the first row: {}.", listed(before));
    println!("          right                               mistaken");
    println!(" # call   answers      stores                 answers      stores");
    for call in shown.chars() {
        let cells = [performed(&mut right, call), performed(&mut mistaken, call)];
        beside(&format!("{:>2} {}", number_cell(&right, call), call_cell(call)), &cells[0], &cells[1]);
    }
    right.calls(behind);
    mistaken.calls(behind);
    if behind.is_empty() {
        println!("Afterwards:");
    } else {
        println!("Afterwards, {} on:", listed(behind));
    }
    beside("memory", &memory_cell(&right), &memory_cell(&mistaken));
    beside("head", &right.store[HEAD].to_string(), &mistaken.store[HEAD].to_string());
    beside("waiting", &waiting_cell(&right), &waiting_cell(&mistaken));
}

// ---------------------------------------------------------------------------------------------------------
// The screens

const LEGEND: &str = "\
Question four: power is cut after any call. What is left?

A row is a call. #: the steps so far. runs: an instruction, or choose, commit,
handler. stores: the word's index, name and new value. ph, op: phase and open
number after the call. If power is cut then, uncut recovery takes so many steps
and leaves this memory and this record waiting; next is the body that runs
then. T0 is task 0, E0 event 0; post 7 posts event 0 with data 7. Words are in
hex, other numbers in decimal. L is 1; Q is 1, in screen 8 it is 2.";

/// So many steps.
fn steps(count: usize) -> String {
    "s".repeat(count)
}

fn runs_cut() {
    println!("\n1. A task of the counting program");
    table(&COUNTING, "", &format!("b{}", steps(15)));
    println!("\n2. An event of the counting program");
    table(&COUNTING, "", &format!("b7{}", steps(13)));
    println!("\n3. An event posted inside a transaction runs after it, cut or no cut");
    println!("T0 adds 1 to word 0 and T1 copies word 0 to word 1, both in transaction 1; T2");
    println!("goes on to itself. The event saves its data in word 0.");
    table(&TRANSACTION, "bsssssssss", &format!("ssssss7{}", steps(26)));
    println!("\n4. An event accepted while a task is begun runs after it, cut or no cut");
    table(&COUNTING, "", &format!("bs7ssscb{}", steps(15)));
    println!("\n5. A cut in the recovery from a cut: copying starts again at the first pair");
    table(&COUNTING, "bsssssssss", "scbsscbsssss");
    println!("\n6. Cuts among a post's three stores: after one, after two, after all");
    table(&COUNTING, "", "b7scb8sscb9ssscbs");
    println!("\n7. A post to a full queue drops the oldest record: cuts among its four stores");
    table(&COUNTING, "b7sss", "8scb7sss8ssscb7sss8ssss");
}

/// The blackboard's mistakes.
fn mistakes() {
    println!("\nFive mistakes, each beside the right run. A bar stands where they differ.");
    println!("\n8. Redoing an event's commit by adding one to head: two records go");
    runs_beside(&HeadPlusOne, &COUNTING, 2, ["b7sss8ssssssss", "ssscbsssss", ""]);
    println!("\n9. Storing tail before data: a cut accepts a stale record");
    let before = format!("b7{}8{}", steps(13), steps(13));
    runs_beside(&Mutant(Mistake::TailBeforeDatum), &COUNTING, 1, [&before, "9sscbs", &steps(9)]);
    println!("\n10. Clearing the phase before word 9: the task runs again (screen 3's program)");
    let calls = ["bsssssssss", "ssscbsss", &steps(24)];
    runs_beside(&Mutant(Mistake::PhaseBeforeTask), &TRANSACTION, 1, calls);
    println!("\n11. Taking the log count at recovery from lost state, not word 11");
    runs_beside(&Mutant(Mistake::CountFromLostState), &COUNTING, 1, ["bsssssssss", "scbsssss", ""]);
    println!("\n12. Serving an event after a cut in an open transaction (screen 3's program)");
    let calls = [&format!("b{}", steps(15)), "7ssscbs", &steps(22)];
    runs_beside(&Mutant(Mistake::EventInOpenTransaction), &TRANSACTION, 1, calls);
}

fn main() {
    println!("{LEGEND}");
    runs_cut();
    mistakes();
}
