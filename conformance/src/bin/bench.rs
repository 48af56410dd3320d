//! How fast the library is beside the reference: the same machine, the same input, one after the other in rounds.
//! Prints Markdown.
//!
//!     bench [--rounds N] [--milliseconds N]   at least 9 rounds; about so long for each side in a round
//!     bench --instructions                    instructions a step, counted by valgrind, which has to be on the machine
//!
//! In a round the sides take turns ten times, and the best time of each counts, so that other work on the machine
//! disturbs less. Each measurement starts from a formatted store and a booted device and makes the same calls on both sides; what both
//! leave is compared. The library is called as a host calls it, on flat words; the reference on its own values, inlined.
//!
//! Of line tables the library alone is measured: the reference counts every level. Built without the feature `lines`, for
//! an archive from before request N3, there is nothing of them.
//!
//! Built without the feature `bursts`, for an archive from before request N6, there is no row of bursts. Such a library reads
//! and writes 18 of the 26 words that it is lent as a device; where no handler is at work the others are 0.
//!
//! With BENCH_LAYOUT=18 in the environment the library is one from before request N4: its store has a word less, a commit
//! takes a step less, and what the sides leave isn't compared.

use conformance::cases::COUNTING;
use conformance::foreign::{Functions, STEP_WORDS};
use conformance::library::FUNCTIONS;
use conformance::standin;
use conformance::reference::*;
use conformance::runtime::*;
use std::hint::black_box;
use std::process::{exit, Command};
use std::time::Instant;

// ---------------------------------------------------------------------------------------------------------
// The two sides

/// Store, device and totals.
type Left = (Vec<u16>, [u16; DEVICE_WORDS], [u32; 3]);

/// Whether the library's stores are of 18 + M + 2L + 2Q words.
fn before_n4() -> bool {
    use std::sync::OnceLock;
    static LAYOUT: OnceLock<bool> = OnceLock::new();
    *LAYOUT.get_or_init(|| match std::env::var("BENCH_LAYOUT").as_deref() {
        Ok("18") => true,
        Ok("19") | Err(_) => false,
        _ => usage(),
    })
}

trait Side<'a> {
    /// Whether it may be a library from before request N4.
    const LIBRARY: bool;
    /// Formatted and booted.
    fn new(load: &'a Load) -> Self;
    fn step(&mut self);
    /// A run, all of whose budget is spent.
    fn run(&mut self, budget: u32);
    fn post(&mut self, event: u16, datum: u16);
    fn burst(&mut self, count: u16, words: &BurstWords);
    fn store(&mut self) -> &mut [u16];
    fn left(self) -> Left;
}

/// C functions on words: the library's, or those with the reference behind them.
struct Words<'a, const REFERENCE: bool> {
    functions: Functions,
    program: &'a [u16],
    store: Vec<u16>,
    device: [u16; DEVICE_WORDS],
    totals: [u32; 3],
    answer: [u16; STEP_WORDS],
}

struct Rust<'a> {
    program: &'a [u16],
    store: Vec<u16>,
    device: Device,
    totals: Totals,
}

/// A program with the sizes of its store, and what is done with it over and over.
struct Load {
    name: String,
    program: Vec<u16>,
    log_pairs: u16,
    queue_records: u16,
    /// In one turn: so many posts, or bursts of so many events, each with its steps, then so many steps with so many
    /// commits.
    posts: u32,
    burst: u16,
    steps: u32,
    commits: u32,
    /// Whether the queue is emptied after each post, by its tail.
    emptied: bool,
}

impl Load {
    fn store_words(&self, library: bool) -> usize {
        let words = store_length(self.program[3] as usize, self.log_pairs as usize, self.queue_records as usize);
        words - (library && before_n4()) as usize
    }

    /// The steps after the posts.
    fn steps(&self, library: bool) -> u32 {
        self.steps - if library && before_n4() { self.commits } else { 0 }
    }

    /// The steps of one post or burst: each event and its data, then tail.
    fn steps_of_a_post(&self) -> u32 {
        2 * self.burst as u32 + 1
    }

    fn steps_in_a_turn(&self, library: bool) -> u64 {
        self.steps_of_a_post() as u64 * self.posts as u64 + self.steps(library) as u64
    }
}

impl<'a, const REFERENCE: bool> Words<'a, REFERENCE> {
    /// With a formatted store, and off.
    fn formatted(load: &'a Load) -> Self {
        let mut side = Words {
            functions: black_box(if REFERENCE { standin::FUNCTIONS } else { FUNCTIONS }),
            program: &load.program,
            store: vec![0; load.store_words(!REFERENCE)],
            device: [0; DEVICE_WORDS],
            totals: [0; 3],
            answer: [0; STEP_WORDS],
        };
        let (program, store) = (side.program, &mut side.store);
        // Safety, here and below: pointers and lengths are those of slices and arrays that live through the call.
        unsafe {
            (side.functions.format)(
                program.as_ptr(),
                program.len(),
                load.log_pairs,
                load.queue_records,
                store.as_mut_ptr(),
                store.len(),
                side.answer.as_mut_ptr(),
            )
        };
        assert_eq!(side.answer, [0; STEP_WORDS], "{}", load.name);
        side
    }
}

impl<'a, const REFERENCE: bool> Side<'a> for Words<'a, REFERENCE> {
    const LIBRARY: bool = !REFERENCE;

    fn new(load: &'a Load) -> Self {
        let mut side = Self::formatted(load);
        let (program, store) = (side.program, &mut side.store);
        unsafe {
            (side.functions.boot)(
                program.as_ptr(),
                program.len(),
                store.as_mut_ptr(),
                store.len(),
                side.device.as_mut_ptr(),
                side.answer.as_mut_ptr(),
            )
        };
        assert_eq!(side.answer, [0; STEP_WORDS]);
        side
    }

    fn step(&mut self) {
        let program = black_box(self.program);
        unsafe {
            (self.functions.step)(
                program.as_ptr(),
                program.len(),
                self.store.as_mut_ptr(),
                self.store.len(),
                self.device.as_mut_ptr(),
                self.totals.as_mut_ptr(),
                self.answer.as_mut_ptr(),
            )
        };
        assert!(black_box(self.answer)[0] < 6);
    }

    fn run(&mut self, budget: u32) {
        let program = black_box(self.program);
        let steps = unsafe {
            (self.functions.run)(
                program.as_ptr(),
                program.len(),
                self.store.as_mut_ptr(),
                self.store.len(),
                self.device.as_mut_ptr(),
                self.totals.as_mut_ptr(),
                black_box(budget),
                self.answer.as_mut_ptr(),
            )
        };
        assert_eq!((steps, black_box(self.answer)[0]), (budget, 7));
    }

    fn post(&mut self, event: u16, datum: u16) {
        let program = black_box(self.program);
        unsafe {
            (self.functions.post)(
                program.as_ptr(),
                program.len(),
                self.store.as_mut_ptr(),
                self.store.len(),
                self.device.as_mut_ptr(),
                black_box(event),
                black_box(datum),
                self.answer.as_mut_ptr(),
            )
        };
        assert_eq!(black_box(self.answer)[0], 0);
    }

    fn burst(&mut self, count: u16, words: &BurstWords) {
        let (program, words) = (black_box(self.program), black_box(words));
        unsafe {
            (self.functions.burst)(
                program.as_ptr(),
                program.len(),
                self.store.as_mut_ptr(),
                self.store.len(),
                self.device.as_mut_ptr(),
                black_box(count),
                words.as_ptr(),
                self.answer.as_mut_ptr(),
            )
        };
        assert_eq!(black_box(self.answer)[0], 0);
    }

    fn store(&mut self) -> &mut [u16] {
        &mut self.store
    }

    fn left(self) -> Left {
        (self.store, self.device, self.totals)
    }
}

impl<'a> Side<'a> for Rust<'a> {
    const LIBRARY: bool = false;

    fn new(load: &'a Load) -> Self {
        let mut side = Rust {
            program: &load.program,
            store: vec![0; load.store_words(false)],
            device: Device::OFF,
            totals: Totals::default(),
        };
        let formatted = Reference.format(side.program, load.log_pairs, load.queue_records, &mut side.store);
        assert_eq!(formatted, Answer::Done, "{}", load.name);
        assert_eq!(Reference.boot(side.program, &mut side.store, &mut side.device), Answer::Done);
        side
    }

    fn step(&mut self) {
        let program = black_box(self.program);
        let step = Reference.step(program, &mut self.store, &mut self.device, &mut self.totals);
        assert!(!matches!(black_box(step).answer, Answer::Refused(_)));
    }

    fn run(&mut self, budget: u32) {
        let program = black_box(self.program);
        let answer =
            Reference.run(program, &mut self.store, &mut self.device, &mut self.totals, black_box(budget));
        assert_eq!(black_box(answer), RunAnswer { steps: budget, end: End::Spent });
    }

    fn post(&mut self, event: u16, datum: u16) {
        let program = black_box(self.program);
        let answer =
            Reference.post(program, &mut self.store, &mut self.device, black_box(event), black_box(datum));
        assert_eq!(black_box(answer), Answer::Done);
    }

    fn burst(&mut self, count: u16, words: &BurstWords) {
        let (program, words) = (black_box(self.program), black_box(words));
        let answer = Reference.burst(program, &mut self.store, &mut self.device, black_box(count), words);
        assert_eq!(black_box(answer), Answer::Done);
    }

    fn store(&mut self) -> &mut [u16] {
        &mut self.store
    }

    fn left(self) -> Left {
        let Totals { committed, accepted, stores } = self.totals;
        (self.store, self.device.to_words(), [committed, accepted, stores])
    }
}

// ---------------------------------------------------------------------------------------------------------
// Measuring

#[derive(Clone, Copy, PartialEq)]
enum How {
    Run,
    Step,
    /// A step, the reference through C functions and words, too.
    Call,
}

fn turn<'a, S: Side<'a>>(side: &mut S, load: &Load, how: How) {
    for number in 0..load.posts as u16 {
        match load.burst {
            1 => side.post(0, number),
            count => side.burst(count, &[0, number, 0, 1, 0, 2, 0, 3]),
        }
        steps(side, load.steps_of_a_post(), how);
        if load.emptied {
            let store = black_box(side.store());
            store[TAIL] = store[HEAD];
        }
    }
    if load.steps > 0 {
        steps(side, load.steps(S::LIBRARY), how);
    }
}

fn steps<'a, S: Side<'a>>(side: &mut S, count: u32, how: How) {
    match how {
        How::Run => side.run(count),
        How::Step | How::Call => (0..count).for_each(|_| side.step()),
    }
}

/// So many turns: seconds for a step, and what is left.
fn measure<'a, S: Side<'a>>(load: &'a Load, how: How, turns: u64) -> (f64, Left) {
    let mut side = S::new(load);
    turn(&mut side, load, how);
    let start = Instant::now();
    for _ in 0..turns {
        turn(&mut side, load, how);
    }
    let seconds = start.elapsed().as_secs_f64();
    (seconds / (turns * load.steps_in_a_turn(S::LIBRARY)) as f64, side.left())
}

/// Seconds for a step of each side, by rounds.
struct Measured {
    library: Vec<f64>,
    reference: Vec<f64>,
}

/// How often the sides take turns in a round.
const TURNS: u32 = 10;

/// All loads in rounds, the sides in turns.
fn rounds(loads: &[(&Load, How)], rounds: usize, milliseconds: u64) -> Vec<Measured> {
    let mut turns = Vec::new();
    for (load, how) in loads {
        let steps = load.steps_in_a_turn(false);
        let (seconds, _) = measure::<Rust>(load, *how, 1 + 20_000 / steps);
        let wanted = milliseconds as f64 / 1000.0 / TURNS as f64 / (seconds * steps as f64);
        turns.push(1 + wanted as u64);
    }
    let mut measured: Vec<Measured> =
        loads.iter().map(|_| Measured { library: Vec::new(), reference: Vec::new() }).collect();
    for _ in 0..rounds {
        for (index, (load, how)) in loads.iter().enumerate() {
            let (mut library, mut reference) = (f64::INFINITY, f64::INFINITY);
            for _ in 0..TURNS {
                let (seconds, left) = measure::<Words<false>>(load, *how, turns[index]);
                let (other_seconds, other_left) = match how {
                    How::Call => measure::<Words<true>>(load, *how, turns[index]),
                    _ => measure::<Rust>(load, *how, turns[index]),
                };
                assert!(before_n4() || left == other_left, "{}: the sides leave different words", load.name);
                library = library.min(seconds);
                reference = reference.min(other_seconds);
            }
            measured[index].library.push(library);
            measured[index].reference.push(reference);
        }
    }
    measured
}

/// Least, middle and largest.
fn spread(mut values: Vec<f64>) -> [f64; 3] {
    values.sort_by(|a, b| a.total_cmp(b));
    [values[0], values[values.len() / 2], values[values.len() - 1]]
}

// ---------------------------------------------------------------------------------------------------------
// Loads

fn code(opcode: u16, a: u16, b: u16, k: u16) -> [u16; 2] {
    [opcode * 256 + a * 16 + b, k]
}

/// A program: tasks with their transaction numbers, then events.
fn program(memory: u16, tasks: &[(u16, Vec<[u16; 2]>)], events: &[Vec<[u16; 2]>]) -> Vec<u16> {
    let bodies: Vec<(u16, &Vec<[u16; 2]>)> =
        tasks.iter().map(|(number, body)| (*number, body)).chain(events.iter().map(|body| (0, body))).collect();
    let mut words = vec![PROGRAM_MARK, tasks.len() as u16, events.len() as u16, memory, 0, 0];
    let mut start = 6 + 3 * bodies.len();
    for (number, body) in &bodies {
        words.extend([start as u16, body.len() as u16, *number]);
        start += 2 * body.len();
    }
    for (_, body) in &bodies {
        words.extend(body.iter().flatten());
    }
    words[5] = words.len() as u16;
    assert_eq!(Reference.check(&words), Answer::Done);
    words
}

/// The counting program's task.
fn counting(task: u16) -> Vec<[u16; 2]> {
    vec![code(LOAD, 0, 0, 0), code(SET, 1, 0, 1), code(ADD, 0, 1, 0), code(SAVE, 0, 0, 0), code(GO, 0, 0, task)]
}

/// The counting program's task as the last of so many tasks and events, each body of so many instructions.
fn counting_inside(tasks: u16, events: u16, instructions: usize, memory: u16) -> Vec<u16> {
    let last = tasks - 1;
    let padded = |mut body: Vec<[u16; 2]>, with: [u16; 2]| {
        body.resize(instructions.max(body.len()), with);
        body
    };
    let task = |number: u16| (0, padded(counting(number), code(GO, 0, 0, last)));
    let tasks: Vec<(u16, Vec<[u16; 2]>)> = (0..tasks).map(task).collect();
    let event = padded(vec![code(SAVE, 0, 0, 1)], code(DONE, 0, 0, 0));
    let events = vec![event; events as usize];
    let mut words = program(memory, &tasks, &events);
    words[4] = last;
    words
}

/// A turn is so many posts, and then a number of bodies of so many steps each.
fn load(name: &str, program: Vec<u16>, sizes: (u16, u16), posts: u32, [steps, bodies]: [u32; 2]) -> Load {
    let ((log_pairs, queue_records), name, steps, commits) = (sizes, name.into(), steps * bodies, bodies);
    Load { name, program, log_pairs, queue_records, posts, burst: 1, steps, commits, emptied: false }
}

/// Posts of one event, and bursts of four where the library has them, each with its steps and nothing else.
fn handler_loads() -> Vec<Load> {
    let post = || load("a post and its three steps", COUNTING.to_vec(), (1, 4), 1000, [0, 0]);
    let mut loads = vec![Load { emptied: true, ..post() }];
    if cfg!(feature = "bursts") {
        let name = "a burst of four and its nine steps".into();
        loads.push(Load { name, burst: 4, emptied: true, ..post() });
    }
    loads
}

/// A task that counts: chosen, LOAD, SET, ADD, SAVE of two steps, four stores, one copy, four stores.
const COUNTS: [u32; 2] = [15, 1000];

fn loads() -> Vec<Load> {
    let arithmetic = vec![
        code(SET, 1, 0, 12345),
        code(SET, 2, 0, 3),
        code(ADD, 0, 1, 0),
        code(SUB, 1, 2, 0),
        code(XOR, 3, 0, 0),
        code(AND, 4, 3, 0),
        code(OR, 4, 1, 0),
        code(SHR, 3, 0, 3),
        code(MOV, 5, 3, 0),
        code(JLT, 5, 4, 11),
        code(JZ, 6, 0, 2),
        code(JUMP, 0, 0, 2),
    ];
    let mut full = Vec::new();
    for opcode in [SAVE, LOAD, SAVE] {
        full.extend((0..64).map(|address| code(opcode, 1, 0, address)));
    }
    full.push(code(GO, 0, 0, 0));
    let count = |next: u16, word: u16| {
        vec![code(LOAD, 0, 0, word), code(SET, 1, 0, 1), code(ADD, 0, 1, 0), code(SAVE, 0, 0, word), code(GO, 0, 0, next)]
    };
    let event = vec![code(LOAD, 1, 0, 1), code(ADD, 1, 0, 0), code(SAVE, 1, 0, 1), code(DONE, 0, 0, 0)];
    let transactions = [(7, count(1, 0)), (7, count(2, 1)), (7, count(3, 2)), (0, count(0, 3))];
    let loads = vec![
        load("the counting program", COUNTING.to_vec(), (1, 1), 0, COUNTS),
        // The loop never ends.
        Load {
            steps: 15_000,
            ..load("arithmetic in a loop", program(1, &[(0, arithmetic)], &[]), (1, 1), 0, [0, 0])
        },
        // Chosen, 64 SAVEs of two steps, 64 LOADs, 64 SAVEs of one, four stores, 64 copies, four stores.
        load("a full log of 64 pairs", program(64, &[(0, full)], &[]), (64, 1), 0, [329, 40]),
        // Chosen, LOAD, ADD, SAVE of two steps, three stores, one copy, three stores.
        load("32 events queued and served", program(2, &[(0, counting(0))], &[event]), (1, 32), 32, [12, 32]),
        load("transactions of three tasks", program(4, &transactions, &[]), (1, 1), 0, COUNTS),
    ];
    loads.into_iter().chain(handler_loads()).collect()
}

/// Programs of 26 to 24,726 words, stores of 25 to 1,235.
fn flat_loads() -> Vec<Load> {
    let inside = |tasks: u16, events: u16, instructions: usize, memory: u16, sizes: (u16, u16)| {
        load("", counting_inside(tasks, events, instructions, memory), sizes, 0, COUNTS)
    };
    let mut loads = vec![load("", COUNTING.to_vec(), (1, 1), 0, COUNTS)];
    for (tasks, events, instructions) in [(2, 1, 14), (8, 4, 40), (16, 8, 100), (32, 16, 128), (32, 16, 256)] {
        loads.push(inside(tasks, events, instructions, 2, (1, 1)));
    }
    for (memory, sizes) in [(64, (8, 8)), (256, (32, 16)), (1024, (64, 32))] {
        let mut words = COUNTING.to_vec();
        words[3] = memory;
        loads.push(load("", words, sizes, 0, COUNTS));
    }
    loads.push(inside(32, 16, 256, 1024, (64, 32)));
    loads
}

// ---------------------------------------------------------------------------------------------------------
// Counting instructions

/// A side by its name on the command line.
const SIDES: [&str; 2] = ["library", "reference"];

/// A call by its name on the command line.
const CALLS: [(&str, How); 3] = [("run", How::Run), ("call", How::Call), ("step", How::Step)];

/// All inputs that are counted: those of the speed, then those of the flatness.
fn counted_loads() -> Vec<Load> {
    loads().into_iter().chain(flat_loads()).collect()
}

/// So many turns of one input on one side, and nothing else: what `count` lets valgrind look at.
fn turns_alone(words: &[String]) {
    let [input, call, side, turns] = words else { usage() };
    let all = counted_loads();
    let load = input.parse().ok().and_then(|input: usize| all.get(input)).unwrap_or_else(|| usage());
    let how = CALLS.iter().find(|(name, _)| name == call).unwrap_or_else(|| usage()).1;
    let turns = turns.parse().unwrap_or_else(|_| usage());
    let left = match (side.as_str(), how) {
        ("library", _) => measure::<Words<false>>(load, how, turns).1,
        ("reference", How::Call) => measure::<Words<true>>(load, how, turns).1,
        _ => measure::<Rust>(load, how, turns).1,
    };
    black_box(left);
}

/// The instructions of this program with these words on its command line, as valgrind counts them.
fn count(words: &[&str]) -> u64 {
    let this = std::env::current_exe().expect("this program has a path");
    let output = Command::new("valgrind")
        .args(["--tool=callgrind", "--callgrind-out-file=/dev/null"])
        .arg(this)
        .args(words)
        .output()
        .unwrap_or_else(|error| panic!("valgrind: {error}"));
    let said = String::from_utf8_lossy(&output.stderr);
    assert!(output.status.success(), "{said}");
    let line = said.lines().find_map(|line| line.split("Collected : ").nth(1));
    line.and_then(|number| number.trim().parse().ok()).unwrap_or_else(|| panic!("valgrind tells no count: {said}"))
}

/// Instructions a step: what two more turns take, so that the start and the end of the program drop out.
fn instructions(input: usize, load: &Load, call: &str, side: &str) -> f64 {
    let input = input.to_string();
    let [less, more] = ["1", "3"].map(|turns| count(&["--turns", &input, call, side, turns]));
    (more - less) as f64 / (2 * load.steps_in_a_turn(side == SIDES[0])) as f64
}

fn print_instructions() {
    println!("## Instructions a step\n");
    println!("Counted by callgrind; reference/library, above 1 the library takes fewer.\n");
    println!("| Input | Call | Library | Reference | Ratio |");
    println!("|---|---|---:|---:|---:|");
    let all = counted_loads();
    let (speed, flat) = all.split_at(loads().len());
    for (input, load) in speed.iter().enumerate() {
        for (call, how) in CALLS {
            let [library, reference] = SIDES.map(|side| instructions(input, load, call, side));
            let ratio = reference / library;
            println!("| {} | {} | {library:.1} | {reference:.1} | {ratio:.2} |", load.name, call_name(how));
        }
    }
    println!("\nThe counting program's step by `run`, inside larger programs and stores.\n");
    println!("| Program words | Store words | Library | Reference |");
    println!("|---:|---:|---:|---:|");
    for (input, load) in flat.iter().enumerate() {
        let [library, reference] = SIDES.map(|side| instructions(speed.len() + input, load, "run", side));
        println!("| {} | {} | {library:.1} | {reference:.1} |", load.program.len(), load.store_words(true));
    }
    if cfg!(feature = "lines") {
        print_lines_instructions();
    }
}

// ---------------------------------------------------------------------------------------------------------
// Line tables

/// A line table, and the level of a line that is raised: one of the last row's.
struct Lines {
    name: &'static str,
    table: Vec<u16>,
    line: u16,
    level: u16,
}

#[derive(Clone, Copy, PartialEq)]
enum LinesCall {
    Check,
    Raise,
}

/// A call by its name on the command line and in the tables.
const LINES_CALLS: [(&str, LinesCall); 2] = [("lines_check", LinesCall::Check), ("raise", LinesCall::Raise)];

/// So many lines with so many bands each: the rows in order, line by line, or with a stride in an order that neither
/// rises nor falls.
fn bands(name: &'static str, lines: u16, bands: u16, stride: u16) -> Lines {
    let count = lines * bands;
    let wide = (65536 / bands as u32) as u16;
    let row = |number: u16| {
        let (line, band) = (number / bands, number % bands);
        [line, band * wide, (band * wide).wrapping_add(wide).wrapping_sub(1), 0]
    };
    let table: Vec<u16> = (0..count).flat_map(|number| row(number * stride % count)).collect();
    with_last_row(name, table)
}

fn with_last_row(name: &'static str, table: Vec<u16>) -> Lines {
    assert_eq!(Reference.lines_check(&table), Answer::Done, "{name}");
    let [line, low, _, _] = table[table.len() - 4..] else { unreachable!("a row has four words") };
    Lines { name, table, line, level: low }
}

fn lines_loads() -> Vec<Lines> {
    let few = vec![5, 0, 99, 0, 5, 100, 65535, 0, 9, 0, 65535, 0];
    let mixed = [&few[4..], &few[..4]].concat();
    vec![
        with_last_row("3 rows over 2 lines, in order", few),
        with_last_row("3 rows over 2 lines, mixed", mixed),
        bands("64 rows over one line, in order", 1, 64, 1),
        bands("64 rows over one line, mixed", 1, 64, 37),
        bands("64 rows over 16 lines, in order", 16, 4, 1),
        bands("64 rows over 16 lines, mixed", 16, 4, 37),
    ]
}

/// The counting program's node, on. After a raise the device is put back as it was, so that each raise posts.
fn lines_calls(load: &Lines, call: LinesCall, calls: u64) {
    let node = self::load("", COUNTING.to_vec(), (1, 1), 0, COUNTS);
    let mut side = Words::<false> { device: Device::ON.to_words(), ..Words::formatted(&node) };
    for _ in 0..calls {
        match call {
            LinesCall::Check => side.lines_check(load),
            LinesCall::Raise => side.raise(load),
        }
        assert_eq!(black_box(side.answer)[0], 0);
    }
}

impl Words<'_, false> {
    fn lines_check(&mut self, load: &Lines) {
        let table = black_box(&load.table[..]);
        unsafe { (self.functions.lines_check)(table.as_ptr(), table.len(), self.answer.as_mut_ptr()) };
    }

    fn raise(&mut self, load: &Lines) {
        let table = black_box(&load.table[..]);
        unsafe {
            (self.functions.raise)(
                self.program.as_ptr(),
                self.program.len(),
                self.store.as_mut_ptr(),
                self.store.len(),
                self.device.as_mut_ptr(),
                table.as_ptr(),
                table.len(),
                black_box(load.line),
                black_box(load.level),
                self.answer.as_mut_ptr(),
            )
        };
        black_box(&mut self.device).copy_from_slice(&Device::ON.to_words());
    }
}

/// So many calls on one table, and nothing else: what `count` lets valgrind look at.
fn lines_alone(words: &[String]) {
    let [input, call, calls] = words else { usage() };
    let all = lines_loads();
    let load = input.parse().ok().and_then(|input: usize| all.get(input)).unwrap_or_else(|| usage());
    let call = LINES_CALLS.iter().find(|(name, _)| name == call).unwrap_or_else(|| usage()).1;
    lines_calls(load, call, calls.parse().unwrap_or_else(|_| usage()));
}

fn print_lines_instructions() {
    println!("\nInstructions of a call with a line table, the library alone.\n");
    println!("| Table | Call | Library |");
    println!("|---|---|---:|");
    for (input, load) in lines_loads().iter().enumerate() {
        for (call, _) in LINES_CALLS {
            let [less, more] = ["10", "110"].map(|calls| count(&["--lines", &input.to_string(), call, calls]));
            println!("| {} | {call} | {:.1} |", load.name, (more - less) as f64 / 100.0);
        }
    }
}

/// Seconds for a call, the best of some times, by rounds.
fn lines_rounds(load: &Lines, call: LinesCall, rounds: usize, milliseconds: u64) -> Vec<f64> {
    let seconds = |calls: u64| {
        let start = Instant::now();
        lines_calls(load, call, calls);
        start.elapsed().as_secs_f64() / calls as f64
    };
    let calls = 1 + (milliseconds as f64 / 1000.0 / TURNS as f64 / seconds(1000)) as u64;
    let best = |_| (0..TURNS).map(|_| seconds(calls)).fold(f64::INFINITY, f64::min);
    (0..rounds).map(best).collect()
}

fn print_lines_times(rounds: usize, milliseconds: u64) {
    println!("## Line tables\n");
    println!("A call in nanoseconds, the library alone. A raise posts, and the device is put back after it.\n");
    println!("| Table | Call | Least | middle | largest |");
    println!("|---|---|---:|---:|---:|");
    for load in lines_loads() {
        for (name, call) in LINES_CALLS {
            let [least, middle, largest] =
                spread(lines_rounds(&load, call, rounds, milliseconds)).map(|seconds| seconds * 1e9);
            println!("| {} | {name} | {least:.1} | {middle:.1} | {largest:.1} |", load.name);
        }
    }
    println!();
}

// ---------------------------------------------------------------------------------------------------------
// Tables

fn call_name(how: How) -> &'static str {
    match how {
        How::Run => "run",
        How::Step => "step; reference called directly",
        How::Call => "step; both through C functions",
    }
}

fn print_speed(loads: &[(&Load, How)], measured: &[Measured]) {
    println!("## Steps a second\n");
    println!("Millions of steps a second, the middle of the rounds; then library/reference, round by round. Above 1 the library is faster.\n");
    println!("| Input | Call | Library | Reference | Ratio, least | middle | largest |");
    println!("|---|---|---:|---:|---:|---:|---:|");
    for ((load, how), Measured { library, reference }) in loads.iter().zip(measured) {
        let ratios = spread(library.iter().zip(reference).map(|(library, reference)| reference / library).collect());
        println!(
            "| {} | {} | {:.1} | {:.1} | {:.2} | {:.2} | {:.2} |",
            load.name,
            call_name(*how),
            1e-6 / spread(library.clone())[1],
            1e-6 / spread(reference.clone())[1],
            ratios[0],
            ratios[1],
            ratios[2]
        );
    }
    println!();
}

fn print_flatness(loads: &[(&Load, How)], measured: &[Measured]) {
    println!("## Flatness\n");
    println!("The counting program's step by `run`, in nanoseconds, inside larger programs and stores; then the library's least beside that of its first row.\n");
    println!("| Program words | Store words | Library, least | middle | largest | Reference, least | middle | largest | Library beside first row |");
    println!("|---:|---:|---:|---:|---:|---:|---:|---:|---:|");
    let first = spread(measured[0].library.clone())[0];
    for ((load, _), Measured { library, reference }) in loads.iter().zip(measured) {
        let library = spread(library.clone());
        let reference = spread(reference.clone());
        print!("| {} | {} |", load.program.len(), load.store_words(true));
        for seconds in library.iter().chain(&reference) {
            print!(" {:.1} |", seconds * 1e9);
        }
        println!(" {:.2} |", library[0] / first);
    }
    println!();
}

fn usage() -> ! {
    println!("bench [--rounds N] [--milliseconds N]");
    println!("bench --instructions");
    exit(2);
}

fn processor() -> String {
    let text = std::fs::read_to_string("/proc/cpuinfo").unwrap_or_default();
    let line = text.lines().find(|line| line.starts_with("model name"));
    line.and_then(|line| line.split(": ").nth(1)).unwrap_or("unknown processor").to_string()
}

fn main() {
    let arguments: Vec<String> = std::env::args().skip(1).collect();
    match arguments.first().map(String::as_str) {
        Some("--instructions") if arguments.len() == 1 => print_instructions(),
        Some("--turns") => turns_alone(&arguments[1..]),
        Some("--lines") if cfg!(feature = "lines") => lines_alone(&arguments[1..]),
        _ => print_times(&arguments),
    }
}

fn print_times(arguments: &[String]) {
    let mut count = 15;
    let mut milliseconds = 20;
    for pair in arguments.chunks(2) {
        let [name, value] = pair else { usage() };
        match name.as_str() {
            "--rounds" => count = value.parse().unwrap_or_else(|_| usage()),
            "--milliseconds" => milliseconds = value.parse().unwrap_or_else(|_| usage()),
            _ => usage(),
        }
    }
    if count < 9 {
        usage();
    }
    println!("# Library and reference\n");
    println!(
        "{}. {count} rounds; in each the sides take turns {TURNS} times, about {milliseconds} ms a side in all, and the best time of each counts. Both built for release; the stores are formatted before each measurement.\n",
        processor()
    );
    let loads = loads();
    let all: Vec<(&Load, How)> =
        loads.iter().flat_map(|load| [(load, How::Run), (load, How::Call), (load, How::Step)]).collect();
    print_speed(&all, &rounds(&all, count, milliseconds));
    let flat = flat_loads();
    let all: Vec<(&Load, How)> = flat.iter().map(|load| (load, How::Run)).collect();
    print_flatness(&all, &rounds(&all, count, milliseconds));
    if cfg!(feature = "lines") {
        print_lines_times(count, milliseconds);
    }
}
