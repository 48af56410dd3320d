//! Many scenarios, one after another, for two implementations: each of them alone over undamaged lists, both
//! compared over fixed, undamaged and damaged ones and over SHR of every word by every k, the counts, and the report of a
//! failure with its shortened list and the command line that replays it. A program that puts another implementation
//! beside the reference needs `many` and `replay`, or `command`, which has both; each ends in a `Verdict`.

use crate::compare::{self, Counts, Difference, POSSIBLE};
use crate::runtime::{Answer, Runtime, BURST_WORDS};
use crate::scenario::{call_text, outcome_text, Call, Outcome, Scenario, Table, CALL_NAMES};
use crate::{begun, bursts, cases, drops, generate, lines, selfrun, seven, shift, shorten};
use std::io::Read;
use std::time::Instant;

/// How a comparison ends.
#[derive(Clone, Copy, PartialEq, Eq, Debug)]
pub enum Verdict {
    /// Nothing differed, and all that should came up.
    Passed,
    /// The sides differ, or one breaks a demand or a case.
    Failed,
    /// What was asked for can't be read.
    Unreadable,
    /// Nothing differed, but too little came up to judge by.
    TooLittle,
}

impl Verdict {
    /// The exit status of a program.
    pub fn status(self) -> i32 {
        match self {
            Verdict::Passed => 0,
            Verdict::Failed => 1,
            Verdict::Unreadable => 2,
            Verdict::TooLittle => 3,
        }
    }
}

type Drive<'a> = &'a dyn Fn(&Scenario, &mut Counts) -> Result<(), Difference>;

fn print_difference(scenario: &Scenario, difference: &Difference) {
    match difference.index {
        Some(index) => println!("# call {index}, {}: {}", call_text(&scenario.calls[index]), difference.text),
        None => println!("# before or after the list: {}", difference.text),
    }
}

/// The command line of this run without what chooses the lists.
fn command_line() -> String {
    let mut arguments = std::env::args();
    let mut line = arguments.next().unwrap_or_else(|| "conformance".into());
    while let Some(name) = arguments.next() {
        let value = arguments.next().unwrap_or_default();
        if !["--seed", "--calls", "--replay"].contains(&name.as_str()) {
            line.push_str(&format!(" {name} {value}"));
        }
    }
    line
}

/// Print a list as its replay, with where it fails.
fn print_replay(list: &Scenario, difference: Option<&Difference>) {
    println!("{} --replay - <<'END'", command_line());
    print!("{}", list.to_text());
    if let Some(difference) = difference {
        print_difference(list, difference);
    }
    println!("END");
}

/// Print a failure with its shortened list.
fn report(what: &str, scenario: &Scenario, difference: &Difference, drive: Drive) {
    println!("FAILED: {what}, seed {}", scenario.seed);
    print_difference(scenario, difference);
    println!("the whole list again:\n");
    println!("{} --seed {} --calls 1\n", command_line(), scenario.seed);
    let fails = |candidate: &Scenario| drive(candidate, &mut Counts::default()).is_err();
    let short = shorten::shorten(scenario, &fails);
    println!("shortened from {} calls to {}; this again:\n", scenario.calls.len(), short.calls.len());
    print_replay(&short, drive(&short, &mut Counts::default()).err().as_ref());
}

fn print_counts(undamaged: &Counts, damaged: &Counts, all: &Counts) {
    let row = |name: &str, [one, two]: [u64; 2]| println!("{name:<46}{one:>12}{two:>12}{:>12}", one + two);
    println!("{:<46}{:>12}{:>12}{:>12}", "lists", "undamaged", "damaged", "all");
    row("programs", [undamaged.scenarios, damaged.scenarios]);
    row("calls", [undamaged.all_calls(), damaged.all_calls()]);
    for ((name, one), (_, two)) in undamaged.singles().iter().zip(damaged.singles()) {
        row(name, [*one, two]);
    }
    println!();
    print!("{}", all.table());
    println!();
    print!("{}", all.several.table());
    println!();
    print!("{}", all.begun.table());
    println!();
    print!("{}", all.bursts.table());
    println!();
    print!("{}", all.drops.table());
    println!();
    print!("{}", all.lines.table());
    println!();
    print!("{}", all.shifts.table());
    println!();
}

/// What never came up and should, a line for each call and one for what else is counted.
pub fn missing(all: &Counts) -> Vec<String> {
    let mut lines = Vec::new();
    let table: Table = Table::from([]);
    let post = Call::Post { event: 0, datum: 0 };
    let burst = Call::Burst { count: 1, words: [0; BURST_WORDS] };
    let format = Call::Format { log_pairs: 1, queue_records: 1 };
    let raise = Call::Raise { table: table.clone(), line: 0, level: 0 };
    let (run, lines_check) = (Call::Run { budget: 1 }, Call::LinesCheck { table });
    for call in [Call::Check, format, Call::Boot, Call::Step, post, Call::Cut, run, lines_check, raise, burst] {
        let kind = call.kind().expect("a call of the runtime");
        let never = POSSIBLE[kind].iter().filter(|number| all.refusals[kind].0[**number] == 0);
        let mut never: Vec<String> = never.map(|number| number.to_string()).collect();
        if all.no_device[kind] == 0 && call.looks_at_device() {
            never.push("no device".into());
        }
        if !never.is_empty() {
            lines.push(format!("{}: {}", CALL_NAMES[kind], never.join(", ")));
        }
    }
    let singles = all.singles();
    let never: Vec<&str> = singles.iter().filter(|(_, count)| *count == 0).map(|(name, _)| *name).collect();
    if !never.is_empty() {
        lines.push(never.join("; "));
    }
    lines.extend(all.several.missing());
    lines.extend(all.begun.missing());
    lines.extend(all.bursts.missing());
    lines.extend(all.drops.missing());
    lines.extend(all.lines.missing());
    lines.extend(all.shifts.missing());
    lines
}

/// The last lines, when nothing differed.
fn judge(all: &Counts) -> Verdict {
    let missing = missing(all);
    if missing.is_empty() {
        println!("passed");
        return Verdict::Passed;
    }
    println!("Nothing differed, but too little came up to judge by: neither passed nor failed. More calls meet more.");
    println!("Never came up (of each call the refusals, by number):");
    for line in missing {
        println!("  {line}");
    }
    Verdict::TooLittle
}

/// The lists that don't come from a seed: several rules of 7 broken at once, word 16, line tables, bursts, and drops.
pub fn fixed_lists() -> impl Iterator<Item = Scenario> {
    let first = seven::lists().into_iter().chain(begun::lists::lists());
    first.chain(lines::lists::lists()).chain(bursts::lists::lists()).chain(drops::lists::lists())
}

/// Of these, the undamaged ones over which each side is held alone.
fn undamaged_lists() -> impl Iterator<Item = Scenario> {
    let first = begun::lists::undamaged().into_iter().chain(bursts::lists::undamaged());
    first.chain(drops::lists::undamaged())
}

/// What both sides do with the lists of one seed: compared, and each alone. Whether nothing differs.
struct Lists<'a> {
    first: &'a dyn Runtime,
    second: &'a dyn Runtime,
    undamaged: Counts,
    damaged: Counts,
}

impl Lists<'_> {
    fn all_calls(&self) -> u64 {
        self.undamaged.all_calls() + self.damaged.all_calls()
    }

    /// The lists that don't come from a seed.
    fn fixed(&mut self) -> bool {
        let Lists { first, second, damaged, .. } = self;
        let first_alone = |list: &Scenario, counts: &mut Counts| selfrun::drive(*first, list, counts);
        let second_alone = |list: &Scenario, counts: &mut Counts| selfrun::drive(*second, list, counts);
        let beside = |list: &Scenario, counts: &mut Counts| compare::drive(*first, *second, list, counts);
        for list in fixed_lists() {
            if let Err(difference) = beside(&list, damaged) {
                report("comparison of a fixed list", &list, &difference, &beside);
                return false;
            }
        }
        let alone: [(&str, Drive); 2] = [("first side", &first_alone), ("second side", &second_alone)];
        for list in undamaged_lists() {
            for (side, drive) in alone {
                if let Err(difference) = drive(&list, &mut Counts::default()) {
                    report(&format!("{side}, fixed list"), &list, &difference, drive);
                    return false;
                }
            }
        }
        true
    }

    /// SHR of every word by every k.
    fn shifts(&mut self) -> bool {
        let driven = shift::drive(self.first, self.second, &mut self.undamaged.shifts);
        if let Err(failure) = &driven {
            println!("FAILED: {}", failure.what);
            println!("# {}", failure.text);
            println!("this again:\n");
            print_replay(&failure.list, failure.difference.as_ref());
        }
        driven.is_ok()
    }

    fn seed(&mut self, seed: u64) -> bool {
        let Lists { first, second, undamaged, damaged } = self;
        let first_alone = |list: &Scenario, counts: &mut Counts| selfrun::drive(*first, list, counts);
        let second_alone = |list: &Scenario, counts: &mut Counts| selfrun::drive(*second, list, counts);
        let beside = |list: &Scenario, counts: &mut Counts| compare::drive(*first, *second, list, counts);
        let list = generate::scenario(seed, false);
        let spoilt = generate::scenario(seed, true);
        let drives: [(&str, Drive, &Scenario, &mut Counts); 4] = [
            ("comparison of an undamaged list", &beside, &list, undamaged),
            ("first side, undamaged list", &first_alone, &list, &mut Counts::default()),
            ("second side, undamaged list", &second_alone, &list, &mut Counts::default()),
            ("comparison of a damaged list", &beside, &spoilt, damaged),
        ];
        for (what, drive, list, counts) in drives {
            if let Err(difference) = drive(list, counts) {
                report(what, list, &difference, drive);
                return false;
            }
        }
        true
    }
}

/// The fixed lists and SHR of every word by every k, then scenarios from a seed on until so many calls of these are made.
pub fn many(first: &dyn Runtime, second: &dyn Runtime, first_seed: u64, calls: u64) -> Verdict {
    let start = Instant::now();
    let mut lists = Lists { first, second, undamaged: Counts::default(), damaged: Counts::default() };
    let mut seed = first_seed;
    println!("seed {seed}");
    if !lists.fixed() || !lists.shifts() {
        return Verdict::Failed;
    }
    let fixed = lists.all_calls();
    while lists.all_calls() - fixed < calls {
        if !lists.seed(seed) {
            return Verdict::Failed;
        }
        seed += 1;
    }
    let mut all = lists.undamaged.clone();
    all.add_all(&lists.damaged);
    print_counts(&lists.undamaged, &lists.damaged, &all);
    println!("All lists: both sides compared after every call. Undamaged lists: for each side demand 3 by recovering");
    println!("a copy, after every call and every step of a run, bursts whole or not at all, what is dropped, a run held");
    println!("against single steps, and whose turn it is.");
    println!("fixed lists, several rules of 7 broken at once, word 16, line tables, bursts and drops: {fixed} calls");
    println!("SHR of every word by every k, and by every other k: {} calls", all.shifts.calls);
    println!(
        "these and seeds {first_seed} to {}: {} programs, {} calls compared in {:.1} s",
        seed - 1,
        all.scenarios + shift::PROGRAMS,
        all.all_calls() + all.shifts.calls,
        start.elapsed().as_secs_f64()
    );
    judge(&all)
}

/// A line of a replay: the call's number in the list, the call, and what each side gave.
pub fn replay_line(index: Option<usize>, call: &Call, outcomes: Option<[&Outcome; 2]>) -> String {
    let number = index.map_or(String::new(), |index| index.to_string());
    let call = call_text(call);
    match outcomes.map(|outcomes| outcomes.map(outcome_text)) {
        Some([first, second]) => format!("{number:>5}  {call:<24}  {first:<32}  {second}"),
        None => format!("{number:>5}  {call}"),
    }
}

/// One scenario in its text form, call by call.
pub fn replay(first: &dyn Runtime, second: &dyn Runtime, text: &str) -> Verdict {
    let scenario = match Scenario::from_text(text) {
        Ok(scenario) => scenario,
        Err(error) => {
            println!("{error}");
            return Verdict::Unreadable;
        }
    };
    println!("{:>5}  {:<24}  {:<32}  second side", "", "call", "first side");
    let mut fresh = true;
    let mut tell = |index: Option<usize>, call: &Call, outcomes: Option<[&Outcome; 2]>| {
        println!("{}", replay_line(index, call, outcomes));
        fresh &= index.is_some() || outcomes == Some([&Outcome::Answer(Answer::Done); 2]);
    };
    let compared = compare::drive_telling(first, second, &scenario, &mut Counts::default(), &mut tell);
    if let Err(difference) = &compared {
        println!("the sides part here: {}", difference.text);
    }
    let mut results = vec![("comparison", compared)];
    // Demand 3 is about lists of calls on a fresh store.
    if fresh && scenario.calls.iter().all(|call| call.undamaging()) {
        results.push(("first side, demand 3", selfrun::drive(first, &scenario, &mut Counts::default())));
        results.push(("second side, demand 3", selfrun::drive(second, &scenario, &mut Counts::default())));
    }
    let mut verdict = Verdict::Passed;
    for (what, result) in results {
        match result {
            Ok(()) => println!("{what}: passes"),
            Err(difference) => {
                println!("{what}: fails");
                print_difference(&scenario, &difference);
                verdict = Verdict::Failed;
            }
        }
    }
    verdict
}

/// What a command line asks for.
pub struct Wanted {
    pub seed: u64,
    pub calls: u64,
    /// A file in the text form, - for the standard input.
    pub replay: Option<String>,
}

/// The cases and many scenarios, or a replay, as asked for.
pub fn command(first: &dyn Runtime, second: &dyn Runtime, wanted: &Wanted) -> Verdict {
    let Some(file) = &wanted.replay else {
        let hold = cases::all(first) && cases::all(second);
        if hold {
            println!("{} cases of the counting program and others hold", cases::CASES.len());
        }
        let verdict = many(first, second, wanted.seed, wanted.calls);
        if !hold {
            println!("FAILED: a case, above");
            return Verdict::Failed;
        }
        return verdict;
    };
    let mut text = String::new();
    let read = match file.as_str() {
        "-" => std::io::stdin().read_to_string(&mut text),
        _ => std::fs::File::open(file).and_then(|mut file| file.read_to_string(&mut text)),
    };
    match read {
        Ok(_) => replay(first, second, &text),
        Err(error) => {
            println!("{file}: {error}");
            Verdict::Unreadable
        }
    }
}
