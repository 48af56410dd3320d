//! Exam sheets from a schedule, by the reference, and those of another program held against them.
//!
//!     sheets print [--mistake NAME]        the sheet of program.img in this folder and the standard input's schedule
//!     sheets compare PROGRAM [--seed S] [--count N] [--case N] [--limit SECONDS]
//!                                          cases 0 to N - 1 of seed S, or one by its number: PROGRAM is run in a fresh
//!                                          folder for each, and must print what `sheets print` does, byte for byte
//!     sheets compare [--mistake NAME] ..   this program's own `print` as PROGRAM, with a mistake
//!
//! Exit status: 0 passed, 1 failed, 2 what was asked for can't be read or run, 3 nothing differed but too little came up.

use conformance::many::Verdict;
use conformance::reference::Reference;
use conformance::sheet::compare::{command, Other, Wanted};
use conformance::sheet::mutants::{Mutant, MISTAKES};
use conformance::sheet::{sheet_telling, Clauses, Right};
use std::io::{self, Read, Write};
use std::process::exit;

fn usage() -> ! {
    println!("sheets print [--mistake NAME]");
    println!("sheets compare [PROGRAM] [--seed S] [--count N] [--case N] [--limit SECONDS] [--mistake NAME]");
    println!("mistakes: {MISTAKES:?}");
    exit(2);
}

/// The clauses with the mistake of this name.
fn mistaken(name: &str) -> Mutant {
    let mistake = MISTAKES.iter().find(|mistake| format!("{mistake:?}") == name);
    Mutant(*mistake.unwrap_or_else(|| usage()))
}

fn print(arguments: &[String]) -> io::Result<()> {
    let clauses: Box<dyn Clauses> = match arguments {
        [] => Box::new(Right),
        [option, name] if option == "--mistake" => Box::new(mistaken(name)),
        _ => usage(),
    };
    let image = clauses.image(std::fs::read("program.img"));
    let mut schedule = Vec::new();
    io::stdin().read_to_end(&mut schedule)?;
    io::stdout().write_all(&sheet_telling(&*clauses, &Reference, &image, &schedule, &mut |_, _| ()))
}

/// This program's own `print`, with these options.
fn own(options: &[&str]) -> io::Result<Other> {
    let arguments = ["print"].iter().chain(options).map(|text| text.to_string()).collect();
    Ok(Other { program: std::env::current_exe()?, arguments })
}

fn compare(called: &str, arguments: &[String]) -> io::Result<Verdict> {
    let mut wanted = Wanted { seed: 1, count: 10_000, case: None, limit: 120, command: format!("{called} compare") };
    let (options, mut other) = match arguments {
        [program, options @ ..] if !program.starts_with("--") => {
            wanted.command.push_str(&format!(" {program}"));
            (options, Other { program: std::fs::canonicalize(program)?, arguments: Vec::new() })
        }
        options => (options, own(&[])?),
    };
    for option in options.chunks(2) {
        let [name, value] = option else { usage() };
        let number = || value.parse().unwrap_or_else(|_| usage());
        match name.as_str() {
            "--seed" => wanted.seed = number(),
            "--count" => wanted.count = number(),
            "--case" => wanted.case = Some(number()),
            "--limit" => wanted.limit = number(),
            "--mistake" if other.arguments == ["print"] => {
                mistaken(value);
                wanted.command.push_str(&format!(" {name} {value}"));
                other = own(&[name, value])?;
            }
            _ => usage(),
        }
    }
    Ok(command(&other, &wanted))
}

fn main() {
    let arguments: Vec<String> = std::env::args().collect();
    let [called, way, rest @ ..] = arguments.as_slice() else { usage() };
    let status = match way.as_str() {
        "print" => print(rest).map(|()| 0),
        "compare" => compare(called, rest).map(Verdict::status),
        _ => usage(),
    };
    exit(status.unwrap_or_else(|error| {
        eprintln!("{}: {error}", arguments.join(" "));
        2
    }));
}
