//! The assembler and the disassembler by the reference, and another side's two programs held against them.
//!
//!     assembly assemble [--verbose] [TEXT [IMAGE]]       as `docs/ASSEMBLY.md` has it
//!     assembly disassemble [--verbose] [IMAGE [TEXT]]    likewise
//!     assembly compare ASSEMBLE DISASSEMBLE [--seed S] [--count N] [--case N] [--limit SECONDS]
//!                                  cases 0 to N - 1 of seed S, or one by its number: each program must write what its
//!                                  namesake here does, byte for byte
//!     assembly compare [--mistake NAME] ..    the two here, with a mistake, instead
//!
//! Exit status of `compare`: 0 passed, 1 failed, 2 what was asked for can't be read or run, 3 nothing differed but too
//! little came up.

use conformance::assembly::clauses::Right;
use conformance::assembly::compare::{command, Wanted};
use conformance::assembly::mutants::{Mutation, MUTATIONS};
use conformance::assembly::others::Side;
use conformance::assembly::programs::{run, Ended, Program};
use std::io::{self, Write};
use std::path::Path;
use std::process::exit;

fn usage() -> ! {
    println!("assembly {}", Program::Assemble.usage());
    println!("assembly {}", Program::Disassemble.usage());
    println!(
        "assembly compare [ASSEMBLE DISASSEMBLE] [--seed S] [--count N] [--case N] [--limit SECONDS] [--mistake NAME]"
    );
    println!("mistakes: {MUTATIONS:?}");
    exit(2);
}

fn mutation(name: &str) -> Mutation {
    let mutation = MUTATIONS.iter().find(|mutation| format!("{mutation:?}") == name);
    *mutation.unwrap_or_else(|| usage())
}

/// One of the two programs.
fn one(program: Program, arguments: &[String]) -> io::Result<i32> {
    let Ended { output, errors, status } = run(&Right, program, arguments, &mut io::stdin());
    io::stdout().write_all(&output)?;
    io::stderr().write_all(&errors)?;
    Ok(status)
}

fn compare(called: &str, arguments: &[String]) -> io::Result<i32> {
    let mut wanted = Wanted { seed: 1, count: 10_000, case: None, limit: 120, command: format!("{called} compare") };
    let (options, mut other) = match arguments {
        [assemble, disassemble, options @ ..] if !assemble.starts_with("--") => {
            wanted.command.push_str(&format!(" {assemble} {disassemble}"));
            let [assemble, disassemble] = [assemble, disassemble].map(|program| Path::new(program).canonicalize());
            (options, Side::Others { assemble: assemble?, disassemble: disassemble? })
        }
        options => (options, Side::Own(None)),
    };
    for option in options.chunks(2) {
        let [name, value] = option else { usage() };
        let number = || value.parse().unwrap_or_else(|_| usage());
        match (name.as_str(), &other) {
            ("--seed", _) => wanted.seed = number(),
            ("--count", _) => wanted.count = number(),
            ("--case", _) => wanted.case = Some(number()),
            ("--limit", _) => wanted.limit = number(),
            ("--mistake", Side::Own(_)) => {
                other = Side::Own(Some(mutation(value)));
                wanted.command.push_str(&format!(" {name} {value}"));
            }
            _ => usage(),
        }
    }
    Ok(command(&other, &wanted).status())
}

fn main() {
    let arguments: Vec<String> = std::env::args().collect();
    let [called, way, rest @ ..] = arguments.as_slice() else { usage() };
    let status = match way.as_str() {
        "assemble" => one(Program::Assemble, rest),
        "disassemble" => one(Program::Disassemble, rest),
        "compare" => compare(called, rest),
        _ => usage(),
    };
    exit(status.unwrap_or_else(|error| {
        eprintln!("{}: {error}", arguments.join(" "));
        2
    }));
}
