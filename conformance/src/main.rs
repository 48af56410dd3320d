//! The self-run: the reference over generated programs and schedules. Undamaged lists are held against the
//! serial run after every call; all lists, damaged ones too, go through the comparing driver.
//!
//!     conformance [--seed S] [--calls N]   the cases, the fixed lists and SHR of every word by every k, then scenarios
//!                                          from seed S on, until N calls of these are made
//!     conformance --replay FILE            one scenario in its text form, as a failure prints it (-: standard input),
//!                                          call by call
//!     ... --mistake NAME                   with an implementation that has this mistake as the second side
//!
//! Exit status: 0 passed, 1 failed, 2 what was asked for can't be read, 3 nothing differed but too little came up.

use conformance::many::{command, Wanted};
use conformance::mutants::{Mutant, MISTAKES};
use conformance::reference::Reference;
use conformance::runtime::Runtime;
use std::process::exit;

fn usage() -> ! {
    println!("conformance [--seed S] [--calls N] [--replay FILE] [--mistake NAME]");
    println!("mistakes: {MISTAKES:?}");
    exit(2);
}

fn main() {
    let mut wanted = Wanted { seed: 1, calls: 2_000_000, replay: None };
    let mut second: Box<dyn Runtime> = Box::new(Reference);
    let mut arguments = std::env::args().skip(1);
    while let Some(name) = arguments.next() {
        let value = arguments.next().unwrap_or_else(|| usage());
        match name.as_str() {
            "--seed" => wanted.seed = value.parse().unwrap_or_else(|_| usage()),
            "--calls" => wanted.calls = value.parse().unwrap_or_else(|_| usage()),
            "--replay" => wanted.replay = Some(value),
            "--mistake" => {
                let mistake = MISTAKES.iter().find(|mistake| format!("{mistake:?}") == value);
                second = Box::new(Mutant(*mistake.unwrap_or_else(|| usage())));
            }
            _ => usage(),
        }
    }
    exit(command(&Reference, &*second, &wanted).status());
}
