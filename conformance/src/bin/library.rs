//! The reference against the library of the repository, call by call.
//!
//!     library [--seed S] [--calls N]   the cases, the fixed lists and SHR of every word by every k, then scenarios
//!                                      from seed S on, until N calls of these are made
//!     library --replay FILE            one scenario in its text form, as a failure prints it (-: standard input),
//!                                      call by call
//!
//! Exit status: 0 passed, 1 failed, 2 what was asked for can't be read, 3 nothing differed but too little came up.

use conformance::library::LIBRARY;
use conformance::many::{command, Wanted};
use conformance::reference::Reference;
use std::process::exit;

fn usage() -> ! {
    println!("library [--seed S] [--calls N] [--replay FILE]");
    exit(2);
}

fn main() {
    let mut wanted = Wanted { seed: 1, calls: 4_000_000, replay: None };
    let mut arguments = std::env::args().skip(1);
    while let Some(name) = arguments.next() {
        let value = arguments.next().unwrap_or_else(|| usage());
        match name.as_str() {
            "--seed" => wanted.seed = value.parse().unwrap_or_else(|_| usage()),
            "--calls" => wanted.calls = value.parse().unwrap_or_else(|_| usage()),
            "--replay" => wanted.replay = Some(value),
            _ => usage(),
        }
    }
    println!("first side: the reference; second side: the library");
    exit(command(&Reference, &LIBRARY, &wanted).status());
}
