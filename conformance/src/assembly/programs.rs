//! The two programs, `assemble [--verbose] [TEXT [IMAGE]]` and `disassemble [--verbose] [IMAGE [TEXT]]`: their command
//! line, and what they read, write and tell.

use super::clauses::Clauses;
use super::{assemble_by, disassemble_by};
use std::fs::{read, write};
use std::io::Read;

#[derive(Clone, Copy, PartialEq, Eq, Debug)]
pub enum Program {
    Assemble,
    Disassemble,
}

impl Program {
    pub fn name(self) -> &'static str {
        match self {
            Program::Assemble => "assemble",
            Program::Disassemble => "disassemble",
        }
    }

    /// The line that shows how it is called.
    pub fn usage(self) -> &'static str {
        match self {
            Program::Assemble => "assemble [--verbose] [TEXT [IMAGE]]",
            Program::Disassemble => "disassemble [--verbose] [IMAGE [TEXT]]",
        }
    }
}

/// What a program makes of its input. No output is nothing written.
#[derive(Clone, PartialEq, Eq, Debug)]
pub struct Answer {
    pub output: Option<Vec<u8>>,
    pub errors: String,
    pub status: i32,
}

/// What a program leaves: the standard output, the standard error and its exit status, which is 0, by a mistake or a
/// refusal 1, and 2 where the command line isn't as above or a file can't be read or written.
#[derive(Clone, PartialEq, Eq, Debug, Default)]
pub struct Ended {
    pub output: Vec<u8>,
    pub errors: Vec<u8>,
    pub status: i32,
}

/// What a command line asks for.
#[derive(Clone, Copy, PartialEq, Eq)]
enum Asks {
    Work,
    Help,
    /// It isn't as it should be.
    Unfit,
}

/// A command line: what it asks for, whether it says `--verbose`, and its names.
struct Called<'a> {
    asks: Asks,
    verbose: bool,
    input: Option<&'a str>,
    output: Option<&'a str>,
}

/// `--help` goes before what is unfit; `--verbose` may stand anywhere.
fn called<'a>(clauses: &dyn Clauses, arguments: &'a [String]) -> Called<'a> {
    let has = |option: &str| arguments.iter().any(|argument| argument == option);
    let (help, verbose) = (has("--help"), has("--verbose"));
    let others = arguments.iter().map(String::as_str).filter(|argument| !["--help", "--verbose"].contains(argument));
    let (options, names): (Vec<&str>, Vec<&str>) = others.partition(|argument| clauses.is_option(argument));
    let asks = match clauses.is_unfit(options.len(), names.len()) {
        _ if help => Asks::Help,
        true => Asks::Unfit,
        false => Asks::Work,
    };
    Called { asks, verbose, input: names.first().copied(), output: names.get(1).copied() }
}

/// What a program makes of the bytes that it reads.
fn answer(clauses: &dyn Clauses, program: Program, verbose: bool, input: &[u8]) -> Answer {
    let made = match program {
        Program::Assemble => match assemble_by(clauses, input) {
            Ok(words) => Ok((clauses.image(&words), clauses.count_text(words.len(), program))),
            Err(mistake) => Err(clauses.mistake_text(mistake)),
        },
        Program::Disassemble => {
            let printed =
                clauses.image_words(input).and_then(|words| Ok((disassemble_by(clauses, &words)?, words.len())));
            match printed {
                Ok((text, count)) => Ok((text, clauses.count_text(count, program))),
                Err(refusal) => Err(clauses.refusal_text(refusal)),
            }
        }
    };
    clauses.answer(made, verbose)
}

/// The program with its files, or what is told of one that can't be read or written. "Without names they read standard
/// input and write standard output"
fn work(clauses: &dyn Clauses, program: Program, called: &Called, input: &mut dyn Read) -> Result<Ended, String> {
    let file = |name: Option<&str>, output: bool| match name {
        Some(name) if !clauses.is_standard(name, output) => Some(name.to_string()),
        _ => None,
    };
    let mut bytes = Vec::new();
    match file(called.input, false) {
        Some(name) => bytes = read(&name).map_err(|error| clauses.file_text(program, &name, &error, false))?,
        None => {
            let told = |error| clauses.file_text(program, "standard input", &error, false);
            input.read_to_end(&mut bytes).map_err(told)?;
        }
    }
    let Answer { output, errors, status } = answer(clauses, program, called.verbose, &bytes);
    let mut ended = Ended { output: Vec::new(), errors: errors.into_bytes(), status };
    match (output, file(called.output, true)) {
        (Some(output), Some(name)) => {
            write(&name, output).map_err(|error| clauses.file_text(program, &name, &error, true))?;
        }
        (Some(output), None) => ended.output = output,
        (None, _) => {}
    }
    Ok(ended)
}

/// "prints how they are called"
fn usage(clauses: &dyn Clauses, program: Program, help: bool) -> Ended {
    let text = clauses.usage_text(program).into_bytes();
    let (output, errors) = if clauses.usage_to_errors(help) { (Vec::new(), text) } else { (text, Vec::new()) };
    Ended { output, errors, status: if help { 0 } else { 2 } }
}

/// A program by these clauses: its arguments and its standard input.
pub fn run(clauses: &dyn Clauses, program: Program, arguments: &[String], input: &mut dyn Read) -> Ended {
    let called = called(clauses, arguments);
    let help = called.asks == Asks::Help;
    let mut ended = Ended::default();
    if called.asks != Asks::Work {
        ended = usage(clauses, program, help);
        if !clauses.goes_on(help) {
            return ended;
        }
    }
    let failed = |text: String| Ended { output: Vec::new(), errors: text.into_bytes(), status: 2 };
    let done = work(clauses, program, &called, input).unwrap_or_else(failed);
    ended.output.extend(done.output);
    ended.errors.extend(done.errors);
    Ended { status: done.status, ..ended }
}
