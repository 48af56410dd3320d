//! A program for a case: another one, run as a process, or one of this side's own, in this process.

use super::clauses::{Clauses, Right};
use super::generate::{Case, FileArgument, Invocation};
use super::mutants::{Mutant, Mutation};
use super::programs::{self, Program};
use std::collections::BTreeMap;
use std::fs::{create_dir, create_dir_all, read, read_dir, remove_dir_all, write, File};
use std::io::{self, Read, Write};
use std::path::{Path, PathBuf};
use std::process::{Child, Command, Stdio};
use std::sync::mpsc;
use std::thread;
use std::time::Duration;

/// The two programs of one side.
pub enum Side {
    Own(Option<Mutation>),
    Others { assemble: PathBuf, disassemble: PathBuf },
}

/// How a program ended: by an exit status, by a signal, or not in time.
#[derive(Clone, Copy, PartialEq, Eq, Debug)]
pub enum End {
    Status(i32),
    Signal,
    Late,
}

/// The name of the file that is written.
pub const OUTPUT: &str = "output";

/// What a program left: standard output, standard error, and the files in its folder by their names, a folder's with a
/// stroke behind it; the file that it reads only if it is changed.
#[derive(Clone, PartialEq, Eq, Debug)]
pub struct Outcome {
    pub output: Vec<u8>,
    pub errors: Vec<u8>,
    pub files: BTreeMap<String, Vec<u8>>,
    pub end: End,
}

impl Outcome {
    /// Nothing but this on standard output.
    pub fn of_output(output: Vec<u8>) -> Outcome {
        Outcome { output, errors: Vec::new(), files: BTreeMap::new(), end: End::Status(0) }
    }
}

/// How much a program may write, and how long it may take.
#[derive(Clone, Copy)]
pub struct Bounds {
    pub most: u64,
    pub limit: Duration,
}

/// What a file of the output's name has, where one stands there already.
const OLD: &[u8] = b"what was there before";

/// A name's argument, for a file of this name in a case's folder.
fn argument(named: FileArgument, folder: &Path, name: &str) -> Option<String> {
    let path = match named {
        FileArgument::Missing => return None,
        FileArgument::Dash => PathBuf::from("-"),
        FileArgument::File | FileArgument::Folder => folder.join(name),
        FileArgument::Absent => folder.join("absent").join(name),
    };
    Some(path.to_string_lossy().to_string())
}

fn arguments(called: &Invocation, folder: &Path) -> Vec<String> {
    let option = |is: bool, name: &'static str| is.then_some(name);
    let before = [called.before, option(called.help, "--help"), option(called.verbose, "--verbose")];
    let names = [(called.input, "input"), (called.output, OUTPUT), (called.third, "third")];
    let before = before.into_iter().flatten().map(str::to_string);
    let names = names.into_iter().filter_map(|(named, name)| argument(named, folder, name));
    before.chain(names).chain(called.behind.map(str::to_string)).collect()
}

/// The arguments, to be read.
pub fn called(invocation: &Invocation) -> String {
    arguments(invocation, Path::new("FOLDER")).iter().map(|argument| format!(" {argument}")).collect()
}

/// What a pipe gives, up to so many bytes.
fn gather(pipe: Option<impl Read + Send>, most: u64) -> Vec<u8> {
    let mut bytes = Vec::new();
    if let Some(pipe) = pipe {
        let _ = pipe.take(most).read_to_end(&mut bytes);
    }
    bytes
}

/// What a process writes while its input goes into its pipe, if it has one; none where it doesn't end in time. With so
/// many bytes it is ended.
fn printed(child: &mut Child, input: &[u8], bounds: Bounds) -> Option<(Vec<u8>, Vec<u8>)> {
    let (pipe, output, errors) = (child.stdin.take(), child.stdout.take(), child.stderr.take());
    let (sender, receiver) = mpsc::channel();
    thread::scope(|scope| {
        // A program may end before it has read its input: that isn't an error.
        scope.spawn(|| pipe.map(|mut pipe| pipe.write_all(input)));
        scope.spawn(move || {
            let errors = thread::spawn(move || gather(errors, bounds.most));
            let output = gather(output, bounds.most);
            sender.send((output, errors.join().unwrap_or_default()))
        });
        let printed = receiver.recv_timeout(bounds.limit).ok();
        let long = |bytes: &[u8]| bytes.len() as u64 >= bounds.most;
        if printed.as_ref().is_none_or(|(output, errors)| long(output) || long(errors)) {
            let _ = child.kill();
        }
        printed
    })
}

/// Another program, run as a process.
fn process(program: &Path, case: &Case, folder: &Path, bounds: Bounds) -> io::Result<Outcome> {
    let mut command = Command::new(program);
    command.args(arguments(&case.invocation, folder)).stdout(Stdio::piped()).stderr(Stdio::piped());
    match (case.invocation.reads_standard(), case.invocation.pipe) {
        (false, _) => command.stdin(Stdio::null()),
        (true, true) => command.stdin(Stdio::piped()),
        (true, false) => command.stdin(File::open(folder.join("input"))?),
    };
    let mut child = command.spawn()?;
    let printed = printed(&mut child, &case.input, bounds);
    let status = child.wait()?;
    let Some((output, errors)) = printed else {
        return Ok(Outcome { end: End::Late, ..Outcome::of_output(Vec::new()) });
    };
    let end = status.code().map_or(End::Signal, End::Status);
    Ok(Outcome { errors, end, ..Outcome::of_output(output) })
}

/// One of this side's own, in this process.
fn own(mutation: Option<Mutation>, case: &Case, folder: &Path) -> Outcome {
    let clauses: Box<dyn Clauses> = match mutation {
        Some(mutation) => Box::new(Mutant(mutation)),
        None => Box::new(Right),
    };
    let mut input: &[u8] = if case.invocation.reads_standard() { &case.input } else { &[] };
    let ended = programs::run(&*clauses, case.program, &arguments(&case.invocation, folder), &mut input);
    Outcome { errors: ended.errors, end: End::Status(ended.status), ..Outcome::of_output(ended.output) }
}

/// Before a program runs: whether it has a folder, and what is in it.
fn prepare(case: &Case, folder: &Path, from_file: bool) -> io::Result<bool> {
    let called = &case.invocation;
    let plain = [FileArgument::Missing, FileArgument::Dash];
    if !from_file && [called.input, called.output, called.third].iter().all(|named| plain.contains(named)) {
        return Ok(false);
    }
    create_dir_all(folder)?;
    for (named, name) in [(called.input, "input"), (called.output, OUTPUT)] {
        if named == FileArgument::Folder {
            create_dir(folder.join(name))?;
        }
    }
    if from_file {
        write(folder.join("input"), &case.input)?;
    }
    if called.output == FileArgument::File && called.old {
        write(folder.join(OUTPUT), OLD)?;
    }
    Ok(true)
}

/// What is in a case's folder.
fn files(case: &Case, folder: &Path) -> io::Result<BTreeMap<String, Vec<u8>>> {
    let mut files = BTreeMap::new();
    for entry in read_dir(folder)? {
        let entry = entry?;
        let (path, name) = (entry.path(), entry.file_name().to_string_lossy().to_string());
        match path.is_dir() {
            true => files.insert(name + "/", Vec::new()),
            false => files.insert(name, read(path)?),
        };
    }
    files.retain(|name, bytes| name != "input" || *bytes != case.input);
    Ok(files)
}

impl Side {
    /// What a program leaves of a case, with its files in a fresh folder of this path.
    pub fn run(&self, case: &Case, folder: &Path, bounds: Bounds) -> io::Result<Outcome> {
        let called = &case.invocation;
        let piped = called.pipe || matches!(self, Side::Own(_));
        let from_file = called.input == FileArgument::File || called.reads_standard() && !piped;
        let has_folder = prepare(case, folder, from_file)?;
        let mut left = match (self, case.program) {
            (Side::Own(mutation), _) => own(*mutation, case, folder),
            (Side::Others { assemble, .. }, Program::Assemble) => process(assemble, case, folder, bounds)?,
            (Side::Others { disassemble, .. }, Program::Disassemble) => process(disassemble, case, folder, bounds)?,
        };
        if has_folder {
            left.files = files(case, folder)?;
            remove_dir_all(folder)?;
        }
        Ok(left)
    }
}
