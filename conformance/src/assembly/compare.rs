//! Another side's two programs beside this one's: both read the same, and what they write must be the same bytes. An
//! accepted text goes on: its words are disassembled, and what is printed then is assembled again, to the same words.

use super::counts::{counted, Counts};
use super::generate::{case, Case, Invocation};
use super::others::{called, Bounds, End, Outcome, Side, OUTPUT};
use super::programs::Program;
use crate::many::Verdict;
use std::collections::BTreeSet;
use std::fs::{create_dir_all, remove_dir_all, write};
use std::io;
use std::path::PathBuf;
use std::sync::atomic::{AtomicU64, Ordering};
use std::sync::Mutex;
use std::thread;
use std::time::{Duration, Instant};

/// What a command line asks for.
pub struct Wanted {
    pub seed: u64,
    pub count: u64,
    /// One case by its number.
    pub case: Option<u64>,
    /// How many seconds a program may take.
    pub limit: u64,
    /// The command line without seed, count and case.
    pub command: String,
}

// ---------------------------------------------------------------------------------------------------------
// Differences

/// Where the sides part: what was run, how they differ, and what each left.
struct Difference {
    case: Case,
    text: String,
    right: Outcome,
    other: Outcome,
}

/// Where two byte strings differ, with some bytes around.
fn first_difference(what: &str, right: &[u8], other: &[u8]) -> String {
    let at = right.iter().zip(other).take_while(|(right, other)| right == other).count();
    let start = at.saturating_sub(40);
    let shown = |bytes: &[u8]| bytes[start.min(bytes.len())..bytes.len().min(at + 80)].escape_ascii().to_string();
    let lengths = format!("{} bytes, the program's {}", right.len(), other.len());
    format!(
        "{what}, at byte {at} ({lengths}), from byte {start}: \"{}\"; the program's: \"{}\"",
        shown(right),
        shown(other)
    )
}

/// Whether standard error is as it should be. The page doesn't fix the words for a file that can't be read or written.
fn same_errors(case: &Case, right: &Outcome, other: &Outcome) -> bool {
    match right.end == End::Status(2) && !case.invocation.tells_usage() {
        true => !other.errors.is_empty(),
        false => right.errors == other.errors,
    }
}

/// How the files in the folders differ.
fn file_difference(right: &Outcome, other: &Outcome) -> Option<String> {
    let names: BTreeSet<&String> = right.files.keys().chain(other.files.keys()).collect();
    names.into_iter().find_map(|name| match (right.files.get(name), other.files.get(name)) {
        (Some(right), Some(other)) if right == other => None,
        (Some(right), Some(other)) => Some(first_difference(&format!("the file {name}"), right, other)),
        (Some(_), None) => Some(format!("the file {name} is to be there, and isn't")),
        (None, _) => Some(format!("the file {name} isn't to be there, or to be changed")),
    })
}

/// How what the other side left differs from what is right.
fn difference(case: &Case, right: &Outcome, other: &Outcome) -> Option<String> {
    if other.end == End::Late {
        return Some("the program doesn't end in time".to_string());
    }
    if !same_errors(case, right, other) {
        return Some(first_difference("standard error", &right.errors, &other.errors));
    }
    if right.output != other.output {
        return Some(first_difference("standard output", &right.output, &other.output));
    }
    let signal = || (other.end == End::Signal).then(|| "the program ends by a signal".to_string());
    file_difference(right, other).or_else(signal)
}

/// What disassemble printed of an image is assembled again: it must give the same words.
fn other_words(input: Vec<u8>, image: Vec<u8>, again: Vec<u8>) -> Option<Box<Difference>> {
    if image == again {
        return None;
    }
    let text = first_difference("assembled again", &image, &again);
    let [right, other] = [image, again].map(Outcome::of_output);
    let case = Case { program: Program::Assemble, input, invocation: Invocation::PLAIN };
    Some(Box::new(Difference { case, text, right, other }))
}

// ---------------------------------------------------------------------------------------------------------
// Many cases

struct Run<'a> {
    other: &'a Side,
    wanted: &'a Wanted,
    /// The folder of all cases' folders.
    folder: PathBuf,
    next: AtomicU64,
    end: u64,
    /// The least number of a case that differs.
    differs: AtomicU64,
    counts: Mutex<Counts>,
    /// The other side's exit statuses where this side's is 0, where it is 1, by a mistake or a refusal, and where it is
    /// 2. The page says nothing of them: they are told, not compared.
    statuses: Mutex<[BTreeSet<i32>; 3]>,
}

impl Run<'_> {
    /// Both sides on the same; what they write, if it is the same, as standard output or as a file.
    fn both(&self, number: u64, case: &Case) -> io::Result<Result<Option<Vec<u8>>, Box<Difference>>> {
        let limit = Duration::from_secs(self.wanted.limit);
        let folder = |side: &str| self.folder.join(format!("{number}-{side}"));
        let right = Side::Own(None).run(case, &folder("right"), Bounds { most: u64::MAX, limit })?;
        // Enough to see how it goes on, should it never end.
        let most = 2 * (right.output.len() + right.errors.len()) as u64 + 100_000;
        let other = self.other.run(case, &folder("other"), Bounds { most, limit })?;
        if let Some(text) = difference(case, &right, &other) {
            return Ok(Err(Box::new(Difference { case: case.clone(), text, right, other })));
        }
        if let (End::Status(own), End::Status(status)) = (right.end, other.end) {
            self.statuses.lock().expect("no thread panics")[own as usize].insert(status);
        }
        let answered = right.end == End::Status(0) && !case.invocation.help;
        let written = right.files.get(OUTPUT).cloned().unwrap_or(right.output);
        Ok(Ok(answered.then_some(written)))
    }

    /// A program's answer to these bytes, as `both` has it.
    fn plainly(
        &self,
        number: u64,
        program: Program,
        input: &[u8],
    ) -> io::Result<Result<Option<Vec<u8>>, Box<Difference>>> {
        self.both(number, &Case { program, input: input.to_vec(), invocation: Invocation::PLAIN })
    }

    /// How the sides differ over a case, and over what follows from it.
    fn difference(&self, number: u64, case: &Case) -> io::Result<Option<Box<Difference>>> {
        let written = match self.both(number, case)? {
            Ok(Some(written)) => written,
            Ok(None) => return Ok(None),
            Err(difference) => return Ok(Some(difference)),
        };
        let (image, text) = match case.program {
            Program::Disassemble => (case.input.clone(), written),
            Program::Assemble => match self.plainly(number, Program::Disassemble, &written)? {
                Ok(text) => (written, text.unwrap_or_default()),
                Err(difference) => return Ok(Some(difference)),
            },
        };
        match self.plainly(number, Program::Assemble, &text)? {
            Ok(again) => Ok(other_words(text, image, again.unwrap_or_default())),
            Err(difference) => Ok(Some(difference)),
        }
    }

    /// Print how a case differs, and leave its files.
    fn report(&self, number: u64) -> io::Result<()> {
        let Wanted { seed, command, .. } = self.wanted;
        println!("FAILED: the programs differ, seed {seed}, case {number}");
        let Some(found) = self.difference(number, &case(*seed, number))? else {
            println!("but not each time: for the same case the program doesn't always write the same");
            return Ok(());
        };
        let Difference { case, text, right, other } = *found;
        println!("{}{}: {text}", case.program.name(), called(&case.invocation));
        println!("this case again:\n\n{command} --seed {seed} --case {number}\n");
        let folder = std::env::temp_dir().join(format!("assembly-{seed}-{number}-{}", std::process::id()));
        create_dir_all(&folder)?;
        write(folder.join("input"), &case.input)?;
        for (side, left) in [("right", right), ("other", other)] {
            write(folder.join(format!("{side}.output")), &left.output)?;
            write(folder.join(format!("{side}.errors")), &left.errors)?;
            for (name, bytes) in left.files {
                write(folder.join(format!("{side}.file.{}", name.trim_end_matches('/'))), bytes)?;
            }
        }
        println!("the input, and what each side left of it:\n{}", folder.display());
        Ok(())
    }

    /// Case after case, until none is left or a smaller number differs.
    fn work(&self) -> io::Result<()> {
        let mut counts = Counts::default();
        loop {
            let number = self.next.fetch_add(1, Ordering::SeqCst);
            if number >= self.end || number > self.differs.load(Ordering::SeqCst) {
                self.counts.lock().expect("no thread panics").add_all(&counts);
                return Ok(());
            }
            let case = case(self.wanted.seed, number);
            counts.add_all(&counted(&case));
            if self.difference(number, &case)?.is_some() {
                self.differs.fetch_min(number, Ordering::SeqCst);
            }
        }
    }

    /// All cases, in as many threads as there are processors.
    fn all(&self) -> io::Result<Verdict> {
        let start = Instant::now();
        let threads = thread::available_parallelism().map_or(1, |count| count.get());
        thread::scope(|scope| {
            let workers: Vec<_> = (0..threads).map(|_| scope.spawn(|| self.work())).collect();
            workers.into_iter().try_for_each(|worker| worker.join().expect("no thread panics"))
        })?;
        let number = self.differs.load(Ordering::SeqCst);
        if number < self.end {
            self.report(number)?;
            return Ok(Verdict::Failed);
        }
        if let Some(number) = self.wanted.case {
            println!("case {number}: the programs write the same");
            return Ok(Verdict::Passed);
        }
        let counts = self.counts.lock().expect("no thread panics");
        print!("{}", counts.table());
        let [answers, mistakes, unfit] = &*self.statuses.lock().expect("no thread panics");
        println!(
            "\nexit statuses, not compared: {answers:?}, with mistakes and refusals {mistakes:?}, \
             with command lines and files that are wrong {unfit:?}"
        );
        println!("{} cases compared in {:.1} s", counts.cases, start.elapsed().as_secs_f64());
        Ok(judge(&counts))
    }
}

/// The last lines, when nothing differed.
fn judge(counts: &Counts) -> Verdict {
    let missing = counts.missing();
    if missing.is_empty() {
        println!("passed");
        return Verdict::Passed;
    }
    println!("Nothing differed, but too little came up to judge by: neither passed nor failed. More cases meet more.");
    println!("Never came up:");
    for name in missing {
        println!("  {name}");
    }
    Verdict::TooLittle
}

/// The cases as asked for.
pub fn command(other: &Side, wanted: &Wanted) -> Verdict {
    println!("seed {}", wanted.seed);
    let run = Run {
        other,
        wanted,
        folder: std::env::temp_dir().join(format!("assembly-{}", std::process::id())),
        next: AtomicU64::new(wanted.case.unwrap_or(0)),
        end: wanted.case.map_or(wanted.count, |number| number.saturating_add(1)),
        differs: AtomicU64::new(u64::MAX),
        counts: Mutex::new(Counts::default()),
        statuses: Mutex::default(),
    };
    let verdict = run.all();
    let _ = remove_dir_all(&run.folder);
    verdict.unwrap_or_else(|error| {
        println!("{error}");
        Verdict::Unreadable
    })
}
