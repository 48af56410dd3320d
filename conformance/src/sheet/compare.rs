//! Another program's sheets beside the right ones: it is run once for every case, in a fresh folder, and what it prints
//! must be the same bytes. What differs is left in a folder, with a shortened schedule.

use super::counts::{counted, Counts};
use super::generate::{case, Case, Image};
use super::sheet;
use crate::many::Verdict;
use crate::reference::Reference;
use crate::shorten::remove_parts;
use std::collections::BTreeSet;
use std::fs::{create_dir, create_dir_all, remove_dir_all, remove_file, write, File};
use std::io::{self, Read, Write};
use std::path::{Path, PathBuf};
use std::process::{Child, Command, ExitStatus, Stdio};
use std::sync::atomic::{AtomicU64, Ordering};
use std::sync::{mpsc, Mutex};
use std::thread;
use std::time::{Duration, Instant};

/// The program that is compared: it reads program.img in its folder and the schedule from the standard input, and prints
/// the sheet.
pub struct Other {
    pub program: PathBuf,
    pub arguments: Vec<String>,
}

/// What a command line asks for.
pub struct Wanted {
    pub seed: u64,
    pub count: u64,
    /// One case by its number.
    pub case: Option<u64>,
    /// How many seconds the program may take for a sheet.
    pub limit: u64,
    /// The command line without seed, count and case.
    pub command: String,
}

// ---------------------------------------------------------------------------------------------------------
// The program in its folder

/// Put program.img into a folder.
fn put(image: &Image, folder: &Path) -> io::Result<()> {
    match image {
        Image::File(bytes) => write(folder.join("program.img"), bytes),
        Image::Missing => Ok(()),
        Image::Folder => create_dir(folder.join("program.img")),
    }
}

/// What a program prints while the schedule goes into its pipe, if it has one; none where it doesn't end in time. With so
/// many bytes it is ended.
fn printed(child: &mut Child, schedule: &[u8], most: u64, limit: Duration) -> Option<Vec<u8>> {
    let (input, output) = (child.stdin.take(), child.stdout.take()?);
    let (sender, receiver) = mpsc::channel();
    thread::scope(|scope| {
        // A program may end before it has read its input: that isn't an error.
        scope.spawn(|| input.map(|mut input| input.write_all(schedule)));
        scope.spawn(move || {
            let mut sheet = Vec::new();
            let read = output.take(most).read_to_end(&mut sheet);
            sender.send(read.ok().map(|_| sheet))
        });
        let sheet = receiver.recv_timeout(limit).ok().flatten();
        if sheet.as_ref().is_none_or(|sheet| sheet.len() as u64 == most) {
            let _ = child.kill();
        }
        sheet
    })
}

impl Other {
    /// What it prints for a case in a fresh folder of this path, and its status.
    fn run(&self, case: &Case, folder: &Path, most: u64, limit: Duration) -> io::Result<(Option<Vec<u8>>, ExitStatus)> {
        create_dir_all(folder)?;
        put(&case.image, folder)?;
        let schedule = folder.with_extension("schedule");
        let mut input = Stdio::piped();
        if !case.pipe {
            write(&schedule, &case.schedule)?;
            input = File::open(&schedule)?.into();
        }
        let mut command = Command::new(&self.program);
        command.args(&self.arguments).current_dir(folder).stdin(input).stdout(Stdio::piped()).stderr(Stdio::null());
        let mut child = command.spawn()?;
        let sheet = printed(&mut child, &case.schedule, most, limit);
        let status = child.wait()?;
        remove_dir_all(folder)?;
        if !case.pipe {
            remove_file(&schedule)?;
        }
        Ok((sheet, status))
    }
}

// ---------------------------------------------------------------------------------------------------------
// Differences

/// Lines with their line feeds.
fn lines(bytes: &[u8]) -> Vec<&[u8]> {
    bytes.split_inclusive(|byte| *byte == b'\n').collect()
}

/// The number of elements that two lists begin with alike.
fn alike<T: PartialEq>(one: &[T], two: &[T]) -> usize {
    one.iter().zip(two).take_while(|(one, two)| one == two).count()
}

/// The first line in which two sheets differ; of a long one the part where it does.
fn first_difference(right: &[u8], other: &[u8]) -> String {
    let (right, other) = (lines(right), lines(other));
    let at = alike(&right, &other);
    let (right, other) = (right.get(at).copied().unwrap_or(b""), other.get(at).copied().unwrap_or(b""));
    let start = alike(right, other).saturating_sub(60);
    let shown = |line: &[u8]| String::from_utf8_lossy(&line[start..line.len().min(start + 120)]).to_string();
    format!("line {} of the sheet, from byte {start}: {:?}; the program's: {:?}", at + 1, shown(right), shown(other))
}

/// How long shortening may take. Schedules of more lines than are easy are only cut off behind what is needed.
const SHORTENING: Duration = Duration::from_secs(3);
const EASY: usize = 5000;

/// A shorter schedule for which the sheets still differ.
fn shortened(case: &Case, differs: &dyn Fn(&Case) -> bool) -> Case {
    let with = |lines: &[&[u8]]| Case { schedule: lines.concat(), ..case.clone() };
    let start = Instant::now();
    let still = |lines: &[&[u8]]| start.elapsed() < SHORTENING && differs(&with(lines));
    let all = lines(&case.schedule);
    let (mut least, mut enough) = (0, all.len());
    while least < enough {
        let middle = (least + enough) / 2;
        match still(&all[..middle]) {
            true => enough = middle,
            false => least = middle + 1,
        }
    }
    let needed = &all[..enough];
    match needed.len() <= EASY {
        true => with(&remove_parts(needed, &still)),
        false => with(needed),
    }
}

// ---------------------------------------------------------------------------------------------------------
// Many cases

struct Run<'a> {
    other: &'a Other,
    wanted: &'a Wanted,
    /// The folder of all cases' folders.
    folder: PathBuf,
    next: AtomicU64,
    end: u64,
    /// The least number of a case that differs.
    differs: AtomicU64,
    counts: Mutex<Counts>,
    /// The program's exit statuses. N1 says nothing of them: they are told, not compared.
    statuses: Mutex<BTreeSet<i32>>,
}

impl Run<'_> {
    /// How the program's sheet differs from the right one, with what it printed.
    fn difference(&self, case: &Case, right: &[u8], name: &str) -> io::Result<Option<(String, Vec<u8>)>> {
        // Enough to see how it goes on, should it never end.
        let most = 2 * right.len() as u64 + 100_000;
        let limit = self.wanted.limit;
        let (sheet, status) = self.other.run(case, &self.folder.join(name), most, Duration::from_secs(limit))?;
        let Some(sheet) = sheet else {
            return Ok(Some((format!("the program doesn't end within {limit} s"), Vec::new())));
        };
        if sheet != right {
            return Ok(Some((first_difference(right, &sheet), sheet)));
        }
        match status.code() {
            Some(code) => self.statuses.lock().expect("no thread panics").insert(code),
            None => return Ok(Some((format!("the sheets are the same, but the program ends by {status}"), sheet))),
        };
        Ok(None)
    }

    /// Print how a case differs, and leave its files.
    fn report(&self, number: u64) -> io::Result<()> {
        let Wanted { seed, command, .. } = self.wanted;
        let right = |case: &Case| sheet(&Reference, case.image_bytes(), &case.schedule);
        let difference = |case: &Case| self.difference(case, &right(case), "shortened");
        let whole = case(*seed, number);
        let case = shortened(&whole, &|case| matches!(difference(case), Ok(Some(_))));
        println!("FAILED: the sheets differ, seed {seed}, case {number}");
        let Some((text, printed)) = difference(&case)? else {
            println!("but not each time: for the same case the program doesn't always print the same");
            return Ok(());
        };
        println!("{text}");
        println!("this case again:\n\n{command} --seed {seed} --case {number}\n");
        let left = std::env::temp_dir().join(format!("sheets-{seed}-{number}-{}", std::process::id()));
        create_dir_all(&left)?;
        put(&case.image, &left)?;
        for (name, bytes) in [("schedule", &case.schedule), ("right", &right(&case)), ("printed", &printed)] {
            write(left.join(name), bytes)?;
        }
        let [from, to] = [&whole, &case].map(|case| lines(&case.schedule).len());
        println!("shortened from {from} lines to {to}; program.img, schedule, the sheets right and printed:");
        println!("{}", left.display());
        Ok(())
    }

    /// Case after case, until none is left or a smaller number differs.
    fn work(&self) -> io::Result<()> {
        let mut counts = Counts::default();
        loop {
            let number = self.next.fetch_add(1, Ordering::SeqCst);
            if number >= self.end || number > self.differs.load(Ordering::SeqCst) {
                self.counts.lock().expect("no thread panics").add_all(&counts);
                return Ok(());
            }
            let case = case(self.wanted.seed, number);
            let (right, more) = counted(&case);
            counts.add_all(&more);
            if self.difference(&case, &right, &number.to_string())?.is_some() {
                self.differs.fetch_min(number, Ordering::SeqCst);
            }
        }
    }

    /// All cases, in as many threads as there are processors.
    fn all(&self) -> io::Result<Verdict> {
        let start = Instant::now();
        let threads = thread::available_parallelism().map_or(1, |count| count.get());
        thread::scope(|scope| {
            let workers: Vec<_> = (0..threads).map(|_| scope.spawn(|| self.work())).collect();
            workers.into_iter().try_for_each(|worker| worker.join().expect("no thread panics"))
        })?;
        let number = self.differs.load(Ordering::SeqCst);
        if number < self.end {
            self.report(number)?;
            return Ok(Verdict::Failed);
        }
        let counts = self.counts.lock().expect("no thread panics");
        let Counts { cases, calls, lines, .. } = *counts;
        if let Some(number) = self.wanted.case {
            println!("case {number}: the sheets are the same, {lines} lines of {calls} calls");
            return Ok(Verdict::Passed);
        }
        for (name, count) in counts.rows() {
            println!("{name:<44}{count:>10}");
        }
        println!("\nthe program's exit statuses, not compared: {:?}", self.statuses.lock().expect("no thread panics"));
        println!("{cases} sheets, {lines} lines of {calls} calls, compared in {:.1} s", start.elapsed().as_secs_f64());
        Ok(judge(&counts))
    }
}

/// The last lines, when nothing differed.
fn judge(counts: &Counts) -> Verdict {
    let missing = counts.missing();
    if missing.is_empty() {
        println!("passed");
        return Verdict::Passed;
    }
    println!("Nothing differed, but too little came up to judge by: neither passed nor failed. More cases meet more.");
    println!("Never came up:");
    for name in missing {
        println!("  {name}");
    }
    Verdict::TooLittle
}

/// The cases as asked for.
pub fn command(other: &Other, wanted: &Wanted) -> Verdict {
    println!("seed {}", wanted.seed);
    let run = Run {
        other,
        wanted,
        folder: std::env::temp_dir().join(format!("sheets-{}", std::process::id())),
        next: AtomicU64::new(wanted.case.unwrap_or(0)),
        end: wanted.case.map_or(wanted.count, |number| number.saturating_add(1)),
        differs: AtomicU64::new(u64::MAX),
        counts: Mutex::new(Counts::default()),
        statuses: Mutex::new(BTreeSet::new()),
    };
    let verdict = run.all();
    let _ = remove_dir_all(&run.folder);
    verdict.unwrap_or_else(|error| {
        println!("{}: {error}", other.program.display());
        Verdict::Unreadable
    })
}
