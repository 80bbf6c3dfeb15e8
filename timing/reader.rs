//! Times the proved bench reader beside the independent one on the same books, by turns, and compares what they write.
//!
//! reader INDEPENDENT PROVED FOLDER: the first program is started with the one word `reader`, the second with none. The folder has the
//! books, as NAME.book, and gets what each program writes.

use std::ffi::{c_int, c_long};
use std::fs::{self, File};
use std::io::{self, BufRead, BufReader, Read};
use std::path::{Path, PathBuf};
use std::process::{exit, Command, Stdio};
use std::thread;
use std::time::{Duration, Instant};

const ROUNDS: usize = 5;
const TIMED: [&str; 2] = ["clean", "mixed"];
const SMALL: &str = "small";

/// The C library's count of what a process has used, of which only the first field is looked at. (Its greatest memory is no use here: the
/// starter's own counts in it.)
#[repr(C)]
#[derive(Default)]
struct Usage {
    user: TimeValue,
    system: TimeValue,
    others: [c_long; 14],
}

#[repr(C)]
#[derive(Default)]
struct TimeValue {
    seconds: c_long,
    microseconds: c_long,
}

extern "C" {
    fn wait4(process: c_int, status: *mut c_int, options: c_int, usage: *mut Usage) -> c_int;
}

/// What one run took.
struct Run {
    wall: Duration,
    user: Duration,
}

struct Program {
    path: PathBuf,
    words: &'static [&'static str],
    name: &'static str,
}

impl Program {
    fn answers(&self, folder: &Path) -> PathBuf {
        folder.join(self.name)
    }

    /// Runs it on a book, from a file and to a file, so that nothing else has to keep up with it.
    fn run(&self, book: &Path, folder: &Path) -> io::Result<Run> {
        let mut command = Command::new(&self.path);
        command.args(self.words).stdin(File::open(book)?);
        command.stdout(File::create(self.answers(folder))?);
        let began = Instant::now();
        // Waited for below; the standard library's own wait doesn't tell what was used.
        let process = command.spawn()?.id() as c_int;
        let (mut status, mut usage) = (0, Usage::default());
        // Both places outlive the call.
        let waited = unsafe { wait4(process, &mut status, 0, &mut usage) };
        let wall = began.elapsed();
        if waited != process || status != 0 {
            let path = self.path.display();
            return Err(io::Error::other(format!(
                "{path} ended with status {status}"
            )));
        }
        Ok(Run {
            wall,
            user: Duration::from_secs(usage.user.seconds as u64)
                + Duration::from_micros(usage.user.microseconds as u64),
        })
    }

    /// The most memory, in kilobytes, that was resident up to where it waits for a book's last byte.
    fn most_resident(&self, book: &Path, folder: &Path) -> io::Result<usize> {
        let mut command = Command::new(&self.path);
        command.args(self.words).stdin(Stdio::piped());
        command.stdout(File::create(self.answers(folder))?);
        let mut process = command.spawn()?;
        let mut pipe = process.stdin.take();
        let bytes = fs::metadata(book)?.len() - 1;
        if let Some(pipe) = &mut pipe {
            io::copy(&mut File::open(book)?.take(bytes), pipe)?;
        }
        let status = waiting(process.id())?;
        drop(pipe);
        process.wait()?;
        let most = status.lines().find_map(|line| line.strip_prefix("VmHWM:"));
        let kilobytes = most.and_then(|text| text.split_whitespace().next()?.parse().ok());
        kilobytes.ok_or(io::Error::other("Linux tells no VmHWM"))
    }
}

/// What Linux tells of a process, once it sleeps, which a reader that writes to a file does only where its input has no more yet.
fn waiting(process: u32) -> io::Result<String> {
    loop {
        let status = fs::read_to_string(format!("/proc/{process}/status"))?;
        if status.lines().any(|line| line.starts_with("State:\tS")) {
            return Ok(status);
        }
        thread::sleep(Duration::from_millis(1));
    }
}

fn are_equal(paths: &[PathBuf; 2]) -> io::Result<bool> {
    Ok(Command::new("cmp").args(paths).status()?.success())
}

fn median(mut numbers: Vec<f64>) -> f64 {
    numbers.sort_by(f64::total_cmp);
    numbers[numbers.len() / 2]
}

fn ratio(proved: Duration, independent: Duration) -> f64 {
    proved.as_secs_f64() / independent.as_secs_f64()
}

fn lines(path: &Path) -> io::Result<usize> {
    let mut input = BufReader::new(File::open(path)?);
    let mut lines = 0;
    while input.skip_until(b'\n')? > 0 {
        lines += 1;
    }
    Ok(lines)
}

struct Bench {
    independent: Program,
    proved: Program,
    folder: PathBuf,
}

impl Bench {
    fn book(&self, name: &str) -> PathBuf {
        self.folder.join(name).with_extension("book")
    }

    /// Both on one book, in turn first; their answers are compared each time.
    fn round(&self, book: &Path, number: usize) -> io::Result<(Run, Run)> {
        let (independent, proved);
        if number % 2 == 0 {
            independent = self.independent.run(book, &self.folder)?;
            proved = self.proved.run(book, &self.folder)?;
        } else {
            proved = self.proved.run(book, &self.folder)?;
            independent = self.independent.run(book, &self.folder)?;
        }
        let answers =
            [&self.independent, &self.proved].map(|program| program.answers(&self.folder));
        if !are_equal(&answers)? {
            return Err(io::Error::other("the two readers answer differently"));
        }
        Ok((proved, independent))
    }

    fn print_ratios(&self, name: &str) -> io::Result<()> {
        let book = self.book(name);
        let rounds: Vec<(Run, Run)> = (0..ROUNDS)
            .map(|number| self.round(&book, number))
            .collect::<io::Result<_>>()?;
        let wall = rounds
            .iter()
            .map(|(ours, theirs)| ratio(ours.wall, theirs.wall));
        let user = rounds
            .iter()
            .map(|(ours, theirs)| ratio(ours.user, theirs.user));
        let seconds = rounds.iter().map(|(ours, _)| ours.wall.as_secs_f64());
        println!(
            "{name:<7} {:>7} {:>9.2} {:>8.2} {:>16.2}",
            lines(&book)?,
            median(wall.collect()),
            median(user.collect()),
            median(seconds.collect())
        );
        Ok(())
    }

    fn print_memory(&self, name: &str) -> io::Result<()> {
        let book = self.book(name);
        let [ours, theirs] = [&self.proved, &self.independent]
            .map(|program| program.most_resident(&book, &self.folder));
        println!(
            "{name:<7} {:>7} {:>9} {:>13}",
            lines(&book)?,
            ours?,
            theirs?
        );
        Ok(())
    }
}

fn run(words: &[String]) -> io::Result<()> {
    let [independent, proved, folder] = words else {
        return Err(io::Error::other("usage: reader INDEPENDENT PROVED FOLDER"));
    };
    let bench = Bench {
        independent: Program {
            path: independent.into(),
            words: &["reader"],
            name: "independent",
        },
        proved: Program {
            path: proved.into(),
            words: &[],
            name: "proved",
        },
        folder: folder.into(),
    };
    println!(
        "time of the proved reader divided by the independent one's (median of {ROUNDS} rounds)"
    );
    println!("book      lines      wall     user  seconds (proved)");
    for name in TIMED {
        bench.print_ratios(name)?;
    }
    println!("most memory resident, in kilobytes");
    println!("book      lines    proved   independent");
    for name in [SMALL].into_iter().chain(TIMED) {
        bench.print_memory(name)?;
    }
    Ok(())
}

fn main() {
    let words: Vec<String> = std::env::args().skip(1).collect();
    if let Err(error) = run(&words) {
        eprintln!("timing: {error}");
        exit(1);
    }
}
