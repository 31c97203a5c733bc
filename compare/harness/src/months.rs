//! C-16's program measured: whole processes on whole batches, in turns, and the memory that they take.

mod page;

pub use page::{print_head, print_page};

use crate::measure::Times;
use crate::mixed;
use compare::batch::bytes_of;
use compare::examples::{P1, R1};
use std::fs::{self, File};
use std::io;
use std::path::{Path, PathBuf};
use std::process::{Child, Command, Stdio};
use std::thread::sleep;
use std::time::{Duration, Instant};

/// As many entries as a batch can count.
const MOST: usize = 65_535;
/// How often the mixed rules come one after another.
const ROUNDS: usize = 10;
/// Rules that are skipped.
const LONG: usize = 2000;

/// A program by its name on the page and where it lies.
pub struct Program {
    pub name: &'static str,
    pub path: PathBuf,
}

impl Program {
    /// Its path as a page names it: from the folder above this one on, where it lies there.
    fn shown(&self) -> String {
        let here = std::env::current_dir().unwrap_or_default();
        let above = here.parent().unwrap_or(&here);
        let path = self.path.strip_prefix(above).unwrap_or(&self.path);
        path.display().to_string()
    }
}

/// A batch in a file.
pub struct Batch {
    pub name: &'static str,
    pub entries: usize,
    pub bytes: usize,
    path: PathBuf,
}

/// What one program did on one batch.
pub struct Taken {
    /// Nanoseconds of a whole process.
    pub times: Times,
    /// The largest resident memory, in KiB, where the system tells it.
    pub memory: Option<u64>,
}

/// The batches, each in a file of this folder.
pub fn batches(folder: &Path) -> io::Result<Vec<Batch>> {
    let long = vec![0x52; MOST];
    let mixed = mixed::subjects(mixed::COUNT);
    let mixed = mixed.iter().map(|one| (&one.rule[..], &one.plan[..]));
    let mixed: Vec<(&[u8], &[u8])> = mixed.collect();
    let make = |name, file, entries: &[_]| Batch::make(name, folder.join(file), entries);
    Ok(vec![
        make("no entries", "none.bat", &[])?,
        make("R1 with P1", "r1.bat", &[(&R1[..], &P1[..]); MOST])?,
        make("mixed rules", "mixed.bat", &mixed.repeat(ROUNDS))?,
        make(
            "rules of 65,535 bytes",
            "long.bat",
            &[(&long[..], &P1[..]); LONG],
        )?,
    ])
}

impl Batch {
    fn make(name: &'static str, path: PathBuf, entries: &[(&[u8], &[u8])]) -> io::Result<Batch> {
        let bytes = bytes_of(entries);
        fs::write(&path, &bytes)?;
        Ok(Batch {
            name,
            entries: entries.len(),
            bytes: bytes.len(),
            path,
        })
    }

    /// Starts a program on the batch; what it prints goes to a file beside it.
    fn start(&self, program: &Program, batch: Stdio) -> io::Result<Child> {
        let report = File::create(self.report())?;
        let mut command = Command::new(&program.path);
        command.stdin(batch).stdout(report);
        command.spawn().map_err(|error| {
            let path = program.path.display();
            io::Error::other(format!("{path} cannot be started: {error}"))
        })
    }

    fn report(&self) -> PathBuf {
        self.path.with_extension("report")
    }

    /// How long a whole process took, and what it printed.
    fn run(&self, program: &Program) -> io::Result<(Duration, Vec<u8>)> {
        let batch = File::open(&self.path)?;
        let begun = Instant::now();
        self.start(program, batch.into())?.wait()?;
        let took = begun.elapsed();
        Ok((took, fs::read(self.report())?))
    }

    /// The largest resident memory of a process that has read the whole batch and waits for more.
    fn memory(&self, program: &Program) -> io::Result<Option<u64>> {
        let mut process = self.start(program, Stdio::piped())?;
        let mut stream = process.stdin.take().expect("piped");
        io::copy(&mut File::open(&self.path)?, &mut stream)?;
        let memory = at_rest(process.id());
        drop(stream);
        process.wait()?;
        Ok(memory)
    }
}

/// A process's high-water mark, in KiB, once it has been asleep for a while.
fn at_rest(process: u32) -> Option<u64> {
    let mut asleep = 0;
    loop {
        let status = fs::read_to_string(format!("/proc/{process}/status")).ok()?;
        let field = |name: &str| {
            let mut lines = status.lines();
            let rest = lines.find_map(|line| line.strip_prefix(name))?;
            rest.split_whitespace().next()
        };
        asleep = match field("State:")? {
            "S" => asleep + 1,
            _ => 0,
        };
        if asleep == 5 {
            return field("VmHWM:")?.parse().ok();
        }
        sleep(Duration::from_millis(20));
    }
}

/// Turn by turn each program on the batch; who is first changes with every turn. All print the same, in every turn.
pub fn measure(turns: usize, programs: &[Program], batch: &Batch) -> io::Result<Vec<Taken>> {
    let wanted = batch.run(&programs[0])?.1;
    let mut taken = vec![Vec::new(); programs.len()];
    for turn in 0..turns {
        for place in 0..programs.len() {
            let which = (turn + place) % programs.len();
            let (took, report) = batch.run(&programs[which])?;
            assert!(
                report == wanted,
                "{} differs on {}",
                programs[which].name,
                batch.name
            );
            taken[which].push(took.as_nanos() as f64);
        }
    }
    let mut all = Vec::new();
    for (program, mut taken) in programs.iter().zip(taken) {
        taken.sort_by(f64::total_cmp);
        let times = Times {
            median: taken[taken.len() / 2],
            least: taken[0],
        };
        let memory = batch.memory(program)?;
        all.push(Taken { times, memory });
    }
    Ok(all)
}
