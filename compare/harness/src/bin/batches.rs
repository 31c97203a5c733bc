//! `batches SEED BATCHES`: gives random batches (C-16), cut at every byte, as one stream of cases to the proved program
//! `conform_batches`, and some whole to the proved program `month` in many small writes, and compares every byte of every
//! report with the plain implementation's. Prints how many cases there were, how their reports ended and how many differ;
//! the first differing one in full, its case going to `target/differing.bat`. The exit status is 0 when none differs. The
//! programs' paths are the environment's CONFORM_BATCHES and MONTH.

use compare::batch::report;
use compare::batch_cases::Case;
use compare::generate::batches::{batch, ANY_SIZE};
use compare::generate::words::Words;
use compare::generate::Random;
use harness::batches::{cases, compare, write_all, writes, Tally, TOOLS};
use std::io::{self, BufReader, BufWriter, Write};
use std::process::{Child, Command, ExitCode, Stdio};
use std::thread;

const CASE: &str = "target/differing.bat";

fn main() -> ExitCode {
    let mut arguments = std::env::args().skip(1);
    let mut number = || arguments.next().and_then(|text| text.parse::<u64>().ok());
    let (Some(seed), Some(batches)) = (number(), number()) else {
        eprintln!("batches SEED BATCHES");
        return ExitCode::from(2);
    };
    match all(seed, batches) {
        Ok(0) => ExitCode::SUCCESS,
        Ok(_) => ExitCode::FAILURE,
        Err(error) => {
            eprintln!("batches: {error}");
            ExitCode::from(2)
        }
    }
}

/// How many differ.
fn all(seed: u64, batches: u64) -> io::Result<u64> {
    let streamed = streamed(seed, batches)?;
    let refused = streamed.cases - streamed.totals;
    println!(
        "conform_batches: {} cases of {batches} batches; {} reports end in a total, {refused} in 75",
        streamed.cases, streamed.totals
    );
    let whole = whole(seed, batches.div_ceil(4))?;
    let refused = whole.cases - whole.totals;
    println!(
        "month: {} batches in small writes; {} reports end in a total, {refused} in 75",
        whole.cases, whole.totals
    );
    println!("in four ways: proved, plain Rust, plain and tuned Rust that read as it comes");
    let differing = streamed.differing + whole.differing;
    println!("{differing} differing");
    for tally in [streamed, whole] {
        show(&tally)?;
    }
    Ok(differing)
}

/// Starts a program that the environment names.
fn start(variable: &str) -> io::Result<Child> {
    let path = std::env::var(variable)
        .map_err(|_| io::Error::other(format!("{variable} names no program")))?;
    let mut command = Command::new(&path);
    command.stdin(Stdio::piped()).stdout(Stdio::piped());
    command
        .spawn()
        .map_err(|error| io::Error::other(format!("{path} cannot be started: {error}")))
}

/// The random cases, by one process. The cases are made twice, so that none need be kept.
fn streamed(seed: u64, batches: u64) -> io::Result<Tally> {
    let mut program = start("CONFORM_BATCHES")?;
    let stream = program.stdin.take().expect("piped");
    let reports = program.stdout.take().expect("piped");
    // Whoever stops reading ends its reports too, and that is found.
    let writer = thread::spawn(move || write_all(cases(seed, batches), BufWriter::new(stream)));
    let tally = compare(cases(seed, batches), &TOOLS, BufReader::new(reports))?;
    let _ = writer.join().expect("no panic");
    program.wait()?;
    Ok(tally)
}

/// Batches given to the program itself, each by a process of its own.
fn whole(seed: u64, batches: u64) -> io::Result<Tally> {
    let mut random = Random::new(seed ^ 0x4D4F_4E54);
    let mut tally = Tally::default();
    for _ in 0..batches {
        let most = random.pick(&[100, 300, 2000, ANY_SIZE]);
        let count = random.below(13);
        let batch = batch(&mut random, Words::ALL, count, most);
        let ends = writes(&mut random, &batch);
        let wanted = report(&batch);
        let given = by_program(&batch, &ends)?;
        tally.look(
            "the proved program month",
            &Case::new(0, &batch),
            &wanted,
            given,
        );
        tally.cases += 1;
        tally.totals += u64::from(!wanted.ends_with(b"75\n"));
    }
    Ok(tally)
}

/// What the program prints for a batch that is written up to each of these ends at once.
fn by_program(batch: &[u8], ends: &[usize]) -> io::Result<Vec<u8>> {
    let mut program = start("MONTH")?;
    let mut stream = program.stdin.take().expect("piped");
    thread::scope(|scope| {
        scope.spawn(move || {
            let mut from = 0;
            for &end in ends {
                // A program may end as soon as it knows that the batch is refused.
                if stream.write_all(&batch[from..end]).is_err() {
                    return;
                }
                from = end;
            }
        });
        Ok(program.wait_with_output()?.stdout)
    })
}

fn show(tally: &Tally) -> io::Result<()> {
    let Some(first) = &tally.first else {
        return Ok(());
    };
    let mut bytes = Vec::new();
    first.case.put(&mut bytes);
    std::fs::write(CASE, &bytes)?;
    println!(
        "\ncase {}, pieces of {}, by {}:",
        first.place, first.case.size, first.who
    );
    let hex: String = first
        .case
        .batch
        .iter()
        .map(|byte| format!("{byte:02X}"))
        .collect();
    println!("batch  {hex}");
    println!("wanted {:?}", String::from_utf8_lossy(&first.wanted));
    println!("given  {:?}", String::from_utf8_lossy(&first.given));
    println!("the case is in compare/{CASE}");
    Ok(())
}
