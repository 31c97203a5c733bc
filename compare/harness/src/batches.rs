//! Batches of C-16 compared: random ones, cut at every byte, given to a program as one stream of cases, and its reports
//! held beside the plain implementation's, byte by byte. The plain and the tuned implementation that read a batch as it
//! comes are held beside it too, in the same pieces.

use compare::batch::{report, REFUSED};
use compare::batch_cases::Case;
use compare::generate::batches::{batch, boundaries, piece_size, ANY_SIZE};
use compare::generate::words::Words;
use compare::generate::Random;
use std::io::{self, BufRead, Write};

/// Batches up to so many bytes are cut at each of them.
const CUT: usize = 400;
/// Larger ones come whole, in pieces of so many sizes.
const TURNS: usize = 3;

/// The cases of so many batches; the same seed makes the same.
pub fn cases(seed: u64, batches: u64) -> impl Iterator<Item = Case> {
    let mut random = Random::new(seed);
    (0..batches).flat_map(move |_| {
        let (count, most) = match random.chance(80) {
            true => (random.below(5), random.pick(&[60, 90, 120])),
            false => (random.below(13), random.pick(&[400, 2000, ANY_SIZE])),
        };
        let batch = batch(&mut random, Words::ALL, count, most);
        of_batch(&mut random, &batch)
    })
}

fn of_batch(random: &mut Random, batch: &[u8]) -> Vec<Case> {
    let ends = match batch.len() {
        ..=CUT => (0..=batch.len()).collect(),
        _ => vec![batch.len(); TURNS],
    };
    let case = |end| Case::new(piece_size(random, batch), &batch[..end]);
    ends.into_iter().map(case).collect()
}

/// Writes cases as a stream; stops where nobody reads it any more.
pub fn write_all(cases: impl Iterator<Item = Case>, mut stream: impl Write) -> io::Result<()> {
    let mut bytes = Vec::new();
    for case in cases {
        bytes.clear();
        case.put(&mut bytes);
        stream.write_all(&bytes)?;
    }
    stream.flush()
}

/// A case whose report is another.
#[derive(Debug, PartialEq, Eq)]
pub struct Differing {
    pub who: &'static str,
    /// Its place among the cases.
    pub place: u64,
    pub case: Case,
    pub wanted: Vec<u8>,
    pub given: Vec<u8>,
}

#[derive(Debug, Default)]
pub struct Tally {
    pub cases: u64,
    /// How many reports end in a total; the others end in 75.
    pub totals: u64,
    pub differing: u64,
    pub first: Option<Differing>,
}

/// A tool that is not a program: its name, and its report of a case.
pub type Tool = (&'static str, fn(&Case) -> Vec<u8>);

/// What reads a batch as it comes, in the case's pieces.
pub const TOOLS: [Tool; 2] = [
    ("plain, read as it comes", |case| {
        in_pieces(case, |case, report| {
            compare::month::month(case.pieces(), report)
        })
    }),
    ("tuned", |case| {
        in_pieces(case, |case, report| tuned::month(case.pieces(), report))
    }),
];

fn in_pieces(case: &Case, month: impl Fn(&Case, &mut Vec<u8>) -> io::Result<()>) -> Vec<u8> {
    let mut report = Vec::new();
    month(case, &mut report).expect("nothing fails in memory");
    report
}

/// Holds a program's reports, each with an empty line after it, and those of other tools beside the plain
/// implementation's.
pub fn compare(
    cases: impl Iterator<Item = Case>,
    tools: &[Tool],
    mut reports: impl BufRead,
) -> io::Result<Tally> {
    const PROGRAM: &str = "the proved program";
    let mut tally = Tally::default();
    let mut last = Case::new(0, &[]);
    for case in cases {
        let wanted = report(&case.batch);
        for (who, tool) in tools {
            tally.look(who, &case, &wanted, tool(&case));
        }
        let (given, ended) = next(&mut reports)?;
        let closed = [&wanted[..], b"\n"].concat();
        tally.look(PROGRAM, &case, &closed, given);
        tally.cases += 1;
        tally.totals += u64::from(!wanted.ends_with(REFUSED.as_bytes()));
        if ended {
            return Ok(tally);
        }
        last = case;
    }
    // After the last report there is nothing.
    let (more, _) = next(&mut reports)?;
    tally.look(PROGRAM, &last, &[], more);
    Ok(tally)
}

impl Tally {
    /// Counts what differs and keeps the first.
    pub fn look(&mut self, who: &'static str, case: &Case, wanted: &[u8], given: Vec<u8>) {
        if given == wanted {
            return;
        }
        self.differing += 1;
        self.first.get_or_insert_with(|| Differing {
            who,
            place: self.cases,
            case: case.clone(),
            wanted: wanted.to_vec(),
            given,
        });
    }
}

/// A report with the empty line after it, or what there is before the reports end, and whether they do.
fn next(reports: &mut impl BufRead) -> io::Result<(Vec<u8>, bool)> {
    let mut given = Vec::new();
    loop {
        let begins = given.len();
        match reports.read_until(b'\n', &mut given)? {
            0 => return Ok((given, true)),
            _ if &given[begins..] == b"\n" => return Ok((given, false)),
            _ => {}
        }
    }
}

/// Where a batch is parted into writes: byte by byte, short ones, or at boundaries and beside them.
pub fn writes(random: &mut Random, batch: &[u8]) -> Vec<usize> {
    let mut ends: Vec<usize> = match random.below(4) {
        0 if batch.len() <= 2000 => (1..batch.len()).collect(),
        0 | 1 => some_ends(random, batch.len(), 9),
        2 => some_ends(random, batch.len(), 3000),
        _ => {
            let boundaries = boundaries(batch);
            let beside = random.below(3);
            boundaries
                .iter()
                .map(|end| (end + beside).max(2) - 1)
                .collect()
        }
    };
    // Of long batches the first writes are short.
    ends.truncate(4000);
    ends.retain(|&end| end < batch.len());
    ends.push(batch.len());
    ends
}

fn some_ends(random: &mut Random, length: usize, most: usize) -> Vec<usize> {
    let mut end = 0;
    let mut ends = Vec::new();
    while end < length {
        end += random.among(1, most);
        ends.push(end);
    }
    ends
}
