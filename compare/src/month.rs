//! C-16's second program: the report over a batch that is read as it comes, and need not fit in memory. What is held is
//! one entry, and of a part over its limit no more than shows that it is.

use crate::batch::{answer, line, Total, REFUSED};
use crate::law::{BATCH_MARK, PLAN_BYTES_MAX, RULE_BYTES_MAX};
use std::io::{self, ErrorKind, Read, Write};

/// Reads a batch to its end and writes its report, the same bytes as `batch::report`, whatever each read gives.
pub fn month(mut batch: impl Read, mut report: impl Write) -> io::Result<()> {
    match entries(&mut batch, &mut report)? {
        Some(total) => report.write_all(total.line().as_bytes())?,
        None => report.write_all(REFUSED.as_bytes())?,
    }
    report.flush()
}

/// Writes the lines of the entries that are whole. None if the batch is not just its header and the entries that it counts.
fn entries(batch: &mut impl Read, report: &mut impl Write) -> io::Result<Option<Total>> {
    let mut head = [0; BATCH_MARK.len()];
    if !fill(batch, &mut head)? || head != BATCH_MARK {
        return Ok(None);
    }
    let Some(count) = two(batch)? else {
        return Ok(None);
    };
    let (mut rule, mut plan) = (Vec::new(), Vec::new());
    let mut total = Total::default();
    for _ in 0..count {
        let whole =
            part(batch, RULE_BYTES_MAX, &mut rule)? && part(batch, PLAN_BYTES_MAX, &mut plan)?;
        if !whole {
            return Ok(None);
        }
        let answer = answer(&rule, &plan);
        report.write_all(line(&answer).as_bytes())?;
        total.add(&answer);
    }
    let bytes_left = fill(batch, &mut [0])?;
    Ok((!bytes_left).then_some(total))
}

/// Reads a two-byte length and as many bytes, of which one more than the limit is kept at most: so many are refused as
/// all of them would be. False if the batch ends before.
fn part(batch: &mut impl Read, limit: usize, kept: &mut Vec<u8>) -> io::Result<bool> {
    let Some(length) = two(batch)? else {
        return Ok(false);
    };
    let length = usize::from(length);
    kept.resize(length.min(limit + 1), 0);
    let skipped = (length - kept.len()) as u64;
    Ok(fill(batch, kept)? && skip(batch, skipped)?)
}

fn two(batch: &mut impl Read) -> io::Result<Option<u16>> {
    let mut bytes = [0; 2];
    let whole = fill(batch, &mut bytes)?;
    Ok(whole.then_some(u16::from_be_bytes(bytes)))
}

/// Fills the places, by as many reads as it takes. False if the batch ends before.
fn fill(batch: &mut impl Read, places: &mut [u8]) -> io::Result<bool> {
    match batch.read_exact(places) {
        Ok(()) => Ok(true),
        Err(error) if error.kind() == ErrorKind::UnexpectedEof => Ok(false),
        Err(error) => Err(error),
    }
}

fn skip(batch: &mut impl Read, count: u64) -> io::Result<bool> {
    let skipped = io::copy(&mut batch.take(count), &mut io::sink())?;
    Ok(skipped == count)
}
