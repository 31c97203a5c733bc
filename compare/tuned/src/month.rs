//! C-16, what a month saved: one pass over a batch as it comes. Entries are worked out where they were read to, lines are
//! made where they are written from; nothing is allocated but these two buffers, and nothing is copied but the part of
//! an entry that one read ended in.

use crate::answer::Answer;
use crate::law::*;
use crate::places::two;
use crate::{count_fused, read_rule};
use std::io::{self, ErrorKind, Read, Write};

/// A read takes up to so much at once; several times the longest entry that is held.
const READ: usize = 1 << 17;
/// A write takes up to so much at once.
const WRITE: usize = 1 << 16;
/// A line is shorter.
const LINE: usize = 128;

/// Reads a batch to its end and writes its report.
#[inline(never)]
pub fn month(batch: impl Read, report: impl Write) -> io::Result<()> {
    let mut batch = Batch {
        source: batch,
        held: vec![0; READ],
        at: 0,
        end: 0,
    };
    let mut lines = Lines {
        report,
        held: vec![0; WRITE + LINE],
        end: 0,
    };
    match entries(&mut batch, &mut lines)? {
        Some(total) => lines.text(&total.line())?,
        None => lines.text("refused 75\n")?,
    }
    lines.flush()
}

/// None if the batch is not just its header and the entries that it counts.
#[inline(always)]
fn entries(
    batch: &mut Batch<impl Read>,
    lines: &mut Lines<impl Write>,
) -> io::Result<Option<Total>> {
    const HEAD: usize = BATCH_MARK.len() + 2;
    if !batch.hold(HEAD)? || batch.bytes(0, BATCH_MARK.len()) != BATCH_MARK {
        return Ok(None);
    }
    let count = batch.two(BATCH_MARK.len());
    batch.at += HEAD;
    let mut total = Total::default();
    for _ in 0..count {
        let Some(answer) = entry(batch)? else {
            return Ok(None);
        };
        total.add(&answer);
        lines.line(&answer)?;
    }
    Ok((!batch.hold(1)?).then_some(total))
}

/// The answer of the next entry, none if it is not whole.
#[inline(always)]
fn entry(batch: &mut Batch<impl Read>) -> io::Result<Option<Answer>> {
    if !batch.hold(2)? {
        return Ok(None);
    }
    let rule = batch.two(0);
    if rule > RULE_BYTES_MAX {
        return long_rule(batch, rule);
    }
    if !batch.hold(2 + rule + 2)? {
        return Ok(None);
    }
    let plan = batch.two(2 + rule);
    if plan > PLAN_BYTES_MAX {
        return long_plan(batch, rule, plan);
    }
    let whole = 2 + rule + 2 + plan;
    if !batch.hold(whole)? {
        return Ok(None);
    }
    let answer = count_fused(batch.bytes(2, rule), batch.bytes(2 + rule + 2, plan));
    batch.at += whole;
    Ok(Some(answer))
}

/// Whatever its plan is.
#[cold]
fn long_rule(batch: &mut Batch<impl Read>, rule: usize) -> io::Result<Option<Answer>> {
    batch.at += 2;
    if !batch.skip(rule)? || !batch.hold(2)? {
        return Ok(None);
    }
    let plan = batch.two(0);
    batch.at += 2;
    let whole = batch.skip(plan)?;
    Ok(whole.then_some(Answer::refused(1, 0)))
}

/// The rule's refusal, if it has one, goes first.
#[cold]
fn long_plan(batch: &mut Batch<impl Read>, rule: usize, plan: usize) -> io::Result<Option<Answer>> {
    let answer = match read_rule(batch.bytes(2, rule)) {
        answer if answer.number != 0 => answer,
        _ => Answer::refused(20, 0),
    };
    batch.at += 2 + rule + 2;
    Ok(batch.skip(plan)?.then_some(answer))
}

/// What was read and not yet taken: the bytes of `held` from `at` to `end`.
struct Batch<R> {
    source: R,
    held: Vec<u8>,
    at: usize,
    end: usize,
}

impl<R: Read> Batch<R> {
    /// Whether the batch has so many more bytes, which are then held; no more than the longest entry.
    #[inline(always)]
    fn hold(&mut self, count: usize) -> io::Result<bool> {
        Ok(self.end - self.at >= count || self.read_on(count)?)
    }

    /// Moves what is held to the front, and reads until it is enough. Reads ask for all the room there is.
    #[cold]
    fn read_on(&mut self, count: usize) -> io::Result<bool> {
        self.held.copy_within(self.at..self.end, 0);
        self.end -= self.at;
        self.at = 0;
        while self.end < count {
            match self.read()? {
                0 => return Ok(false),
                read => self.end += read,
            }
        }
        Ok(true)
    }

    fn read(&mut self) -> io::Result<usize> {
        loop {
            match self.source.read(&mut self.held[self.end..]) {
                Err(error) if error.kind() == ErrorKind::Interrupted => {}
                read => return read,
            }
        }
    }

    /// Goes past so many bytes; false if there are not as many. Those not read yet are read and left.
    fn skip(&mut self, count: usize) -> io::Result<bool> {
        let mut left = count;
        while self.end - self.at < left {
            left -= self.end - self.at;
            (self.at, self.end) = (0, 0);
            match self.read()? {
                0 => return Ok(false),
                read => self.end = read,
            }
        }
        self.at += left;
        Ok(true)
    }

    /// Bytes that are held, from so many places on.
    #[inline(always)]
    fn bytes(&self, from: usize, count: usize) -> &[u8] {
        let from = self.at + from;
        debug_assert!(from + count <= self.end);
        unsafe { self.held.get_unchecked(from..from + count) }
    }

    #[inline(always)]
    fn two(&self, from: usize) -> usize {
        usize::from(two(self.bytes(from, 2), 0))
    }
}

/// What the last line says. Costs of 65,535 entries fit by far.
#[derive(Default)]
struct Total {
    accepted: u64,
    refused: u64,
    before: u64,
    after: u64,
}

impl Total {
    #[inline(always)]
    fn add(&mut self, answer: &Answer) {
        let accepted = answer.number == 0;
        self.accepted += u64::from(accepted);
        self.refused += u64::from(!accepted);
        // A refusal's counts are 0.
        self.before += answer.before as u64;
        self.after += answer.after as u64;
    }

    fn line(&self) -> String {
        let saved = self.before as i64 - self.after as i64;
        format!(
            "total {} {} {} {} {saved}\n",
            self.accepted, self.refused, self.before, self.after
        )
    }
}

/// Lines not yet written: the bytes of `held` up to `end`. There is always room for one more.
struct Lines<W> {
    report: W,
    held: Vec<u8>,
    end: usize,
}

/// Up to three digits, and a space after them, in one load.
const DIGITS: [[u8; 4]; 1000] = {
    let mut all = [[b' '; 4]; 1000];
    let mut number = 0;
    while number < 1000 {
        let [high, middle, low] = [number / 100, number / 10 % 10, number % 10];
        let (high, middle, low) = (b'0' + high as u8, b'0' + middle as u8, b'0' + low as u8);
        all[number] = match number {
            ..10 => [low, b' ', b' ', b' '],
            10..100 => [middle, low, b' ', b' '],
            _ => [high, middle, low, b' '],
        };
        number += 1;
    }
    all
};

impl<W: Write> Lines<W> {
    #[inline(always)]
    fn line(&mut self, answer: &Answer) -> io::Result<()> {
        if answer.number == 0 {
            self.word(b"accepted ");
            self.number(answer.gates);
            self.number(answer.wires);
            self.number(answer.before);
            self.number(answer.after);
        } else {
            self.word(b"refused ");
            self.number(usize::from(answer.number));
            if answer.number <= 11 {
                self.number(answer.place);
            }
        }
        // The space after the last number becomes the line's end.
        self.put(self.end - 1, [b'\n']);
        match self.end < WRITE {
            true => Ok(()),
            false => self.flush(),
        }
    }

    #[inline(always)]
    fn put<const N: usize>(&mut self, place: usize, bytes: [u8; N]) {
        debug_assert!(place + N <= self.held.len());
        unsafe {
            self.held
                .as_mut_ptr()
                .add(place)
                .cast::<[u8; N]>()
                .write_unaligned(bytes)
        };
    }

    #[inline(always)]
    fn word<const N: usize>(&mut self, word: &[u8; N]) {
        self.put(self.end, *word);
        self.end += N;
    }

    /// A number below a million, and a space.
    #[inline(always)]
    fn number(&mut self, number: usize) {
        if number < 1000 {
            self.digits(number);
            self.end += 1;
            return;
        }
        self.digits(number / 1000);
        let low = [number / 100, number / 10, number].map(|digits| b'0' + (digits % 10) as u8);
        self.put(self.end, [low[0], low[1], low[2], b' ']);
        self.end += 4;
    }

    /// Up to three digits; a space stands after them, or is written over.
    #[inline(always)]
    fn digits(&mut self, number: usize) {
        self.put(self.end, DIGITS[number]);
        self.end += 1 + usize::from(number >= 10) + usize::from(number >= 100);
    }

    fn text(&mut self, text: &str) -> io::Result<()> {
        self.flush()?;
        self.report.write_all(text.as_bytes())
    }

    #[cold]
    fn flush(&mut self) -> io::Result<()> {
        self.report.write_all(&self.held[..self.end])?;
        self.end = 0;
        self.report.flush()
    }
}
