//! C-16, what a month saved: the report over a batch that is held whole. `month` makes the same of a batch that is
//! read as it comes.

use crate::answer::Answer;
use crate::law::BATCH_MARK;
use crate::plan::accept_both;
use crate::write::{self, fuse};

/// What is printed where the mark or version is wrong, the batch ends too early or bytes are left.
pub const REFUSED: &str = "refused 75\n";

/// The lines of the entries that are whole, then the total, or 75 and no total.
pub fn report(batch: &[u8]) -> Vec<u8> {
    let mut lines = String::new();
    let mut total = Total::default();
    let whole = entries(batch, |rule, plan| {
        let answer = answer(rule, plan);
        lines.push_str(&line(&answer));
        total.add(&answer);
    });
    match whole {
        Some(()) => lines.push_str(&total.line()),
        None => lines.push_str(REFUSED),
    }
    lines.into_bytes()
}

/// Hands out the entries that are whole, one by one. None if the batch is not just its header and the entries that it
/// counts.
pub fn entries(batch: &[u8], mut each: impl FnMut(&[u8], &[u8])) -> Option<()> {
    let mut rest = batch;
    if take(&mut rest, BATCH_MARK.len())? != BATCH_MARK {
        return None;
    }
    for _ in 0..two(&mut rest)? {
        let rule = part(&mut rest)?;
        let plan = part(&mut rest)?;
        each(rule, plan);
    }
    rest.is_empty().then_some(())
}

/// A two-byte length and as many bytes.
fn part<'a>(rest: &mut &'a [u8]) -> Option<&'a [u8]> {
    let length = two(rest)?;
    take(rest, usize::from(length))
}

fn two(rest: &mut &[u8]) -> Option<u16> {
    let bytes = take(rest, 2)?;
    Some(u16::from_be_bytes([bytes[0], bytes[1]]))
}

fn take<'a>(rest: &mut &'a [u8], count: usize) -> Option<&'a [u8]> {
    let taken = rest.get(..count)?;
    *rest = &rest[count..];
    Some(taken)
}

/// What document 01's program answers. It lends no buffer here, so this is never 50.
pub fn answer(rule: &[u8], plan: &[u8]) -> Answer {
    match accept_both(rule, plan) {
        Ok((accepted, plan)) => {
            let fused = fuse(&accepted.circuit, &plan);
            write::answer(&accepted, &fused, &fused.file())
        }
        Err(refusal) => refusal.into(),
    }
}

/// Document 01's line: of a rule's refusals, 1 to 11, the place comes after the number.
pub fn line(answer: &Answer) -> String {
    match answer.number {
        0 => format!(
            "accepted {} {} {} {}\n",
            answer.gates, answer.wires, answer.before, answer.after
        ),
        1..=11 => format!("refused {} {}\n", answer.number, answer.place),
        number => format!("refused {number}\n"),
    }
}

/// What the last line says: costs are those of the accepted entries.
#[derive(Clone, Copy, Debug, Default)]
pub struct Total {
    accepted: usize,
    refused: usize,
    before: usize,
    after: usize,
}

impl Total {
    pub fn add(&mut self, answer: &Answer) {
        match answer.number {
            0 => self.accepted += 1,
            _ => self.refused += 1,
        }
        // A refusal's counts are 0.
        self.before += answer.before;
        self.after += answer.after;
    }

    pub fn line(&self) -> String {
        let saved = self.before as i64 - self.after as i64;
        format!(
            "total {} {} {} {} {saved}\n",
            self.accepted, self.refused, self.before, self.after
        )
    }
}

/// The bytes of a batch of these entries, each a rule and a plan. There are at most 65,535, no part longer than that.
pub fn bytes_of<P: AsRef<[u8]>>(entries: &[(P, P)]) -> Vec<u8> {
    let mut batch = BATCH_MARK.to_vec();
    put_two(entries.len(), &mut batch);
    for (rule, plan) in entries {
        for part in [rule.as_ref(), plan.as_ref()] {
            put_two(part.len(), &mut batch);
            batch.extend(part);
        }
    }
    batch
}

fn put_two(number: usize, bytes: &mut Vec<u8>) {
    let number = u16::try_from(number).expect("a number of two bytes");
    bytes.extend(number.to_be_bytes());
}
