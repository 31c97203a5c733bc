//! Cases of C-16: a stream of batches, each with the size of the pieces that it is to be fed in, and the stream of their
//! reports. A case is the piece size in two bytes, the batch's length in four, and the batch.

use crate::batch::report;
use std::io::{self, Read, Write};

/// What size 0 stands for.
pub const WHOLE: usize = 65_536;

#[derive(Clone, Debug, PartialEq, Eq)]
pub struct Case {
    /// The piece size as the stream has it; 0 for pieces of 65,536.
    pub size: u16,
    pub batch: Vec<u8>,
}

impl Case {
    pub fn new(size: usize, batch: &[u8]) -> Case {
        Case {
            size: u16::try_from(size).expect("a piece size of two bytes"),
            batch: batch.to_vec(),
        }
    }

    /// Adds the case's bytes.
    pub fn put(&self, stream: &mut Vec<u8>) {
        stream.extend(self.size.to_be_bytes());
        stream.extend((self.batch.len() as u32).to_be_bytes());
        stream.extend(&self.batch);
    }

    /// Takes the next case off a stream, or none if the stream ends before it is whole.
    pub fn take(stream: &mut impl Read) -> io::Result<Option<Case>> {
        let mut head = Vec::new();
        stream.take(6).read_to_end(&mut head)?;
        let [a, b, c, d, e, f] = head[..] else {
            return Ok(None);
        };
        let length = u32::from_be_bytes([c, d, e, f]);
        let mut batch = Vec::new();
        stream.take(u64::from(length)).read_to_end(&mut batch)?;
        let case = Case {
            size: u16::from_be_bytes([a, b]),
            batch,
        };
        Ok((case.batch.len() == length as usize).then_some(case))
    }

    /// The batch in pieces of the case's size; the last may be shorter.
    pub fn pieces(&self) -> Pieces<'_> {
        let size = match self.size {
            0 => WHOLE,
            size => usize::from(size),
        };
        let rest = &self.batch;
        Pieces {
            rest,
            size,
            left: size,
        }
    }
}

/// A batch that a read gives no more of than to the end of a piece.
pub struct Pieces<'a> {
    rest: &'a [u8],
    size: usize,
    /// What is left of the present piece.
    left: usize,
}

impl Read for Pieces<'_> {
    fn read(&mut self, places: &mut [u8]) -> io::Result<usize> {
        if self.left == 0 {
            self.left = self.size;
        }
        let most = places.len().min(self.left);
        let read = self.rest.read(&mut places[..most])?;
        self.left -= read;
        Ok(read)
    }
}

/// Writes the report of every case of a stream, and an empty line after each. The report does not depend on the pieces,
/// and here it is made of the whole batch.
pub fn answer_all(mut stream: impl Read, mut reports: impl Write) -> io::Result<()> {
    while let Some(case) = Case::take(&mut stream)? {
        reports.write_all(&report(&case.batch))?;
        reports.write_all(b"\n")?;
    }
    reports.flush()
}
