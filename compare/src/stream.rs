//! The conformance stream: cases in, one line a case out.

use crate::answer::Answer;
use crate::circuit::{accept, preconditions, read_rule, Gate};
use crate::write::Wire;
use crate::{circuit_file, direct, plan, run, write};

pub const STREAM_MARK: [u8; 5] = [0x43, 0x41, 0x53, 0x00, 0x01];

// What result places and buffer bytes hold before a call, so that untouched ones show.
pub(crate) const UNTOUCHED_RESULT: u32 = 3_735_928_559;
const UNTOUCHED_BYTE: u8 = 0xEE;

pub const READ: u8 = 0x01;
pub const DIRECT: u8 = 0x02;
pub const CHECK: u8 = 0x03;
pub const WRITE: u8 = 0x04;
pub const FUSED: u8 = 0x05;
pub const PLAIN: u8 = 0x06;
pub const READ_CIRCUIT: u8 = 0x07;
pub const RECORD: u8 = 0x08;
pub const RUN_CIRCUIT: u8 = 0x09;
/// The last operation that is built; they are numbered from 1.
pub const LAST: u8 = RUN_CIRCUIT;

#[derive(Clone, Debug, Default, PartialEq, Eq)]
pub struct Case {
    pub operation: u8,
    pub desk: u8,
    pub number: u16,
    pub room: u16,
    pub first: Vec<u8>,
    pub second: Vec<u8>,
    pub inputs: Vec<u32>,
}

impl Case {
    /// Adds the case's bytes; its lengths fit their fields.
    pub fn put(&self, stream: &mut Vec<u8>) {
        stream.extend([self.operation, self.desk]);
        stream.extend(self.number.to_be_bytes());
        stream.extend(self.room.to_be_bytes());
        for part in [&self.first, &self.second] {
            stream.extend((part.len() as u16).to_be_bytes());
            stream.extend(part);
        }
        stream.push(self.inputs.len() as u8);
        for input in &self.inputs {
            stream.extend(input.to_be_bytes());
        }
    }

    /// Takes a case off the front of the stream, or none if the stream ends inside it.
    fn take(rest: &mut &[u8]) -> Option<Case> {
        let operation = take(rest, 1)?[0];
        let desk = take(rest, 1)?[0];
        let number = two(rest)?;
        let room = two(rest)?;
        let length = two(rest)?;
        let first = take(rest, usize::from(length))?.to_vec();
        let length = two(rest)?;
        let second = take(rest, usize::from(length))?.to_vec();
        let mut inputs = Vec::new();
        for _ in 0..take(rest, 1)?[0] {
            inputs.push(u32::from_be_bytes(take(rest, 4)?.try_into().ok()?));
        }
        Some(Case {
            operation,
            desk,
            number,
            room,
            first,
            second,
            inputs,
        })
    }

    /// The answer and what follows it on the line, or none for an operation not built.
    pub fn work(&self) -> Option<(Answer, String)> {
        let room = usize::from(self.room);
        let mut results = vec![UNTOUCHED_RESULT; room];
        match self.operation {
            READ => Some((read_rule(&self.first), String::new())),
            DIRECT => {
                let answer = direct::run(&self.first, &self.inputs, &mut results);
                Some((answer, results_text(&results)))
            }
            CHECK => Some((plan::check_plan(&self.first, &self.second), String::new())),
            WRITE => {
                let mut buffer = vec![UNTOUCHED_BYTE; room];
                let answer = write::write(&self.first, &self.second, &mut buffer);
                Some((answer, buffer_text(&buffer, answer.bytes)))
            }
            FUSED => {
                let answer = run::run(&self.first, &self.second, &self.inputs, &mut results);
                Some((answer, results_text(&results)))
            }
            PLAIN => Some((read_rule(&self.first), gates_text(&self.first))),
            READ_CIRCUIT => Some((circuit_file::read_circuit(&self.first), String::new())),
            RECORD => {
                let wire = Wire(usize::from(self.number));
                let record = circuit_file::record(&self.first, wire);
                let answer = circuit_file::read_circuit(&self.first);
                Some((answer, format!(" | {}", hex(record))))
            }
            RUN_CIRCUIT => {
                let answer = run::run_circuit(&self.first, &self.inputs, &mut results);
                Some((answer, results_text(&results)))
            }
            _ => None,
        }
    }
}

fn take<'a>(rest: &mut &'a [u8], count: usize) -> Option<&'a [u8]> {
    let taken = rest.get(..count)?;
    *rest = &rest[count..];
    Some(taken)
}

fn two(rest: &mut &[u8]) -> Option<u16> {
    let bytes = take(rest, 2)?;
    Some(u16::from_be_bytes([bytes[0], bytes[1]]))
}

pub(crate) fn results_text(results: &[u32]) -> String {
    let mut text = String::from(" |");
    for result in results {
        text.push_str(&format!(" {result}"));
    }
    text
}

/// The written bytes, then how many of the others are untouched.
fn buffer_text(buffer: &[u8], written: usize) -> String {
    let (written, others) = buffer.split_at(written);
    let untouched = others.iter().filter(|&&b| b == UNTOUCHED_BYTE).count();
    format!(" | {} {untouched}", hex(written))
}

/// Hexadecimal pairs, capitals, or `-` for none.
fn hex(bytes: &[u8]) -> String {
    match bytes {
        [] => "-".to_string(),
        _ => bytes.iter().map(|byte| format!("{byte:02X}")).collect(),
    }
}

/// Each gate as CODE.A.B.C.NEEDS; a refused rule has none.
fn gates_text(rule: &[u8]) -> String {
    let mut text = String::from(" |");
    if let Ok(accepted) = accept(rule) {
        let circuit = accepted.circuit;
        let needs = preconditions(&circuit);
        for (gate, needs) in circuit.gates.iter().zip(&needs) {
            let mut abc = match gate {
                Gate::Start(variable, _) => vec![*variable],
                Gate::Word(word) => vec![*word as usize],
                Gate::Bit(bit) => vec![usize::from(*bit)],
                _ => gate.arguments().iter().map(|argument| argument.0).collect(),
            };
            abc.resize(3, 0);
            text.push_str(&format!(
                " {:02X}.{}.{}.{}.{}",
                gate.code(),
                abc[0],
                abc[1],
                abc[2],
                needs.hex()
            ));
        }
    }
    text
}

/// All cases of a stream; none if it has another mark or ends inside a case.
pub fn cases(stream: &[u8]) -> Option<Vec<Case>> {
    let mut rest = stream.strip_prefix(&STREAM_MARK[..])?;
    let mut cases = Vec::new();
    while !rest.is_empty() {
        cases.push(Case::take(&mut rest)?);
    }
    Some(cases)
}

/// All lines of a stream, handed out one by one. An operation that is not built ends it like a
/// stream that ends inside a case: nothing says what its line would be.
pub fn lines(stream: &[u8], mut line: impl FnMut(&str)) {
    let mut rest = stream;
    if take(&mut rest, STREAM_MARK.len()) != Some(&STREAM_MARK[..]) {
        line("refused");
        return;
    }
    while !rest.is_empty() {
        match Case::take(&mut rest).and_then(|case| case.work()) {
            Some((answer, after)) => line(&(answer.line() + &after)),
            None => {
                line("refused");
                return;
            }
        }
    }
}
