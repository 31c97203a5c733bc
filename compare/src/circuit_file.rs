//! A circuit file from any house (C-11): rows 60 to 62, its records, and the part of it that holds one.
//! FF FF is admitted as the output of any variable (C-13). Files of both versions are read, each with its own size of
//! guards (C-17).

use crate::answer::{Answer, Refusal};
use crate::circuit::Settings;
use crate::law::*;
use crate::write::{Fused, Record, Wire};

/// A file that rows 60 and 61 pass; `accept` gives only those that row 62 passes too.
#[derive(Debug)]
pub struct CircuitFile<'a> {
    pub circuit: Fused,
    /// For each wire the part of the file that holds its record.
    pub parts: Vec<&'a [u8]>,
    pub version: Version,
    bytes: usize,
}

impl CircuitFile<'_> {
    pub fn answer(&self) -> Answer {
        Answer::of_file(self.parts.len(), self.bytes)
    }

    /// The variables' kinds, as the input records have them.
    pub fn variables(&self) -> Vec<Kind> {
        let kind = |record: &Record| match record {
            Record::Input(_, kind) => Some(*kind),
            _ => None,
        };
        self.circuit.records.iter().filter_map(kind).collect()
    }
}

/// Checks the rows one after the other, each over the whole file, so the lowest number decides.
pub fn accept(file: &[u8]) -> Result<CircuitFile<'_>, Refusal> {
    let header = header(file).ok_or(Refusal::nowhere(60))?;
    let laid_out = lay_out(file, &header).ok_or(Refusal::nowhere(61))?;
    if !holds_together(&laid_out.circuit) {
        return Err(Refusal::nowhere(62));
    }
    Ok(laid_out)
}

/// Whether a file has the mark and version of C-17.
pub fn is_version_2(file: &[u8]) -> bool {
    file.starts_with(&[&CIRCUIT_MARK[..], &VERSION_2.bytes].concat())
}

/// The operation "read a circuit file".
pub fn read_circuit(file: &[u8]) -> Answer {
    match accept(file) {
        Ok(accepted) => accepted.answer(),
        Err(refusal) => refusal.into(),
    }
}

/// The operation "one record of a circuit file": empty for a refused file or a number that is no wire.
pub fn record(file: &[u8], wire: Wire) -> &[u8] {
    match accept(file) {
        Ok(accepted) => accepted.parts.get(wire.0).copied().unwrap_or(&[]),
        Err(_) => &[],
    }
}

struct Header {
    version: Version,
    variables: usize,
    wires: usize,
}

/// What stands before the records, or none by row 60.
fn header(file: &[u8]) -> Option<Header> {
    if !(CIRCUIT_BYTES_MIN..=CIRCUIT_BYTES_MAX).contains(&file.len()) {
        return None;
    }
    let mut rest = file;
    if take(&mut rest, CIRCUIT_MARK.len())? != CIRCUIT_MARK {
        return None;
    }
    let version = Version::of_bytes(take(&mut rest, 2)?)?;
    let variables = usize::from(byte(&mut rest)?);
    let wires = number(&mut rest)?;
    let good = (VARIABLES_MIN..=VARIABLES_MAX).contains(&variables) && wires <= WIRES_MAX;
    good.then_some(Header {
        version,
        variables,
        wires,
    })
}

/// The records and the outputs, ending where the file ends, or none by row 61.
fn lay_out<'a>(file: &'a [u8], header: &Header) -> Option<CircuitFile<'a>> {
    let mut rest = &file[CIRCUIT_BYTES_MIN..];
    let (mut records, mut parts) = (Vec::new(), Vec::new());
    for _ in 0..header.wires {
        let from = rest;
        records.push(take_record(&mut rest, header.version)?);
        parts.push(&from[..from.len() - rest.len()]);
    }
    let outputs = take_wires(&mut rest, header.variables)?;
    let named = |wire: Wire| (wire.0 != NO_WIRE).then_some(wire);
    let outputs = outputs.into_iter().map(named).collect();
    rest.is_empty().then_some(CircuitFile {
        circuit: Fused { records, outputs },
        parts,
        version: header.version,
        bytes: file.len(),
    })
}

fn take_record(rest: &mut &[u8], version: Version) -> Option<Record> {
    let code = byte(rest)?;
    let record = match code {
        WORD_INPUT => Record::Input(usize::from(byte(rest)?), Kind::Word),
        BIT_INPUT => Record::Input(usize::from(byte(rest)?), Kind::Bit),
        WORD => Record::Word(u32::from_be_bytes(take(rest, 4)?.try_into().ok()?)),
        BIT => match byte(rest)? {
            bit @ (0 | 1) => Record::Bit(bit == 1),
            _ => return None,
        },
        CHOICE => {
            let wires = take_wires(rest, 3)?;
            Record::Choice(wires[0], wires[1], wires[2])
        }
        PICK => take_pick(rest)?,
        GUARD => take_guard(rest, version)?,
        _ => {
            let row = operation(code)?;
            Record::Operation(code, take_wires(rest, row.arguments)?)
        }
    };
    Some(record)
}

fn take_pick(rest: &mut &[u8]) -> Option<Record> {
    let count = usize::from(byte(rest)?);
    if count == 0 {
        return None;
    }
    let wires = take_wires(rest, 2 * count)?;
    let pairs = wires.chunks(2).map(|pair| (pair[0], pair[1])).collect();
    Some(Record::Pick(pairs))
}

fn take_guard(rest: &mut &[u8], version: Version) -> Option<Record> {
    let count = usize::from(byte(rest)?);
    if count > version.guard_wires_max {
        return None;
    }
    let wires = take_wires(rest, count)?;
    // Big-endian: the last byte holds table bits 0 to 7.
    let bytes = take(rest, version.table_bytes())?.iter().rev();
    let mut table = Settings::none();
    for (byte, &bits) in bytes.enumerate() {
        for bit in (0..8).filter(|bit| bits >> bit & 1 == 1) {
            table.add(8 * byte + bit);
        }
    }
    Some(Record::Guard(wires, table))
}

/// Row 62.
fn holds_together(circuit: &Fused) -> bool {
    inputs_come_first(circuit)
        && kinds(circuit).is_some_and(|kinds| {
            let variables = &kinds[..circuit.outputs.len()];
            let mut outputs = circuit.outputs.iter().zip(variables);
            outputs.all(|(output, kind)| output.is_none_or(|wire| kinds.get(wire.0) == Some(kind)))
        })
}

/// Whether the inputs are exactly the first V records, in order.
fn inputs_come_first(circuit: &Fused) -> bool {
    let variables = circuit.outputs.len();
    let fits = |(wire, record): (usize, &Record)| match record {
        Record::Input(variable, _) => wire < variables && *variable == wire,
        _ => wire >= variables,
    };
    circuit.records.len() >= variables && circuit.records.iter().enumerate().all(fits)
}

/// Every wire's kind, or none where a record reads a wire that is not earlier or of the wrong kind, or a
/// guard has a table bit set from 2^d up.
pub fn kinds(circuit: &Fused) -> Option<Vec<Kind>> {
    let mut kinds = Vec::new();
    for record in &circuit.records {
        kinds.push(kind(record, &kinds)?);
    }
    Some(kinds)
}

fn kind(record: &Record, earlier: &[Kind]) -> Option<Kind> {
    let of = |wire: &Wire| earlier.get(wire.0).copied();
    let are = |wires: &[Wire], kind: Kind| wires.iter().all(|wire| of(wire) == Some(kind));
    match record {
        Record::Input(_, kind) => Some(*kind),
        Record::Word(_) => Some(Kind::Word),
        Record::Bit(_) => Some(Kind::Bit),
        Record::Operation(code, wires) => {
            let row = operation(*code)?;
            are(wires, row.takes).then_some(row.gives)
        }
        Record::Choice(condition, first, second) => {
            let kind = of(first)?;
            (are(&[*condition], Kind::Bit) && are(&[*second], kind)).then_some(kind)
        }
        Record::Pick(pairs) => {
            let (guards, values): (Vec<Wire>, Vec<Wire>) = pairs.iter().copied().unzip();
            let kind = of(values.first()?)?;
            (are(&guards, Kind::Bit) && are(&values, kind)).then_some(kind)
        }
        Record::Guard(wires, table) => {
            let above = (1 << wires.len()..SETTINGS).any(|j| table.has(j));
            (are(wires, Kind::Bit) && !above).then_some(Kind::Bit)
        }
    }
}

fn take<'a>(rest: &mut &'a [u8], count: usize) -> Option<&'a [u8]> {
    let taken = rest.get(..count)?;
    *rest = &rest[count..];
    Some(taken)
}

fn byte(rest: &mut &[u8]) -> Option<u8> {
    Some(take(rest, 1)?[0])
}

fn number(rest: &mut &[u8]) -> Option<usize> {
    let two = take(rest, 2)?;
    Some(usize::from(u16::from_be_bytes([two[0], two[1]])))
}

fn take_wires(rest: &mut &[u8], count: usize) -> Option<Vec<Wire>> {
    (0..count).map(|_| number(rest).map(Wire)).collect()
}
