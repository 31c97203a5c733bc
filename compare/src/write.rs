//! The fused circuit: its records, their wires, bytes and cost, and row 50.

use crate::answer::{Answer, Refusal};
use crate::circuit::{Accepted, Circuit, Gate, GateNumber, Settings};
use crate::law::*;
use crate::plan::{accept_both, Plan};

/// The number of a record of a circuit file; never that of a gate.
#[derive(Clone, Copy, Debug, PartialEq, Eq, PartialOrd, Ord)]
pub struct Wire(pub usize);

#[derive(Clone, Debug, PartialEq, Eq)]
pub enum Record {
    Input(usize, Kind),
    Word(u32),
    Bit(bool),
    Operation(u8, Vec<Wire>),
    Choice(Wire, Wire, Wire),
    /// Pairs of guard and value.
    Pick(Vec<(Wire, Wire)>),
    /// Condition wires and the table: bit j is 1 where setting j is in the set.
    Guard(Vec<Wire>, Settings),
}

impl Record {
    pub fn cost(&self) -> usize {
        match self {
            Record::Input(..) | Record::Word(_) | Record::Bit(_) => 0,
            Record::Operation(code, _) => operation(*code).map_or(0, |row| row.cost),
            Record::Choice(..) => CHOICE_COST,
            Record::Pick(pairs) => PICK_COST_A_PAIR * pairs.len(),
            Record::Guard(..) => GUARD_COST,
        }
    }

    /// Every wire that the record names.
    pub fn reads(&self) -> Vec<Wire> {
        match self {
            Record::Input(..) | Record::Word(_) | Record::Bit(_) => Vec::new(),
            Record::Operation(_, wires) | Record::Guard(wires, _) => wires.clone(),
            Record::Choice(condition, first, second) => vec![*condition, *first, *second],
            Record::Pick(pairs) => pairs.iter().flat_map(|&(g, v)| [g, v]).collect(),
        }
    }

    fn put(&self, version: Version, file: &mut Vec<u8>) {
        match self {
            Record::Input(variable, Kind::Word) => file.extend([WORD_INPUT, *variable as u8]),
            Record::Input(variable, Kind::Bit) => file.extend([BIT_INPUT, *variable as u8]),
            Record::Word(word) => {
                file.push(WORD);
                file.extend(word.to_be_bytes());
            }
            Record::Bit(bit) => file.extend([BIT, u8::from(*bit)]),
            Record::Operation(code, wires) => {
                file.push(*code);
                put_wires(wires, file);
            }
            Record::Choice(condition, first, second) => {
                file.push(CHOICE);
                put_wires(&[*condition, *first, *second], file);
            }
            Record::Pick(pairs) => {
                file.extend([PICK, pairs.len() as u8]);
                for &(guard, value) in pairs {
                    put_wires(&[guard, value], file);
                }
            }
            Record::Guard(wires, table) => {
                file.extend([GUARD, wires.len() as u8]);
                put_wires(wires, file);
                // Big-endian: the last byte holds table bits 0 to 7.
                for byte in (0..version.table_bytes()).rev() {
                    let bits = (0..8).filter(|bit| table.has(8 * byte + bit));
                    file.push(bits.map(|bit| 1u8 << bit).sum());
                }
            }
        }
    }
}

fn put_wires(wires: &[Wire], file: &mut Vec<u8>) {
    for wire in wires {
        file.extend((wire.0 as u16).to_be_bytes());
    }
}

/// A fused circuit, or one read from a file: one record a wire, and the output wire of every variable that has one.
#[derive(Clone, Debug, PartialEq, Eq)]
pub struct Fused {
    pub records: Vec<Record>,
    pub outputs: Vec<Option<Wire>>,
}

impl Fused {
    /// The cost after fusing.
    pub fn cost(&self) -> usize {
        self.records.iter().map(Record::cost).sum()
    }

    /// The bytes of the circuit file, as they are written since C-17.
    pub fn file(&self) -> Vec<u8> {
        self.file_of(VERSION_2)
    }

    /// The same in another version. Only the fixed cases and the generator make files of version 1; a guard that version
    /// 1 has no room for loses the table bits from 64 on.
    pub fn file_of(&self, version: Version) -> Vec<u8> {
        let mut file = CIRCUIT_MARK.to_vec();
        file.extend(version.bytes);
        file.push(self.outputs.len() as u8);
        file.extend((self.records.len() as u16).to_be_bytes());
        for record in &self.records {
            record.put(version, &mut file);
        }
        for output in &self.outputs {
            put_wires(&[output.unwrap_or(Wire(NO_WIRE))], &mut file);
        }
        file
    }
}

/// Fuses a circuit by an accepted plan.
pub fn fuse(circuit: &Circuit, plan: &Plan) -> Fused {
    fuse_with(circuit, plan, PICKS)
}

/// The same with other picks. Only the fixed cases, the generator and what compares both shapes make those of before C-18.
pub fn fuse_with(circuit: &Circuit, plan: &Plan, picks: Picks) -> Fused {
    let mut writer = Writer {
        circuit,
        plan,
        picks,
        records: Vec::new(),
        wire_of: vec![None; circuit.gates.len()],
    };
    let mut written = vec![false; plan.groups.len()];
    // Again and again the first group, by smallest member, that waits for no unwritten one.
    while let Some(group) = (0..plan.groups.len())
        .find(|&group| !written[group] && plan.waits[group].iter().all(|&other| written[other]))
    {
        writer.group(&plan.groups[group]);
        written[group] = true;
    }
    let outputs = circuit
        .outputs
        .iter()
        .map(|output| output.map(|gate| writer.wire(gate)))
        .collect();
    Fused {
        records: writer.records,
        outputs,
    }
}

struct Writer<'a> {
    circuit: &'a Circuit,
    plan: &'a Plan,
    picks: Picks,
    records: Vec<Record>,
    /// The wire that stands for each gate written so far.
    wire_of: Vec<Option<Wire>>,
}

impl Writer<'_> {
    fn add(&mut self, record: Record) -> Wire {
        self.records.push(record);
        Wire(self.records.len() - 1)
    }

    fn wire(&self, gate: GateNumber) -> Wire {
        self.wire_of[gate.0].expect("an accepted plan writes what is waited for first")
    }

    fn group(&mut self, members: &[GateNumber]) {
        let wire = match members {
            [alone] => self.alone(*alone),
            _ => self.joined(members),
        };
        for member in members {
            self.wire_of[member.0] = Some(wire);
        }
    }

    fn alone(&mut self, gate: GateNumber) -> Wire {
        let record = match self.circuit.gate(gate) {
            Gate::Start(variable, kind) => Record::Input(*variable, *kind),
            Gate::Word(word) => Record::Word(*word),
            Gate::Bit(bit) => Record::Bit(*bit),
            Gate::Operation(code, arguments) => {
                Record::Operation(*code, arguments.iter().map(|&a| self.wire(a)).collect())
            }
            Gate::Choice(condition, first, second) => {
                Record::Choice(self.wire(*condition), self.wire(*first), self.wire(*second))
            }
        };
        self.add(record)
    }

    /// Guards, picks, and the operation whose wire stands for every member; guards only where there is a pick (C-18).
    fn joined(&mut self, members: &[GateNumber]) -> Wire {
        let gate = self.circuit.gate(members[0]);
        let code = gate.code();
        let values: Vec<Vec<Wire>> = (0..gate.arguments().len())
            .map(|place| self.values(members, place))
            .collect();
        let mut guards = Vec::new();
        if values.iter().any(|values| self.picked(values)) {
            guards = members.iter().map(|&member| self.guard(member)).collect();
        }
        let wires = values.iter().map(|values| match self.picked(values) {
            true => {
                let pairs = guards.iter().copied().zip(values.iter().copied());
                self.add(Record::Pick(pairs.collect()))
            }
            false => values[0],
        });
        let wires = wires.collect();
        self.add(Record::Operation(code, wires))
    }

    /// Each member's wire at an argument place.
    fn values(&self, members: &[GateNumber], place: usize) -> Vec<Wire> {
        let argument = |member: &GateNumber| self.circuit.gate(*member).arguments()[place];
        let arguments = members.iter().map(argument);
        arguments.map(|argument| self.wire(argument)).collect()
    }

    /// Whether there is a pick between these wires. Gates that were joined share a wire, and are equal here.
    fn picked(&self, values: &[Wire]) -> bool {
        match self.picks {
            Picks::Everywhere => true,
            Picks::Unequal => values.iter().any(|&value| value != values[0]),
        }
    }

    fn guard(&mut self, member: GateNumber) -> Wire {
        let needs = &self.plan.needs[member.0];
        let rests: Vec<usize> = (0..self.circuit.conditions.len())
            .filter(|&t| needs.rests_on(t))
            .collect();
        let wires = rests
            .iter()
            .map(|&t| self.wire(self.circuit.conditions[t]))
            .collect();
        // Table bit j: look at the setting that gives the conditions rested on the bits of j and
        // every other condition 0. The others do not matter: the gate does not rest on them.
        let mut table = Settings::none();
        for j in 0..1usize << rests.len() {
            let setting: usize = rests
                .iter()
                .enumerate()
                .map(|(place, &t)| (j >> place & 1) << t)
                .sum();
            if needs.has(setting) {
                table.add(j);
            }
        }
        self.add(Record::Guard(wires, table))
    }
}

/// The five counts of an accepted rule and its fused circuit.
pub fn answer(accepted: &Accepted, fused: &Fused, file: &[u8]) -> Answer {
    Answer::of_fused(
        accepted.circuit.gates.len(),
        fused.records.len(),
        file.len(),
        accepted.circuit.cost(),
        fused.cost(),
    )
}

/// The operation "write the circuit". Only the file's bytes are written, and only on success.
pub fn write(rule: &[u8], plan: &[u8], buffer: &mut [u8]) -> Answer {
    let (accepted, plan) = match accept_both(rule, plan) {
        Ok(both) => both,
        Err(refusal) => return refusal.into(),
    };
    let fused = fuse(&accepted.circuit, &plan);
    let file = fused.file();
    if buffer.len() < file.len() {
        return Refusal::nowhere(50).into();
    }
    buffer[..file.len()].copy_from_slice(&file);
    answer(&accepted, &fused, &file)
}
