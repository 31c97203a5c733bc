//! The harness finds what differs, and the three tools agree, on the circuit files that are measured too.

use compare::answer::{Answer, Refusal};
use compare::circuit::{accept_within, Accepted, GateNumber};
use compare::circuit_file;
use compare::generate::group_order::in_order;
use compare::law::{
    CIRCUIT_BYTES_MAX, LIMITS_BEFORE, PICKS, PICKS_BEFORE, VARIABLES_MAX, VERSION_1, WIRES_MAX,
};
use compare::plan::{accept_both, Plan};
use compare::write::{self, fuse_with, Fused, Record, Wire};
use harness::cases::compare as compare_tools;
use harness::files;
use harness::subject::r1;
use harness::tool::{Plain, Proved, Shown, Tool, Tuned, TOOLS};

/// What a wrong tool does wrong; the rest it does as the second implementation does.
#[derive(Clone, Copy, Debug, PartialEq, Eq)]
enum Fault {
    None,
    Place,
    WriteAfter,
    WriteRefused,
    Row,
    Precondition,
    PartStart,
    PartLength,
    /// Working variables are taken for results.
    Working,
    /// FF FF is refused as an output.
    NoWire,
    /// Groups may stand in any order.
    AnyOrder,
    /// 32 comes after 30, as the lowest number would have it.
    OrderLast,
    /// A precondition is wrong from setting 64 on.
    SecondWord,
    /// Seven conditions are refused, as before C-17.
    Six,
    /// Files of version 1 are refused.
    NoVersion1,
    /// The words of a table stand in the other order.
    TableTurned,
    /// Every pick is written, as before C-18.
    EveryPick,
    /// A group without a pick keeps its guards.
    IdleGuards,
    /// Only gates are compared: those that were joined count as different.
    ByGate,
    /// A group without a pick does not wait for the conditions that its members rest on.
    NoWait,
    /// Only the first two members are compared.
    FirstTwo,
}

/// Those of C-18, which move what is written.
const OF_EQUAL: [Fault; 5] = [
    Fault::EveryPick,
    Fault::IdleGuards,
    Fault::ByGate,
    Fault::NoWait,
    Fault::FirstTwo,
];

/// A joined group whose members' arguments lie in the same groups, place by place.
fn has_equal_wires(accepted: &Accepted, plan: &Plan, members: &[GateNumber]) -> bool {
    let groups = |member: &GateNumber| {
        let arguments = accepted.circuit.gate(*member).arguments();
        let groups = arguments.iter().map(|argument| plan.group_of[argument.0]);
        groups.collect::<Vec<usize>>()
    };
    members.len() > 1 && members.iter().all(|one| groups(one) == groups(&members[0]))
}

/// The plan whose groups with equal wires wait for their arguments alone.
fn without_waits(accepted: &Accepted, plan: Plan) -> Plan {
    let mut waits = plan.waits.clone();
    for (group, members) in plan.groups.iter().enumerate() {
        if has_equal_wires(accepted, &plan, members) {
            let arguments = accepted.circuit.gate(members[0]).arguments();
            waits[group] = arguments
                .iter()
                .map(|argument| plan.group_of[argument.0])
                .collect();
        }
    }
    Plan { waits, ..plan }
}

/// What is left of a circuit of before C-18 where this fault decides which picks and guards go.
fn left_by(fault: Fault, before: &Fused) -> Fused {
    let mut left: Vec<Record> = Vec::new();
    let mut wire_of: Vec<Wire> = Vec::new();
    let is_pick = |place: usize| matches!(before.records[place], Record::Pick(_));
    let equal = |record: &Record| match record {
        Record::Pick(pairs) if fault == Fault::FirstTwo => pairs[0].1 == pairs[1].1,
        // The operation of a joined group stands behind a pick.
        Record::Pick(pairs) if fault == Fault::ByGate => {
            let value = pairs[0].1;
            let joined = value.0 > 0 && is_pick(value.0 - 1);
            !joined && pairs.iter().all(|pair| pair.1 == value)
        }
        Record::Pick(pairs) => pairs.iter().all(|pair| pair.1 == pairs[0].1),
        _ => false,
    };
    for (place, record) in before.records.iter().enumerate() {
        let of = |wire: &Wire| wire_of[wire.0];
        let new = match record {
            Record::Guard(wires, table) => {
                // Both picks stand behind the last of the guards.
                let mut behind = before.records[place..].iter();
                let picks = behind
                    .by_ref()
                    .skip_while(|one| matches!(one, Record::Guard(..)));
                let keeps = picks.take(2).any(|pick| !equal(pick));
                if !keeps && fault != Fault::IdleGuards {
                    wire_of.push(Wire(usize::MAX));
                    continue;
                }
                Record::Guard(wires.iter().map(of).collect(), table.clone())
            }
            Record::Pick(pairs) if equal(record) => {
                wire_of.push(of(&pairs[0].1));
                continue;
            }
            Record::Pick(pairs) => Record::Pick(
                pairs
                    .iter()
                    .map(|(guard, value)| (of(guard), of(value)))
                    .collect(),
            ),
            Record::Operation(code, wires) => {
                Record::Operation(*code, wires.iter().map(of).collect())
            }
            Record::Choice(condition, first, second) => {
                Record::Choice(of(condition), of(first), of(second))
            }
            other => other.clone(),
        };
        wire_of.push(Wire(left.len()));
        left.push(new);
    }
    let outputs = before.outputs.iter();
    Fused {
        outputs: outputs
            .map(|output| output.map(|wire| wire_of[wire.0]))
            .collect(),
        records: left,
    }
}

/// The circuit as a tool with a fault of C-18's kind makes it.
fn fused_by(fault: Fault, accepted: &Accepted, plan: Plan) -> Fused {
    let circuit = &accepted.circuit;
    match fault {
        Fault::EveryPick => fuse_with(circuit, &plan, PICKS_BEFORE),
        Fault::NoWait => fuse_with(circuit, &without_waits(accepted, plan), PICKS),
        _ => left_by(fault, &fuse_with(circuit, &plan, PICKS_BEFORE)),
    }
}

struct Wrong(Fault);

/// Puts the words of every table of a file in the other order.
fn turn_tables(file: &mut [u8]) {
    let Ok(read) = circuit_file::accept(file) else {
        return;
    };
    let mut ends = Vec::new();
    let mut end = 8;
    for (record, part) in read.circuit.records.iter().zip(&read.parts) {
        end += part.len();
        if matches!(record, Record::Guard(..)) {
            ends.push(end);
        }
    }
    for end in ends {
        let table = &mut file[end - 32..end];
        table.rotate_left(16);
        table[..16].rotate_left(8);
        table[16..].rotate_left(8);
    }
}

impl Wrong {
    /// The rule as it is read.
    fn read_as(&self, rule: &[u8]) -> Vec<u8> {
        let mut rule = rule.to_vec();
        let variables = rule.get(5).map_or(0, |&variables| usize::from(variables));
        for kind_byte in rule.iter_mut().skip(6).take(variables) {
            if self.0 == Fault::Working && matches!(kind_byte, 2 | 3) {
                *kind_byte -= 2;
            }
        }
        rule
    }

    /// The plan as it is checked: a tool that looks at the order too late takes one that breaks another row in order.
    fn checked_as(&self, rule: &[u8], plan: &[u8]) -> Vec<u8> {
        let sorted = in_order(plan);
        match self.0 {
            Fault::AnyOrder => sorted,
            Fault::OrderLast if Plain.check_plan(rule, &sorted).number != 0 => sorted,
            _ => plan.to_vec(),
        }
    }

    /// Writes what a fault of C-18's kind makes of a plan.
    fn write_by(&self, rule: &[u8], plan: &[u8], out: &mut [u8]) -> Answer {
        let (accepted, plan) = match accept_both(rule, plan) {
            Ok(both) => both,
            Err(refusal) => return refusal.into(),
        };
        let fused = fused_by(self.0, &accepted, plan);
        let file = fused.file();
        match out.get_mut(..file.len()) {
            Some(room) => room.copy_from_slice(&file),
            None => return Refusal::nowhere(50).into(),
        }
        write::answer(&accepted, &fused, &file)
    }

    /// Writes past what success writes, or where nothing is to be written.
    fn spoil<T: Default>(&self, answer: Answer, written: usize, lent: &mut [T]) -> Answer {
        let place = match (self.0, answer.number) {
            (Fault::WriteAfter, 0) => written,
            (Fault::WriteRefused, 1..) => 0,
            _ => return answer,
        };
        if let Some(last) = lent.get_mut(place) {
            *last = T::default();
        }
        answer
    }
}

impl Tool for Wrong {
    fn name(&self) -> &'static str {
        "wrong"
    }

    fn read_rule(&self, rule: &[u8]) -> Answer {
        if self.0 == Fault::Six {
            if let Err(refusal) = accept_within(rule, LIMITS_BEFORE) {
                return refusal.into();
            }
        }
        let mut answer = Plain.read_rule(rule);
        if self.0 == Fault::Place && answer.number == 7 {
            answer.place -= 1;
        }
        answer
    }

    fn run_rule(&self, rule: &[u8], inputs: &[u32], results: &mut [u32]) -> Answer {
        let answer = Plain.run_rule(&self.read_as(rule), inputs, results);
        self.spoil(answer, inputs.len(), results)
    }

    fn check_plan(&self, rule: &[u8], plan: &[u8]) -> Answer {
        let rule = self.read_as(rule);
        Plain.check_plan(&rule, &self.checked_as(&rule, plan))
    }

    fn write_fused(&self, rule: &[u8], plan: &[u8], out: &mut [u8]) -> Answer {
        let rule = self.read_as(rule);
        if OF_EQUAL.contains(&self.0) {
            return self.write_by(&rule, plan, out);
        }
        let answer = Plain.write_fused(&rule, &self.checked_as(&rule, plan), out);
        if self.0 == Fault::TableTurned {
            turn_tables(&mut out[..answer.bytes]);
        }
        self.spoil(answer, answer.bytes, out)
    }

    fn run_fused(&self, rule: &[u8], plan: &[u8], inputs: &[u32], results: &mut [u32]) -> Answer {
        let rule = self.read_as(rule);
        let plan = self.checked_as(&rule, plan);
        let answer = Plain.run_fused(&rule, &plan, inputs, results);
        self.spoil(answer, inputs.len(), results)
    }

    fn show_plain(&self, rule: &[u8]) -> Shown {
        let mut shown = Plain.show_plain(&self.read_as(rule));
        match self.0 {
            Fault::Row => shown.rows[1023] ^= 1,
            // The highest setting of gate 20, and of gate 30 the lowest of the second word.
            Fault::Precondition if shown.needs[80] != 0 => shown.needs[83] ^= 1 << 63,
            Fault::SecondWord if shown.needs[120] != 0 => shown.needs[121] ^= 1,
            _ => {}
        }
        shown
    }

    fn read_circuit(&self, file: &[u8]) -> Answer {
        let refused = Answer {
            number: 62,
            ..Answer::default()
        };
        match circuit_file::accept(file) {
            Ok(read) if self.0 == Fault::NoWire && read.circuit.outputs.contains(&None) => refused,
            Ok(read) if self.0 == Fault::NoVersion1 && read.version == VERSION_1 => refused,
            _ => Plain.read_circuit(file),
        }
    }

    fn record<'a>(&self, file: &'a [u8], wire: usize) -> &'a [u8] {
        let part = Plain.record(file, wire);
        match self.0 {
            _ if part.is_empty() => part,
            Fault::PartLength => &part[1..],
            // As long, but a byte before.
            Fault::PartStart => {
                let start = part.as_ptr() as usize - file.as_ptr() as usize - 1;
                &file[start..start + part.len()]
            }
            _ => part,
        }
    }

    fn run_circuit(&self, file: &[u8], inputs: &[u32], results: &mut [u32]) -> Answer {
        let answer = Plain.run_circuit(file, inputs, results);
        self.spoil(answer, inputs.len(), results)
    }
}

/// Whichever of the three tools has the fault, the others show it.
#[test]
fn every_fault_is_found() {
    for fault in [
        Fault::Place,
        Fault::WriteAfter,
        Fault::WriteRefused,
        Fault::Row,
        Fault::Precondition,
        Fault::PartStart,
        Fault::PartLength,
        Fault::Working,
        Fault::NoWire,
        Fault::AnyOrder,
        Fault::OrderLast,
        Fault::SecondWord,
        Fault::Six,
        Fault::NoVersion1,
        Fault::TableTurned,
        Fault::EveryPick,
        Fault::IdleGuards,
        Fault::ByGate,
        Fault::NoWait,
        Fault::FirstTwo,
    ] {
        let wrong = Wrong(fault);
        let three: [[&dyn Tool; 3]; 3] = [
            [&wrong, &Plain, &Tuned::Written],
            [&Proved, &wrong, &Tuned::Written],
            [&Proved, &Plain, &wrong],
        ];
        for (place, tools) in three.iter().enumerate() {
            let tally = compare_tools(tools, 5, 1200);
            assert_eq!(tally.cases, 1200);
            assert!(tally.differing > 0, "{fault:?} is not found at {place}");
            assert_eq!(tally.kept.len() as u64, tally.differing.min(10));
            let named = |text: &String| text.contains("wrong");
            assert!(tally.kept.iter().all(|(_, _, text)| named(text)));
        }
    }
    let right: [&dyn Tool; 3] = [&Proved, &Plain, &Wrong(Fault::None)];
    assert_eq!(compare_tools(&right, 5, 600).differing, 0);
}

/// Where one of three is wrong, the other is not named.
#[test]
fn only_who_differs_is_named() {
    let tools: [&dyn Tool; 3] = [&Proved, &Tuned::Written, &Wrong(Fault::Row)];
    let tally = compare_tools(&tools, 5, 600);
    assert!(tally.differing > 0);
    let first = |text: &String| text.starts_with("proved and wrong:");
    assert!(tally.kept.iter().all(|(_, _, text)| first(text)));
    assert!(!tally.kept.iter().any(|(_, _, text)| text.contains("tuned")));
}

#[test]
fn all_tools_agree() {
    let tally = compare_tools(&TOOLS, 1, 3000);
    for (_, case, text) in &tally.kept {
        println!("operation {:02X}: {text}", case.operation);
    }
    assert_eq!((tally.cases, tally.differing), (3000, 0));
}

/// The same seed makes the same cases, whichever threads work on them.
#[test]
fn a_seed_decides() {
    let tools: [&dyn Tool; 2] = [&Wrong(Fault::Row), &Plain];
    let [one, other] = [3, 3].map(|seed| compare_tools(&tools, seed, 1200));
    assert_eq!((one.counts, one.differing), (other.counts, other.differing));
    let cases = |kept: Vec<(u64, _, String)>| kept.into_iter().map(|(_, case, _)| case).collect();
    let [one, other]: [Vec<compare::stream::Case>; 2] = [cases(one.kept), cases(other.kept)];
    assert_eq!(one, other);
}

/// Files of just so many wires that all tools read and run, and the largest.
#[test]
fn growing_files_are_what_they_are_said_to_be() {
    let rows = files::growing();
    let wires: Vec<usize> = rows.iter().map(|row| row.subjects[0].wires()).collect();
    assert_eq!(wires, [40, 80, 160, 320, 640]);
    let largest = files::largest();
    let subject = &largest.subjects[0];
    assert_eq!(
        (subject.wires(), subject.file.len()),
        (WIRES_MAX, CIRCUIT_BYTES_MAX)
    );
    let others = files::others();
    assert!(others
        .iter()
        .all(|row| row.subjects[0].wires() == WIRES_MAX));
    for row in rows.iter().chain(&others).chain([&largest, &r1()]) {
        let subject = &row.subjects[0];
        let mut all = TOOLS.map(|tool| {
            let mut results = [0; VARIABLES_MAX];
            let answer = tool.run_circuit(&subject.file, &subject.inputs, &mut results);
            assert_eq!((answer.number, answer.wires), (0, subject.wires()));
            results.to_vec()
        });
        let first = all[0].clone();
        assert!(all.iter_mut().all(|results| *results == first));
    }
}
