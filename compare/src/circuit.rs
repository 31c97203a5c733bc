//! The plain circuit of a rule, its conditions, and the gates that each setting needs.

use crate::answer::{Answer, Refusal};
use crate::law::*;
use crate::rule::{self, Expression, Rule, Statement};

/// The number of a gate of the plain circuit; never that of a wire (see `write::Wire`).
#[derive(Clone, Copy, Debug, PartialEq, Eq, PartialOrd, Ord)]
pub struct GateNumber(pub usize);

#[derive(Clone, Debug, PartialEq, Eq)]
pub enum Gate {
    /// A variable's starting value.
    Start(usize, Kind),
    Word(u32),
    Bit(bool),
    /// The arguments as the gate takes them: see `in_order`.
    Operation(u8, Vec<GateNumber>),
    /// Condition, first value, second value.
    Choice(GateNumber, GateNumber, GateNumber),
}

impl Gate {
    /// The code that the gate's record of a circuit file begins with.
    pub fn code(&self) -> u8 {
        match self {
            Gate::Start(_, Kind::Word) => WORD_INPUT,
            Gate::Start(_, Kind::Bit) => BIT_INPUT,
            Gate::Word(_) => WORD,
            Gate::Bit(_) => BIT,
            Gate::Operation(code, _) => *code,
            Gate::Choice(..) => CHOICE,
        }
    }

    /// Every gate that this one reads; a choice reads all three.
    pub fn arguments(&self) -> Vec<GateNumber> {
        match self {
            Gate::Start(..) | Gate::Word(_) | Gate::Bit(_) => Vec::new(),
            Gate::Operation(_, arguments) => arguments.clone(),
            Gate::Choice(condition, first, second) => vec![*condition, *first, *second],
        }
    }

    pub fn cost(&self) -> usize {
        match self {
            Gate::Operation(code, _) => operation(*code).map_or(0, |row| row.cost),
            Gate::Choice(..) => CHOICE_COST,
            _ => 0,
        }
    }

    /// Costly is an operation of the table with a cost above 0; so a choice is not.
    pub fn costly(&self) -> bool {
        matches!(self, Gate::Operation(..)) && self.cost() > 0
    }
}

/// A set of settings; setting j is bit j, those from 64 on in the words after the first.
#[derive(Clone, Debug, Default, PartialEq, Eq)]
pub struct Settings([u64; SETTINGS / 64]);

impl Settings {
    pub fn none() -> Settings {
        Settings::default()
    }

    /// Its words, the lowest first.
    pub fn words(&self) -> [u64; SETTINGS / 64] {
        self.0
    }

    pub fn has(&self, j: usize) -> bool {
        self.0[j / 64] >> (j % 64) & 1 == 1
    }

    pub fn add(&mut self, j: usize) {
        self.0[j / 64] |= 1 << (j % 64);
    }

    pub fn meets(&self, other: &Settings) -> bool {
        self.0
            .iter()
            .zip(other.0)
            .any(|(one, other)| one & other != 0)
    }

    /// Whether changing bit t alone moves some setting in or out.
    pub fn rests_on(&self, t: usize) -> bool {
        (0..SETTINGS).any(|j| self.has(j) != self.has(j ^ (1 << t)))
    }

    /// The set as hexadecimal digits, capitals, setting 0 the lowest bit of the last digit.
    pub fn hex(&self) -> String {
        let highest_first = self.0.iter().rev();
        highest_first.map(|word| format!("{word:016X}")).collect()
    }
}

#[derive(Clone, Debug, PartialEq, Eq)]
pub struct Circuit {
    pub gates: Vec<Gate>,
    /// What is needed from the start: every result variable's last gate, none for a working one (C-13).
    pub outputs: Vec<Option<GateNumber>>,
    /// The gates standing first in a choice, each once, rising.
    pub conditions: Vec<GateNumber>,
}

impl Circuit {
    pub fn gate(&self, number: GateNumber) -> &Gate {
        &self.gates[number.0]
    }

    /// The cost before fusing.
    pub fn cost(&self) -> usize {
        self.gates.iter().map(Gate::cost).sum()
    }
}

/// Makes the gates of a whole rule, however many they come to.
pub fn make(rule: &Rule) -> Circuit {
    let mut maker = Maker { gates: Vec::new() };
    let mut present = Vec::new();
    for (number, variable) in rule.variables.iter().enumerate() {
        present.push(maker.add(Gate::Start(number, variable.kind)));
    }
    maker.block(&rule.block, &mut present);
    let last = rule.variables.iter().zip(present);
    let outputs = last.map(|(variable, gate)| variable.if_result(gate));

    let mut conditions: Vec<GateNumber> = maker
        .gates
        .iter()
        .filter_map(|gate| match gate {
            Gate::Choice(condition, _, _) => Some(*condition),
            _ => None,
        })
        .collect();
    conditions.sort();
    conditions.dedup();
    Circuit {
        outputs: outputs.collect(),
        gates: maker.gates,
        conditions,
    }
}

struct Maker {
    gates: Vec<Gate>,
}

impl Maker {
    fn add(&mut self, gate: Gate) -> GateNumber {
        self.gates.push(gate);
        GateNumber(self.gates.len() - 1)
    }

    /// Makes a block's gates, moves the variables' present gates, and says for each variable
    /// whether the block assigns it, ifs within it included.
    fn block(&mut self, block: &[Statement], present: &mut [GateNumber]) -> Vec<bool> {
        let mut assigned = vec![false; present.len()];
        for statement in block {
            match statement {
                Statement::Assign(variable, value) => {
                    present[*variable] = self.expression(value, present);
                    assigned[*variable] = true;
                }
                Statement::Skip => {}
                Statement::If(condition, first, second) => {
                    let condition = self.expression(condition, present);
                    // Both blocks start from the variables as before the first.
                    let mut after_first = present.to_vec();
                    let mut after_second = present.to_vec();
                    let in_first = self.block(first, &mut after_first);
                    let in_second = self.block(second, &mut after_second);
                    for variable in 0..present.len() {
                        if in_first[variable] || in_second[variable] {
                            present[variable] = self.add(Gate::Choice(
                                condition,
                                after_first[variable],
                                after_second[variable],
                            ));
                            assigned[variable] = true;
                        }
                    }
                }
            }
        }
        assigned
    }

    /// Arguments left to right, then their operation; a variable stands for its present gate.
    fn expression(&mut self, expression: &Expression, present: &[GateNumber]) -> GateNumber {
        match expression {
            Expression::Variable(variable) => present[*variable],
            Expression::Word(word) => self.add(Gate::Word(*word)),
            Expression::Bit(bit) => self.add(Gate::Bit(*bit)),
            Expression::Operation(code, written) => {
                let made = written
                    .iter()
                    .map(|argument| self.expression(argument, present))
                    .collect();
                self.add(Gate::Operation(*code, in_order(*code, made)))
            }
        }
    }
}

/// The arguments as the operation's gate takes them (C-12). They are made by now, left to right as
/// written, so their numbers do not rest on this order.
fn in_order(code: u8, mut arguments: Vec<GateNumber>) -> Vec<GateNumber> {
    if operation(code).is_some_and(|row| row.lower_first) {
        arguments.sort();
    }
    arguments
}

/// A rule that rows 1 to 11 accept, with its plain circuit.
#[derive(Debug)]
pub struct Accepted {
    pub rule: Rule,
    pub circuit: Circuit,
}

impl Accepted {
    pub fn answer(&self) -> Answer {
        Answer::of_plain(self.circuit.gates.len(), self.circuit.cost())
    }
}

/// Reads a rule by all its rows; the place of 10 and 11 is the file's length.
pub fn accept(bytes: &[u8]) -> Result<Accepted, Refusal> {
    accept_within(bytes, LIMITS)
}

/// The same by these limits, which are no greater than C-17's.
pub fn accept_within(bytes: &[u8], limits: Limits) -> Result<Accepted, Refusal> {
    let rule = rule::read_within(bytes, limits)?;
    let circuit = make(&rule);
    if circuit.gates.len() > GATES_MAX {
        return Err(Refusal::at(10, bytes.len()));
    }
    if circuit.conditions.len() > limits.conditions {
        return Err(Refusal::at(11, bytes.len()));
    }
    Ok(Accepted { rule, circuit })
}

/// The operation "read a rule".
pub fn read_rule(bytes: &[u8]) -> Answer {
    match accept(bytes) {
        Ok(accepted) => accepted.answer(),
        Err(refusal) => refusal.into(),
    }
}

/// Every gate's precondition: for each setting a search from the outputs. Settings that give every condition the same
/// bit need the same gates, so one search serves for all of them.
/// The circuit has at most as many conditions as settings have bits.
pub fn preconditions(circuit: &Circuit) -> Vec<Settings> {
    let mut needs = vec![Settings::none(); circuit.gates.len()];
    let apart = 1 << circuit.conditions.len();
    for first in 0..apart {
        for (gate, needed) in needed_under(circuit, first).into_iter().enumerate() {
            if needed {
                for j in (first..SETTINGS).step_by(apart) {
                    needs[gate].add(j);
                }
            }
        }
    }
    needs
}

fn needed_under(circuit: &Circuit, j: usize) -> Vec<bool> {
    let mut needed = vec![false; circuit.gates.len()];
    let mut waiting: Vec<GateNumber> = circuit.outputs.iter().copied().flatten().collect();
    while let Some(number) = waiting.pop() {
        if needed[number.0] {
            continue;
        }
        needed[number.0] = true;
        match circuit.gate(number) {
            Gate::Choice(condition, first, second) => {
                let t = circuit
                    .conditions
                    .iter()
                    .position(|c| c == condition)
                    .expect("a choice's first gate is a condition");
                let picked = if j >> t & 1 == 1 { first } else { second };
                waiting.push(*condition);
                waiting.push(*picked);
            }
            gate => waiting.extend(gate.arguments()),
        }
    }
    needed
}
