//! Whole cases of the conformance stream.

use super::words::Words;
use super::{circuits, inputs, plans, rules, Random};
use crate::circuit::{accept, preconditions, Accepted};
use crate::examples::P1;
use crate::law::*;
use crate::stream::{
    Case, CHECK, DIRECT, FUSED, LAST, PLAIN, READ, READ_CIRCUIT, RECORD, RUN_CIRCUIT, WRITE,
};
use crate::write::fuse_with;

/// What a case should come to. Most cases come to just that, some by chance to something else.
#[derive(Clone, Copy, PartialEq, Eq)]
enum Aim {
    Success,
    Rule,
    Plan,
    /// Inputs and result places, or the circuit buffer.
    Last,
}

/// A case of one of these operations, some of which are built. Those of rules alone, 01 to 06, make the same
/// cases of a seed as before there were others, results alone those of before there were working variables, any
/// order those of before groups had one, six conditions those of before there were eight, and every pick those of before
/// equal wires had none.
pub fn case(random: &mut Random, operations: &[u8], words: Words) -> Case {
    let rules = operations.iter().any(|one| (READ..=PLAIN).contains(one));
    let circuits = operations
        .iter()
        .any(|one| (READ_CIRCUIT..=LAST).contains(one));
    assert!(rules || circuits, "no operation that is built");
    loop {
        let case = if circuits && (!rules || random.chance(30)) {
            circuit_case(random, words)
        } else {
            rule_case(random, words)
        };
        if operations.contains(&case.operation) {
            return case;
        }
    }
}

/// A case of operations 01 to 06.
pub fn rule_case(random: &mut Random, words: Words) -> Case {
    let order = words.order;
    let operation = match random.below(100) {
        0..=17 => READ,
        18..=35 => DIRECT,
        36..=55 => CHECK,
        56..=73 => WRITE,
        74..=91 => FUSED,
        _ => PLAIN,
    };
    let aim = aim(random, operation);
    let mut case = Case {
        operation,
        ..Case::default()
    };
    if aim == Aim::Rule {
        refused_rule(random, words, &mut case);
        return case;
    }
    // A rule whose plan can be what is aimed at: not every rule has joins or circles.
    let wanted = order.wanted(random);
    loop {
        let bytes = rules::accepted(random, words);
        let accepted = accept(&bytes).expect("made so");
        let needs = preconditions(&accepted.circuit);
        let ground = plans::Ground::new(&accepted.circuit, &needs).with(words.picks);
        let plan = match (operation, aim) {
            // An operation that takes no plan ignores whatever stands there.
            (READ | DIRECT | PLAIN, _) if random.chance(80) => Vec::new(),
            (READ | DIRECT | PLAIN, _) => plans::any(random, &ground, order),
            (_, Aim::Plan) if random.chance(10) => plans::any(random, &ground, order),
            (_, Aim::Plan) => match plans::refused(random, &ground, order, wanted) {
                Some(plan) => plan,
                None => continue,
            },
            _ => plans::arranged(random, &ground, order),
        };
        // Circuits with something joined are worth more: mostly go on until there is one.
        let joined = plan.len() > PLAN_BYTES_MIN;
        if matches!(operation, CHECK | WRITE | FUSED) && !joined && random.chance(70) {
            continue;
        }
        give_inputs(random, &mut case, aim, &accepted);
        give_room(random, &mut case, aim, &accepted, words, &plan);
        case.first = bytes;
        case.second = plan;
        return case;
    }
}

fn aim(random: &mut Random, operation: u8) -> Aim {
    let (rule, plan, last) = match operation {
        READ => (55, 0, 0),
        DIRECT => (15, 0, 25),
        CHECK => (8, 57, 0),
        WRITE => (8, 15, 17),
        FUSED => (8, 15, 17),
        _ => (25, 0, 0),
    };
    let turn = random.below(100);
    if turn < rule {
        Aim::Rule
    } else if turn < rule + plan {
        Aim::Plan
    } else if turn < rule + plan + last {
        Aim::Last
    } else {
        Aim::Success
    }
}

/// A refused rule; what comes after it may be right or wrong and must not matter.
fn refused_rule(random: &mut Random, words: Words, case: &mut Case) {
    case.first = if random.chance(85) {
        let wanted = random.among(1, 11) as u8;
        rules::refused(random, words, wanted)
    } else {
        rules::damaged(random, words)
    };
    if case.operation != READ {
        case.second = match random.below(3) {
            0 => Vec::new(),
            1 => P1.to_vec(),
            _ => (0..random.below(12)).map(|_| random.any() as u8).collect(),
        };
        case.inputs = (0..random.below(5)).map(|_| random.word()).collect();
    }
    if takes_room(case.operation) {
        case.room = random.pick(&[0, 1, 3, 5, 32, 40]);
    }
}

fn takes_room(operation: u8) -> bool {
    matches!(operation, DIRECT | WRITE | FUSED)
}

fn give_inputs(random: &mut Random, case: &mut Case, aim: Aim, accepted: &Accepted) {
    let kinds = &accepted.rule.kinds();
    if !matches!(case.operation, DIRECT | FUSED) && random.chance(80) {
        return;
    }
    case.inputs = inputs(random, kinds);
    if aim == Aim::Last && case.operation != WRITE {
        spoil_inputs(random, case, kinds);
    }
}

/// Too few inputs, too many, or a bit above 1; often nothing.
fn spoil_inputs(random: &mut Random, case: &mut Case, kinds: &[Kind]) {
    if random.chance(35) {
        match random.below(4) {
            0 => case.inputs.clear(),
            1 => case.inputs.push(random.word()),
            2 => {
                case.inputs.pop();
            }
            _ => {
                let count = random.below(256);
                case.inputs.resize(count, 7);
            }
        }
    }
    for (place, input) in case.inputs.iter_mut().enumerate() {
        if kinds.get(place) == Some(&Kind::Bit) && random.chance(25) {
            *input = random.pick(&[2, 3, 256, 1 << 31, u32::MAX]);
        }
    }
}

/// The room rests on the plan that is judged, and on the version and the picks that are written.
fn give_room(
    random: &mut Random,
    case: &mut Case,
    aim: Aim,
    accepted: &Accepted,
    words: Words,
    plan: &[u8],
) {
    if !takes_room(case.operation) {
        return;
    }
    let wanted = if case.operation == WRITE {
        let needs = preconditions(&accepted.circuit);
        match crate::plan::check(&accepted.circuit, needs, &words.order.judged(plan)) {
            Ok(plan) => {
                let fused = fuse_with(&accepted.circuit, &plan, words.picks);
                fused.file_of(words.conditions.written()).len()
            }
            Err(_) => random.among(0, 200),
        }
    } else {
        accepted.rule.variables.len()
    };
    let short = aim == Aim::Last && (case.operation == WRITE || random.chance(40));
    case.room = room(random, case.operation, wanted, short) as u16;
}

/// Room for what is wanted, just or with more, or less of it.
fn room(random: &mut Random, operation: u8, wanted: usize, short: bool) -> usize {
    if short && wanted > 0 {
        match random.below(3) {
            0 => wanted - 1,
            1 => random.below(wanted),
            _ => 0,
        }
    } else {
        match random.below(4) {
            0 => wanted + 1,
            1 => wanted + random.below(20),
            2 if operation == WRITE => CIRCUIT_BYTES_MAX.max(wanted),
            _ => wanted,
        }
    }
}

/// A case of operations 07 to 09.
pub fn circuit_case(random: &mut Random, words: Words) -> Case {
    let (operation, refused) = match random.below(100) {
        0..=29 => (READ_CIRCUIT, 60),
        30..=49 => (RECORD, 30),
        _ => (RUN_CIRCUIT, 35),
    };
    let first = match random.below(100) {
        turn if turn < refused => {
            let wanted = random.pick(&[60, 61, 62, 62]);
            circuits::refused(random, words, wanted)
        }
        turn if turn < refused + 8 => circuits::damaged(random, words),
        _ => circuits::accepted(random, words).file(),
    };
    let mut case = Case {
        operation,
        first,
        ..Case::default()
    };
    match operation {
        RECORD => case.number = wire(random, words, &case.first),
        RUN_CIRCUIT => give_run(random, words, &mut case),
        _ => {}
    }
    case
}

/// A wire of the file, mostly; the first that is none, and others.
fn wire(random: &mut Random, words: Words, file: &[u8]) -> u16 {
    let accepted = words.accept_file(file);
    let wires = accepted.map_or(0, |accepted| accepted.parts.len());
    match random.below(10) {
        0 => wires as u16,
        1 => random.pick(&[wires + 1, 640, 65_535]) as u16,
        _ => random.below(wires.max(9)) as u16,
    }
}

/// Inputs and room of a run; a refused file may get any.
fn give_run(random: &mut Random, words: Words, case: &mut Case) {
    let kinds = match words.accept_file(&case.first) {
        Ok(accepted) => accepted.variables(),
        Err(_) => rules::kinds(random),
    };
    case.inputs = inputs(random, &kinds);
    let last = random.chance(40);
    if last {
        spoil_inputs(random, case, &kinds);
    }
    let short = last && random.chance(40);
    case.room = room(random, RUN_CIRCUIT, kinds.len(), short) as u16;
}
