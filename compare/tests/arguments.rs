//! C-12: sum, product, equal, and, or take their lower-numbered argument gate first; difference and less
//! than keep the order written.

use compare::circuit::{accept, make, preconditions, Accepted, Circuit, Gate, GateNumber};
use compare::generate::words::Words;
use compare::generate::{cases, inputs, plans, rules, Random};
use compare::law::*;
use compare::limits::parts::{not, rule, set, two, var, when, word};
use compare::plan::check;
use compare::rule::{bytes_of, Block, Expression, Rule, Statement};
use compare::stream::{Case, LAST, PLAIN};
use compare::write::Record;
use compare::{direct, run, write};

fn circuit_of(rule: &[u8]) -> Circuit {
    accept(rule).expect("an accepted rule").circuit
}

fn plan(rule: &[u8], groups: &[&[usize]]) -> Vec<u8> {
    let groups = groups.iter().map(|group| group.to_vec()).collect();
    plans::bytes_of(circuit_of(rule).gates.len(), &groups)
}

fn file_of(rule: &[u8], plan: &[u8]) -> Vec<u8> {
    let mut buffer = vec![0; CIRCUIT_BYTES_MAX];
    let answer = write::write(rule, plan, &mut buffer);
    assert_eq!(answer.number, 0);
    buffer.truncate(answer.bytes);
    buffer
}

fn hex(text: &str) -> Vec<u8> {
    text.split_whitespace()
        .map(|pair| u8::from_str_radix(pair, 16).unwrap())
        .collect()
}

fn gate(code: u8, first: usize, second: usize) -> Gate {
    Gate::Operation(code, vec![GateNumber(first), GateNumber(second)])
}

fn of_two() -> impl Iterator<Item = Operation> {
    OPERATIONS.into_iter().filter(|row| row.arguments == 2)
}

#[test]
fn the_five_operations() {
    let five: Vec<u8> = of_two().filter(|r| r.lower_first).map(|r| r.code).collect();
    assert_eq!(five, [0x20, 0x22, 0x24, 0x25, 0x26]);
    assert!(!operation(NOT).unwrap().lower_first);
}

/// v2 := v0 op v1 and v2 := v1 op v0: one circuit and one file for the five, two for the others.
#[test]
fn two_orders_of_two_variables() {
    for row in of_two() {
        let kinds = [row.takes, row.takes, row.gives];
        let of = |first, second| rule(&kinds, vec![set(2, two(row.code, var(first), var(second)))]);
        let (one, other) = (of(0, 1), of(1, 0));
        assert_eq!(circuit_of(&one).gates[3], gate(row.code, 0, 1));
        let turned = if row.lower_first { (0, 1) } else { (1, 0) };
        assert_eq!(
            circuit_of(&other).gates[3],
            gate(row.code, turned.0, turned.1)
        );
        let empty = plan(&one, &[]);
        assert_eq!(circuit_of(&one) == circuit_of(&other), row.lower_first);
        assert_eq!(
            file_of(&one, &empty) == file_of(&other, &empty),
            row.lower_first
        );
    }
}

/// Both members of a joined group in either order: one file for the five, four for "less than".
#[test]
fn a_joined_group_of_two_orders() {
    for row in of_two().filter(|row| row.cost > 0) {
        let kinds = [Kind::Bit, row.takes, row.takes, row.gives];
        let of = |(first, second)| vec![set(3, two(row.code, var(first), var(second)))];
        let orders = [(1, 2), (2, 1)];
        let mut files = Vec::new();
        for one in orders {
            for other in orders {
                let rule = rule(&kinds, vec![when(var(0), of(one), of(other))]);
                files.push(file_of(&rule, &plan(&rule, &[&[4, 5]])));
            }
        }
        files.sort();
        files.dedup();
        assert_eq!(files.len(), if row.lower_first { 1 } else { 4 });
    }
    // A product of quantity and price for both members: equal wires at both places, and no pick (C-18).
    let product = |first, second| vec![set(1, two(PRODUCT, var(first), var(second)))];
    let rule = rule(
        &[Kind::Bit, Kind::Word, Kind::Word],
        vec![when(var(0), product(2, 1), product(1, 2))],
    );
    let file = file_of(&rule, &plan(&rule, &[&[3, 4]]));
    // The header and three inputs stand before it.
    assert_eq!(file[14..19], hex("22 00 01 00 02"));
}

/// A gate's number does not rest on the order: arguments are made left to right, then taken.
#[test]
fn gates_are_made_left_to_right() {
    // v0 := (v0 + v1) x v2: the sum stays gate 3, and the product reads v2 before it.
    let sum = || two(SUM, var(0), var(1));
    let kinds = [Kind::Word; 3];
    let first = rule(&kinds, vec![set(0, two(PRODUCT, sum(), var(2)))]);
    let circuit = circuit_of(&first);
    assert_eq!(
        circuit.gates[3..],
        [gate(SUM, 0, 1), gate(PRODUCT, 2, 3)][..]
    );
    let file = file_of(&first, &plan(&first, &[]));
    let wanted = "43 49 52 00 02 03 00 05 00 00 00 01 00 02 20 00 00 00 01 22 00 02 00 03 \
         00 04 00 01 00 02";
    assert_eq!(file, hex(wanted));
    let second = rule(&kinds, vec![set(0, two(PRODUCT, var(2), sum()))]);
    assert_eq!(circuit_of(&second), circuit);

    // Two constants, and two operations: the left one is made first and is the lower.
    let constants = rule(&kinds, vec![set(0, two(PRODUCT, word(7), word(5)))]);
    assert_eq!(
        circuit_of(&constants).gates[3..],
        [Gate::Word(7), Gate::Word(5), gate(PRODUCT, 3, 4)][..]
    );
    let difference = two(DIFFERENCE, var(2), var(1));
    let both = rule(&kinds, vec![set(0, two(SUM, difference, sum()))]);
    assert_eq!(
        circuit_of(&both).gates[3..],
        [gate(DIFFERENCE, 2, 1), gate(SUM, 0, 1), gate(SUM, 3, 4)][..]
    );
}

/// A variable stands for its present gate: v0, assigned, is higher than v1.
#[test]
fn by_gate_and_not_by_variable() {
    for (first, second) in [(0, 1), (1, 0)] {
        let rule = rule(
            &[Kind::Bit; 2],
            vec![
                set(0, not(var(0))),
                set(0, two(AND, var(first), var(second))),
            ],
        );
        assert_eq!(circuit_of(&rule).gates[3], gate(AND, 1, 2));
    }
}

/// The product of gate 3 is joined with one that waits for the comparison of gate 6, so it is written after
/// the sum of gate 4. The sum of both takes gate 3 first: wire 8 before wire 3. Both products read v2 at their second place.
#[test]
fn by_gate_and_not_by_wire() {
    let kinds = [Kind::Bit, Kind::Word, Kind::Word];
    let of = |first: usize, second: usize| {
        let early = vec![
            set(1, two(PRODUCT, var(1), var(2))),
            set(2, two(SUM, var(2), var(2))),
            set(1, two(SUM, var(first), var(second))),
        ];
        let product = vec![set(1, two(PRODUCT, var(2), var(2)))];
        let late = vec![when(two(LESS, var(1), var(2)), product, vec![])];
        rule(&kinds, vec![when(var(0), early, late)])
    };
    let table = "00 ".repeat(31);
    let wanted = format!(
        "43 49 52 00 02 03 00 0D 01 00 00 01 00 02 20 00 02 00 02 23 00 01 00 02 \
         32 01 00 00 {table} 02 32 02 00 00 00 04 {table} 04 \
         31 02 00 05 00 01 00 06 00 02 22 00 07 00 02 \
         20 00 08 00 03 30 00 04 00 08 00 01 30 00 00 00 09 00 0A 30 00 00 00 03 00 02 \
         00 00 00 0B 00 0C"
    );
    for rule in [of(1, 2), of(2, 1)] {
        assert_eq!(circuit_of(&rule).gates[5], gate(SUM, 3, 4));
        let plan = plan(&rule, &[&[3, 7]]);
        assert_eq!(file_of(&rule, &plan), hex(&wanted));
        for inputs in [[1, 5, 6], [0, 5, 6], [0, 6, 5]] {
            let (mut one, mut other) = ([0; 3], [0; 3]);
            assert_eq!(direct::run(&rule, &inputs, &mut one).number, 0);
            assert_eq!(run::run(&rule, &plan, &inputs, &mut other).number, 0);
            assert_eq!(one, other);
        }
    }
}

/// Every expression of a rule changed, from within.
fn change(block: &Block, each: &mut impl FnMut(Expression) -> Expression) -> Block {
    block
        .iter()
        .map(|statement| match statement {
            Statement::Assign(variable, value) => {
                Statement::Assign(*variable, change_expression(value, each))
            }
            Statement::Skip => Statement::Skip,
            Statement::If(condition, first, second) => {
                let condition = change_expression(condition, each);
                let first = change(first, each);
                Statement::If(condition, first, change(second, each))
            }
        })
        .collect()
}

fn change_expression(
    expression: &Expression,
    each: &mut impl FnMut(Expression) -> Expression,
) -> Expression {
    let changed = match expression {
        Expression::Operation(code, arguments) => {
            let arguments = arguments.iter().map(|a| change_expression(a, each));
            Expression::Operation(*code, arguments.collect())
        }
        other => other.clone(),
    };
    each(changed)
}

fn is_variable(expression: &Expression) -> bool {
    matches!(expression, Expression::Variable(_))
}

/// Whether C-12 turns the operation's arguments.
fn turns(code: u8) -> bool {
    operation(code).is_some_and(|row| row.lower_first)
}

/// The circuit in the order written: every one of the five stands as a difference. Making does not look at
/// kinds, so the gates are the same but for that.
fn as_written(rule: &Rule) -> Circuit {
    let block = change(&rule.block, &mut |expression| match expression {
        Expression::Operation(code, arguments) if turns(code) => {
            Expression::Operation(DIFFERENCE, arguments)
        }
        other => other,
    });
    make(&Rule {
        variables: rule.variables.clone(),
        block,
    })
}

/// The gates whose arguments stand in another order than written.
fn turned(rule: &Rule) -> Vec<usize> {
    let (made, written) = (make(rule), as_written(rule));
    (0..made.gates.len())
        .filter(|&gate| made.gates[gate].arguments() != written.gates[gate].arguments())
        .collect()
}

/// Against the order written only the arguments of the five are in another order: no gate, output, condition or
/// precondition moves. (That the gates of the five have the operation written is for the other tests.)
#[test]
fn only_arguments_of_the_five_move() {
    let mut random = Random::new(12);
    for _ in 0..500 {
        let rule = accept(&rules::accepted(&mut random, Words::ALL))
            .unwrap()
            .rule;
        let (made, written) = (make(&rule), as_written(&rule));
        assert_eq!(made.outputs, written.outputs);
        assert_eq!(made.conditions, written.conditions);
        assert_eq!(preconditions(&made), preconditions(&written));
        for (made, written) in made.gates.iter().zip(&written.gates) {
            let mut wanted = written.arguments();
            if turns(made.code()) {
                wanted.sort();
            } else {
                assert_eq!(made, written);
            }
            assert_eq!(made.arguments(), wanted);
        }
    }
}

/// Rules that differ only in the order of arguments, one of which at least makes no gate: the same
/// circuit, the same file with any plan, the same figures.
#[test]
fn the_order_written_does_not_matter() {
    let mut random = Random::new(1201);
    let (mut differing, mut joined) = (0, 0);
    for _ in 0..1000 {
        let bytes = rules::accepted(&mut random, Words::ALL);
        let accepted = accept(&bytes).unwrap();
        let block = change(&accepted.rule.block, &mut |expression| match expression {
            Expression::Operation(code, mut arguments)
                if turns(code) && arguments.iter().any(is_variable) && random.chance(50) =>
            {
                arguments.reverse();
                Expression::Operation(code, arguments)
            }
            other => other,
        });
        let other = bytes_of(&Rule {
            variables: accepted.rule.variables.clone(),
            block,
        });
        assert_eq!(circuit_of(&other), accepted.circuit);
        let needs = preconditions(&accepted.circuit);
        let plan = plans::valid(&mut random, &plans::Ground::new(&accepted.circuit, &needs));
        assert_eq!(file_of(&bytes, &plan), file_of(&other, &plan));
        let inputs = inputs(&mut random, &accepted.rule.kinds());
        let (mut one, mut two) = (vec![0; inputs.len()], vec![0; inputs.len()]);
        direct::run(&bytes, &inputs, &mut one);
        run::run(&other, &plan, &inputs, &mut two);
        assert_eq!(one, two);
        differing += usize::from(bytes != other);
        joined += usize::from(bytes != other && plan.len() > PLAN_BYTES_MIN);
    }
    assert!(differing > 500 && joined > 250, "{differing}, {joined}");
}

/// The rule with every operation of the five on two variables the other way round.
fn around(rule: &Rule) -> Rule {
    let block = change(&rule.block, &mut |expression| match expression {
        Expression::Operation(code, mut arguments)
            if turns(code) && arguments.iter().all(is_variable) =>
        {
            arguments.reverse();
            Expression::Operation(code, arguments)
        }
        other => other,
    });
    Rule {
        variables: rule.variables.clone(),
        block,
    }
}

/// Whether an operation of the five reads a lower-numbered gate through a higher-numbered wire.
fn falls(record: &Record) -> bool {
    matches!(record, Record::Operation(code, wires) if turns(*code) && wires[0] > wires[1])
}

/// The cases of rules among those of seeds 1 and 4, as they were before C-15, and with it.
fn random_cases() -> Vec<Case> {
    let (mut one, mut four) = (Random::new(1), Random::new(4));
    let operations: Vec<u8> = (1..=LAST).collect();
    let ordered = |_| cases::case(&mut four, &operations, Words::BEFORE_EIGHT);
    let mut made: Vec<Case> = (0..2000).map(ordered).collect();
    made.retain(|case| case.operation <= PLAIN);
    made.extend((0..2000).map(|_| cases::rule_case(&mut one, Words::NONE)));
    made
}

/// How many of these random cases hold what C-12 decides.
#[test]
fn turned_gates_are_often_made() {
    let [mut accepted, mut pairs, mut some, mut joined, mut falling] = [0; 5];
    let (mut gates, mut gates_turned) = (0, 0);
    for case in random_cases() {
        let Ok(Accepted { rule, circuit }) = accept(&case.first) else {
            continue;
        };
        accepted += 1;
        pairs += usize::from(as_written(&around(&rule)) != as_written(&rule));
        let turned = turned(&rule);
        some += usize::from(!turned.is_empty());
        gates += circuit.gates.iter().filter(|g| turns(g.code())).count();
        gates_turned += turned.len();
        let Ok(plan) = check(&circuit, preconditions(&circuit), &case.second) else {
            continue;
        };
        let is_joined = |gate: &usize| plan.groups[plan.group_of[*gate]].len() > 1;
        joined += usize::from(turned.iter().any(is_joined));
        falling += usize::from(write::fuse(&circuit, &plan).records.iter().any(falls));
    }
    println!("{accepted} cases with an accepted rule, of them");
    println!("{pairs} with an operation of the five on two variables of different gates,");
    println!("{some} with a turned gate, {gates_turned} of {gates} gates of the five,");
    println!("{joined} with a turned gate that is joined, {falling} with wires that fall");
    assert!(pairs > 700 && some > 1000, "{pairs}, {some}");
    assert!(joined > 200 && falling > 80, "{joined}, {falling}");
}
