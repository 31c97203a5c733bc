//! C-18: no pick between equal wires, no guards where no pick remains. What was written before is made still, and held beside
//! what is written now.

use compare::circuit::{accept, preconditions};
use compare::generate::words::Words;
use compare::generate::{cases, inputs, plans, rules, Random};
use compare::law::*;
use compare::limits;
use compare::plan::{accept_both, check, Plan};
use compare::run::{figures, run_circuit};
use compare::stream::{Case, LAST, STREAM_MARK};
use compare::write::{fuse, fuse_with, Fused, Record, Wire};
use compare::{circuit_file, direct};

/// The records of before with every pick between equal wires left out, and the guards of groups that lose both: what C-18
/// says, from the file alone. Wires are named anew by those that are left.
fn without_equal(before: &Fused) -> Fused {
    let mut left: Vec<Record> = Vec::new();
    let mut wire_of: Vec<Wire> = Vec::new();
    let mut place = 0;
    while place < before.records.len() {
        let guards = run_of(before, place, |record| matches!(record, Record::Guard(..)));
        let picks = run_of(before, place + guards, |record| {
            matches!(record, Record::Pick(_))
        });
        let [first_pick, end] = [place + guards, place + guards + picks];
        let unequal = |record: &Record| !values_are_equal(record);
        let some_left = before.records[first_pick..end].iter().any(unequal);
        for at in place..=end {
            let record = &before.records[at];
            let dropped = match record {
                Record::Guard(..) => !some_left,
                Record::Pick(_) => values_are_equal(record),
                _ => false,
            };
            let new = match record {
                // Nobody reads a guard that is left out.
                Record::Guard(..) if dropped => Wire(usize::MAX),
                Record::Pick(pairs) if dropped => wire_of[pairs[0].1 .0],
                _ => {
                    left.push(renamed(record, &wire_of));
                    Wire(left.len() - 1)
                }
            };
            wire_of.push(new);
        }
        place = end + 1;
    }
    let outputs = before.outputs.iter();
    Fused {
        records: left,
        outputs: outputs
            .map(|output| output.map(|wire| wire_of[wire.0]))
            .collect(),
    }
}

/// How many records from a place on are of a sort.
fn run_of(circuit: &Fused, from: usize, of: impl Fn(&Record) -> bool) -> usize {
    circuit.records[from..]
        .iter()
        .take_while(|record| of(record))
        .count()
}

fn values_are_equal(record: &Record) -> bool {
    matches!(record, Record::Pick(pairs) if pairs.iter().all(|pair| pair.1 == pairs[0].1))
}

fn renamed(record: &Record, wire_of: &[Wire]) -> Record {
    let of = |wire: &Wire| wire_of[wire.0];
    match record {
        Record::Operation(code, wires) => Record::Operation(*code, wires.iter().map(of).collect()),
        Record::Choice(condition, first, second) => {
            Record::Choice(of(condition), of(first), of(second))
        }
        Record::Pick(pairs) => {
            let pair = |(guard, value): &(Wire, Wire)| (of(guard), of(value));
            Record::Pick(pairs.iter().map(pair).collect())
        }
        Record::Guard(wires, table) => Record::Guard(wires.iter().map(of).collect(), table.clone()),
        other => other.clone(),
    }
}

/// What holds for every file of ours: no pick has all its values equal, and a pick reads every guard.
fn assert_no_idle_records(fused: &Fused) {
    let mut read = vec![false; fused.records.len()];
    for record in &fused.records {
        assert!(!values_are_equal(record));
        if let Record::Pick(pairs) = record {
            pairs.iter().for_each(|(guard, _)| read[guard.0] = true);
        }
    }
    for (wire, record) in fused.records.iter().enumerate() {
        assert!(!matches!(record, Record::Guard(..)) || read[wire]);
    }
}

fn count(fused: &Fused, of: impl Fn(&Record) -> bool) -> usize {
    fused.records.iter().filter(|record| of(record)).count()
}

fn joined(plan: &Plan) -> usize {
    let sizes = plan.groups.iter().map(Vec::len);
    sizes.filter(|&size| size >= GROUP_SIZE_MIN).count()
}

/// Random accepted plans in both shapes: the new one is the old one without what C-18 leaves out, it costs no more, and both
/// give the rule's figures.
#[test]
fn both_shapes_give_the_same() {
    let mut random = Random::new(18);
    let [mut groups, mut without_guards, mut one_pick, mut shorter] = [0; 4];
    for _ in 0..2000 {
        let bytes = rules::accepted(&mut random, Words::ALL);
        let accepted = accept(&bytes).unwrap();
        let needs = preconditions(&accepted.circuit);
        let ground = plans::Ground::new(&accepted.circuit, &needs).with(PICKS);
        let plan = plans::valid(&mut random, &ground);
        let plan = check(&accepted.circuit, needs.clone(), &plan).unwrap();
        let before = fuse_with(&accepted.circuit, &plan, PICKS_BEFORE);
        let fused = fuse(&accepted.circuit, &plan);
        assert_eq!(fused, without_equal(&before));
        assert_no_idle_records(&fused);
        assert!(fused.records.len() <= before.records.len());
        assert!(fused.cost() <= before.cost());
        let [file, file_before] = [&fused, &before].map(Fused::file);
        assert!(file.len() <= file_before.len());
        let same = fused.records.len() == before.records.len();
        assert_eq!(file == file_before, same);
        for file in [&file, &file_before] {
            assert!(circuit_file::accept(file).is_ok());
        }
        for _ in 0..4 {
            let inputs = inputs(&mut random, &accepted.rule.kinds());
            let wanted = direct::figures(&accepted.rule, &inputs);
            assert_eq!(figures(&fused, &inputs), wanted);
            assert_eq!(figures(&before, &inputs), wanted);
            let [mut one, mut other] = [(); 2].map(|()| vec![9; inputs.len()]);
            assert_eq!(run_circuit(&file, &inputs, &mut one).number, 0);
            assert_eq!(run_circuit(&file_before, &inputs, &mut other).number, 0);
            assert_eq!(one, other);
        }
        shorter += usize::from(!same);
        let of = joined(&plan);
        let picks = count(&fused, |record| matches!(record, Record::Pick(_)));
        let with_guards = fused
            .records
            .windows(2)
            .filter(|two| matches!(two[0], Record::Guard(..)) && matches!(two[1], Record::Pick(_)));
        let with_guards = with_guards.count();
        groups += of;
        without_guards += of - with_guards;
        one_pick += 2 * with_guards - picks;
    }
    println!("{shorter} of 2,000 circuits are shorter; of {groups} groups {without_guards} without guards, {one_pick} with one pick");
    assert!(shorter > 700 && 5 * without_guards > groups && 20 * one_pick > groups);
}

/// A number for a stream's bytes (FNV-1a).
fn mark_of(cases: impl Iterator<Item = Case>) -> u64 {
    let mut stream = STREAM_MARK.to_vec();
    cases.for_each(|case| case.put(&mut stream));
    stream.iter().fold(0xCBF2_9CE4_8422_2325, |mark, &byte| {
        (mark ^ u64::from(byte)).wrapping_mul(0x0000_0100_0000_01B3)
    })
}

fn random_cases(seed: u64, words: Words) -> impl Iterator<Item = Case> {
    let mut random = Random::new(seed);
    let operations: Vec<u8> = (1..=LAST).collect();
    std::iter::repeat_with(move || cases::case(&mut random, &operations, words))
}

/// What C-17 brought is made as it was then; `tests/eight.rs` has what was before it.
#[test]
fn cases_stay() {
    let random = random_cases(5, Words::BEFORE_EQUAL).take(2000);
    assert_eq!(mark_of(random), 0xD89E_1E4F_91EF_0151);
    assert_eq!(
        mark_of(limits::eight_cases().into_iter()),
        0xE60A_0271_0438_0595
    );
}

/// The most groups in a row, each reading the one before, that have no guards.
fn longest_chain(fused: &Fused, plan: &Plan) -> usize {
    if joined(plan) == 0 {
        return 0;
    }
    let mut links = vec![0; fused.records.len()];
    let mut most = 0;
    let mut before_is_pick = false;
    for (wire, record) in fused.records.iter().enumerate() {
        if let Record::Operation(code, wires) = record {
            let costly = operation(*code).is_some_and(|row| row.cost > 0);
            if costly && !before_is_pick {
                links[wire] = 1 + wires.iter().map(|wire| links[wire.0]).max().unwrap_or(0);
                most = most.max(links[wire]);
            }
        }
        before_is_pick = matches!(record, Record::Pick(_));
    }
    most
}

/// The first 2,000 cases of seed 6: how many have what C-18 brings.
#[test]
fn equal_wires_are_often_made() {
    let [mut joins, mut shorter, mut without, mut one, mut chains] = [0; 5];
    for case in random_cases(6, Words::ALL).take(2000) {
        let Ok((accepted, plan)) = accept_both(&case.first, &case.second) else {
            continue;
        };
        if joined(&plan) == 0 {
            continue;
        }
        joins += 1;
        let before = fuse_with(&accepted.circuit, &plan, PICKS_BEFORE);
        let fused = fuse(&accepted.circuit, &plan);
        let guards = |fused: &Fused| count(fused, |record| matches!(record, Record::Guard(..)));
        let picks = count(&fused, |record| matches!(record, Record::Pick(_)));
        shorter += usize::from(fused != before);
        without += usize::from(guards(&fused) < guards(&before));
        one += usize::from(guards(&fused) > 0 && picks < 2 * joined(&plan));
        chains += usize::from(longest_chain(&fused, &plan) >= 3);
    }
    println!("{joins} plans that join gates: {shorter} shorter, {without} with a group without guards, {one} with guards and");
    println!(
        "fewer picks than two a group, {chains} with a chain of three operations without a pick"
    );
    assert!(3 * shorter > joins && 4 * without > joins && one > 40 && chains > 30);
}

/// The files that were written before, and what they printed then: see `limits::equal_cases`, which looks at the lines.
#[test]
fn kept_files_are_of_before() {
    let kept = compare::stream::cases(&std::fs::read("data/version_2.cas").unwrap()).unwrap();
    assert!(kept.len() > 500);
    let mut files: Vec<&[u8]> = kept.iter().map(|case| &case.first[..]).collect();
    files.sort();
    files.dedup();
    let [mut all, mut equal] = [0; 2];
    for file in files {
        let read = circuit_file::accept(file).expect("a file of ours");
        assert_eq!(read.version, VERSION_2);
        all += 1;
        equal += usize::from(read.circuit.records.iter().any(values_are_equal));
    }
    assert!(all >= 150 && equal >= 100, "{equal} of {all}");
}
