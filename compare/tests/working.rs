//! C-13: kinds 02 and 03 are working variables. Their last gates are not needed from the start, their output is FF FF,
//! and runs write 0 for them.

use compare::answer::Answer;
use compare::circuit::{accept, preconditions, read_rule, Accepted, Settings};
use compare::circuit_file::{self, read_circuit, record};
use compare::examples::{P1, R1, R2, R8};
use compare::generate::kinds::Kinds;
use compare::generate::words::Words;
use compare::generate::{cases, inputs, plans, rules, Random};
use compare::law::*;
use compare::plan::{check, check_plan};
use compare::rule::{bytes_of, read, Rule};
use compare::run::{run, run_circuit};
use compare::stream::{Case, LAST, PLAIN, READ_CIRCUIT, STREAM_MARK};
use compare::write::{fuse, write, Record, Wire};
use compare::{direct, limits};

const UNTOUCHED: u32 = 3_735_928_559;

fn hex(text: &str) -> Vec<u8> {
    text.split_whitespace()
        .map(|pair| u8::from_str_radix(pair, 16).unwrap())
        .collect()
}

fn refused(number: u8, place: usize) -> Answer {
    Answer {
        number,
        place,
        ..Answer::default()
    }
}

/// The rule with the variables of the mask made working ones, the others results.
fn working(rule: &[u8], mask: usize) -> Vec<u8> {
    let mut rule = read(rule).unwrap();
    for (place, variable) in rule.variables.iter_mut().enumerate() {
        variable.working = mask >> place & 1 == 1;
    }
    bytes_of(&rule)
}

fn plan_of(rule: &[u8], groups: &[&[usize]]) -> Vec<u8> {
    let groups = groups.iter().map(|group| group.to_vec()).collect();
    plans::bytes_of(read_rule(rule).gates, &groups)
}

fn written(rule: &[u8], plan: &[u8]) -> (Answer, Vec<u8>) {
    let mut file = vec![0xEE; CIRCUIT_BYTES_MAX];
    let answer = write(rule, plan, &mut file);
    file.truncate(answer.bytes);
    (answer, file)
}

/// The direct run, the fused run and the run of the file all write these figures, and nothing after them.
#[track_caller]
fn assert_runs(rule: &[u8], plan: &[u8], inputs: &[u32], wanted: &[u32]) {
    let (_, file) = written(rule, plan);
    let mut all = [[UNTOUCHED; 40]; 3];
    assert_eq!(direct::run(rule, inputs, &mut all[0]).number, 0);
    assert_eq!(run(rule, plan, inputs, &mut all[1]).number, 0);
    assert_eq!(run_circuit(&file, inputs, &mut all[2]).number, 0);
    for results in all {
        assert_eq!(results[..wanted.len()], *wanted);
        assert!(results[wanted.len()..].iter().all(|&x| x == UNTOUCHED));
    }
}

/// All three runs refuse by this number, and write nothing.
#[track_caller]
fn assert_refused_runs(rule: &[u8], plan: &[u8], inputs: &[u32], room: usize, number: u8) {
    let (_, file) = written(rule, plan);
    let mut results = vec![UNTOUCHED; room];
    let wanted = refused(number, 0);
    assert_eq!(direct::run(rule, inputs, &mut results), wanted);
    assert_eq!(run(rule, plan, inputs, &mut results), wanted);
    assert_eq!(run_circuit(&file, inputs, &mut results), wanted);
    assert_eq!(results, vec![UNTOUCHED; room]);
}

#[test]
fn kind_bytes() {
    let says = |byte| Variable::of_byte(byte).map(|one| (one.kind, one.working));
    assert_eq!(says(0x00), Some((Kind::Word, false)));
    assert_eq!(says(0x01), Some((Kind::Bit, false)));
    assert_eq!(says(0x02), Some((Kind::Word, true)));
    assert_eq!(says(0x03), Some((Kind::Bit, true)));
    for byte in 0..=0x03 {
        assert_eq!(Variable::of_byte(byte).unwrap().byte(), byte);
    }
    for byte in 0x04..=0xFF {
        assert_eq!(says(byte), None);
    }
}

/// R1 with each kind byte made every other: 3 begins at 04, and word and bit alone decide 7.
#[test]
fn refusal_3_begins_above_03() {
    for (place, good, wrong) in [(6, [1, 3], 11), (7, [0, 2], 14), (8, [0, 2], 18)] {
        for byte in 0..=0xFF {
            let mut rule = R1;
            rule[place] = byte;
            let wanted = match byte {
                0x04.. => refused(3, place),
                _ if good.contains(&byte) => Answer::of_plain(6, 33),
                _ => refused(7, wrong),
            };
            assert_eq!(read_rule(&rule), wanted, "{byte:02X} at {place}");
        }
    }
}

fn needs_of(rule: &[u8]) -> Vec<String> {
    let Accepted { circuit, .. } = accept(rule).unwrap();
    preconditions(&circuit).iter().map(Settings::hex).collect()
}

/// R1: the products are there for v1 alone. The other variables' last gates are their starting values.
#[test]
fn needed_gates_of_r1() {
    let patterns = ["F", "0", "A", "5"].map(|digit| digit.repeat(64));
    let [all, none, first, second] = patterns.each_ref().map(String::as_str);
    for mask in 0..8 {
        let needs = needs_of(&working(&R1, mask));
        if mask & 0b010 == 0 {
            assert_eq!(needs, [all, first, all, first, second, all]);
            continue;
        }
        let start = |place: usize| if mask >> place & 1 == 1 { none } else { all };
        assert_eq!(needs, [start(0), none, start(2), none, none, none]);
    }
}

/// R1 with P1 in full. Guards of gates that nothing needs have no wire and an empty table.
#[test]
fn files_of_r1() {
    let head = "43 49 52 00 02 03 00 08 01 00 00 01 00 02";
    let zeros = "00 ".repeat(31);
    let guards = &format!("32 01 00 00 {zeros} 02 32 01 00 00 {zeros} 01");
    let unneeded = &format!("32 00 {zeros} 00 32 00 {zeros} 00");
    let rest = "31 02 00 03 00 01 00 04 00 02 22 00 05 00 02 30 00 00 00 06 00 06";
    for (mask, guards, outputs) in [
        (0b000, guards, "00 00 00 07 00 02"),
        (0b001, guards, "FF FF 00 07 00 02"),
        (0b100, guards, "00 00 00 07 FF FF"),
        (0b101, guards, "FF FF 00 07 FF FF"),
        (0b010, unneeded, "00 00 FF FF 00 02"),
        (0b011, unneeded, "FF FF FF FF 00 02"),
        (0b110, unneeded, "00 00 FF FF FF FF"),
        (0b111, unneeded, "FF FF FF FF FF FF"),
    ] {
        let rule = working(&R1, mask);
        let wanted = hex(&format!("{head} {guards} {rest} {outputs}"));
        let (answer, file) = written(&rule, &P1);
        assert_eq!(file, wanted, "{mask:03b}");
        assert_eq!(answer, Answer::of_fused(6, 8, wanted.len(), 33, 24));
        let mut short = vec![0xEE; wanted.len() - 1];
        assert_eq!(write(&rule, &P1, &mut short), refused(50, 0));
        assert!(short.iter().all(|&byte| byte == 0xEE));
        let kept = |place: usize, figure: u32| if mask >> place & 1 == 1 { 0 } else { figure };
        let figures = |all: [u32; 3]| [kept(0, all[0]), kept(1, all[1]), kept(2, all[2])];
        assert_runs(&rule, &P1, &[1, 6, 7], &figures([1, 42, 7]));
        assert_runs(&rule, &P1, &[0, 6, 7], &figures([0, 49, 7]));
        for (inputs, room, number) in [
            (&[2, 6, 7][..], 3, 41),
            (&[2, 6, 7], 2, 41),
            (&[1, 6, 7], 2, 42),
            (&[1, 6], 3, 40),
        ] {
            assert_refused_runs(&rule, &P1, inputs, room, number);
        }
    }
}

/// v0 := v0 + v0, v1 := v0, v0 := v0 + v1, v1 := v0 + v1: the working v0 is kept until the end.
#[test]
fn a_direct_run_keeps_working_figures() {
    let sum = "20 10 00 10 01";
    let tail = format!("01 00 20 10 00 10 00 01 01 10 00 01 00 {sum} 01 01 {sum} 00");
    let rule = hex(&format!("52 55 4C 00 01 02 02 00 {tail}"));
    assert_runs(&rule, &plan_of(&rule, &[]), &[3, 9], &[0, 18]);
    let all = direct::all_figures(&read(&rule).unwrap(), &[3, 9]);
    assert_eq!(all, [12, 18]);
}

/// Example 8's plan, refused by 29 for results, and example 6's two groups, refused by 30.
#[test]
fn plans_that_move_with_the_kinds() {
    let done = read_rule(&R8);
    for mask in 0..8 {
        let rule = working(&R8, mask);
        let answer = check_plan(&rule, &plan_of(&rule, &[&[5, 9]]));
        let exclude = mask & 0b110 != 0;
        assert_eq!(answer, if exclude { done } else { refused(29, 0) });
    }
    let done = read_rule(&R2);
    for mask in 0..16 {
        let rule = working(&R2, mask);
        let answer = check_plan(&rule, &plan_of(&rule, &[&[4, 7], &[5, 6]]));
        let rests_on_none = mask & 0b0010 != 0;
        assert_eq!(answer, if rests_on_none { done } else { refused(30, 0) });
    }
}

/// If every variable works, nothing is needed, the rule is taken, and no two gates need each other.
#[test]
fn all_variables_work() {
    let mut random = Random::new(131);
    let mut joined = 0;
    for _ in 0..300 {
        let rule = working(&rules::accepted(&mut random, Words::NONE), usize::MAX);
        let Accepted { circuit, .. } = accept(&rule).unwrap();
        let needs = preconditions(&circuit);
        assert!(needs.iter().all(|needs| *needs == Settings::none()));
        let plan = plans::valid(&mut random, &plans::Ground::new(&circuit, &needs));
        joined += usize::from(plan.len() > PLAN_BYTES_MIN);
        let inputs = inputs(&mut random, &accept(&rule).unwrap().rule.kinds());
        assert_runs(&rule, &plan, &inputs, &vec![0; inputs.len()]);
    }
    assert!(joined > 150, "only {joined} with joins");
}

/// Mark and version of a circuit file, then what is given.
fn cir(rest: &str) -> Vec<u8> {
    hex(&format!("43 49 52 00 01 {rest}"))
}

/// A file of a bit and a word, and nothing more, with these outputs.
fn with_outputs(outputs: &str) -> Vec<u8> {
    cir(&format!("02 00 02 01 00 00 01 {outputs}"))
}

/// FF FF is any variable's output; 0 is written for it, and its input is looked at as before.
#[test]
fn outputs_that_name_no_wire() {
    for (outputs, wanted) in [
        ("00 00 00 01", [1, 7]),
        ("FF FF 00 01", [0, 7]),
        ("00 00 FF FF", [1, 0]),
        ("FF FF FF FF", [0, 0]),
    ] {
        let file = with_outputs(outputs);
        let done = Answer::of_file(2, file.len());
        assert_eq!(read_circuit(&file), done);
        assert_eq!(record(&file, Wire(1)), [0x00, 0x01]);
        assert_eq!(record(&file, Wire(NO_WIRE)), []);
        let mut results = [UNTOUCHED; 3];
        assert_eq!(run_circuit(&file, &[1, 7], &mut results), done);
        assert_eq!(results, [wanted[0], wanted[1], UNTOUCHED]);
        let mut results = [UNTOUCHED; 2];
        let answer = run_circuit(&file, &[2, 7], &mut results);
        assert_eq!((answer, results), (refused(41, 0), [UNTOUCHED; 2]));
        let answer = run_circuit(&file, &[1, 7], &mut results[..1]);
        assert_eq!((answer, results), (refused(42, 0), [UNTOUCHED; 2]));
    }
}

/// Every other number that is no wire is refused, and FF FF in a record.
#[test]
fn other_numbers_that_are_no_wire() {
    for odd in ["FF FE", "FF 00", "00 FF", "02 80", "FE FF", "00 02"] {
        for outputs in [
            format!("{odd} 00 01"),
            format!("FF FF {odd}"),
            format!("{odd} FF FF"),
        ] {
            assert_eq!(
                read_circuit(&with_outputs(&outputs)),
                refused(62, 0),
                "{outputs}"
            );
        }
    }
    // Of no wire at all; read by a record; a variable's input is missing.
    for rest in [
        "01 00 00 FF FF",
        "01 00 02 01 00 27 FF FF FF FF",
        "02 00 01 01 00 FF FF FF FF",
    ] {
        assert_eq!(read_circuit(&cir(rest)), refused(62, 0), "{rest}");
    }
}

/// The same rule with its variables made results.
fn as_results(rule: &Rule) -> Rule {
    Rule::of_results(&rule.kinds(), rule.block.clone())
}

/// Against the same block of results: reading answers the same, no gate is needed that was not, and runs write the
/// same but for 0.
#[test]
fn beside_results() {
    let mut random = Random::new(13);
    let (mut some, mut fewer) = (0, 0);
    for _ in 0..1000 {
        let bytes = rules::accepted(&mut random, Words::ALL);
        let Accepted { rule, circuit } = accept(&bytes).unwrap();
        let results = as_results(&rule);
        let other = accept(&bytes_of(&results)).unwrap();
        assert_eq!(read_rule(&bytes), other.answer());
        assert_eq!(circuit.gates, other.circuit.gates);
        let (needs, all) = (preconditions(&circuit), preconditions(&other.circuit));
        let within = |(needs, all): (&Settings, &Settings)| {
            (0..SETTINGS).all(|j| all.has(j) || !needs.has(j))
        };
        assert!(needs.iter().zip(&all).all(within));
        let works = rule.variables.iter().any(|variable| variable.working);
        some += usize::from(works);
        fewer += usize::from(needs != all);
        assert!(works || needs == all);

        let inputs = inputs(&mut random, &rule.kinds());
        let wanted = direct::figures(&results, &inputs);
        let wanted = rule.variables.iter().zip(wanted);
        let wanted: Vec<u32> = wanted
            .map(|(variable, figure)| if variable.working { 0 } else { figure.unwrap() })
            .collect();
        let plan = plans::valid(&mut random, &plans::Ground::new(&circuit, &needs));
        assert_runs(&bytes, &plan, &inputs, &wanted);
    }
    assert!(some > 300 && fewer > 200, "{some}, {fewer}");
}

/// Input records say word or bit alone, and just the working variables have no output, in the file too.
#[test]
fn files_of_rules_with_working_variables() {
    let mut random = Random::new(132);
    for _ in 0..500 {
        let Accepted { rule, circuit } = accept(&rules::accepted(&mut random, Words::ALL)).unwrap();
        let needs = preconditions(&circuit);
        let plan = plans::valid(&mut random, &plans::Ground::new(&circuit, &needs));
        let fused = fuse(&circuit, &check(&circuit, needs, &plan).unwrap());
        let file = fused.file();
        let outputs = &file[file.len() - 2 * rule.variables.len()..];
        for (place, variable) in rule.variables.iter().enumerate() {
            let record = Record::Input(place, variable.kind);
            assert_eq!(fused.records[place], record);
            assert_eq!(
                file[8 + 2 * place..][..2],
                [variable.kind as u8, place as u8]
            );
            assert_eq!(fused.outputs[place].is_none(), variable.working);
            assert_eq!(outputs[2 * place..][..2] == [0xFF; 2], variable.working);
        }
        assert_eq!(circuit_file::accept(&file).unwrap().circuit, fused);
    }
}

/// A number for a stream's bytes (FNV-1a).
fn mark_of(cases: impl Iterator<Item = Case>) -> u64 {
    let mut stream = STREAM_MARK.to_vec();
    cases.for_each(|case| case.put(&mut stream));
    stream.iter().fold(0xCBF2_9CE4_8422_2325, |mark, &byte| {
        (mark ^ u64::from(byte)).wrapping_mul(0x0000_0100_0000_01B3)
    })
}

fn random_cases(seed: u64, operations: &[u8], kinds: Kinds) -> impl Iterator<Item = Case> + '_ {
    let mut random = Random::new(seed);
    let words = Words {
        kinds,
        ..Words::NONE
    };
    std::iter::repeat_with(move || cases::case(&mut random, operations, words))
}

/// What was before C-13 is made as it was then.
#[test]
fn cases_stay() {
    let rules = random_cases(1, &[1, 2, 3, 4, 5, 6], Kinds::Results).take(2000);
    assert_eq!(mark_of(rules), 0xE372_6B4B_B5AD_86C9);
    let files = random_cases(2, &[7, 8, 9], Kinds::Results).take(1000);
    assert_eq!(mark_of(files), 0xC40F_A668_869C_7923);
    assert_eq!(mark_of(limits::cases().into_iter()), 0x601C_A4D5_C9BB_3A32);
    assert_eq!(
        mark_of(limits::circuit_cases().into_iter()),
        0x6557_9725_728F_0C2A
    );
}

/// The outputs of a circuit file that is long enough for them.
fn outputs_of(file: &[u8]) -> Vec<&[u8]> {
    let variables = file.get(5).map_or(0, |&variables| usize::from(variables));
    let start = file.len().saturating_sub(2 * variables);
    file[start..].chunks(2).collect()
}

/// The first 2,000 cases of seed 3: how many have working variables.
#[test]
fn working_variables_are_often_made() {
    let operations: Vec<u8> = (1..=LAST).collect();
    let [mut rules, mut some, mut all] = [0; 3];
    let [mut files, mut none, mut odd] = [0; 3];
    for case in random_cases(3, &operations, Kinds::Working).take(2000) {
        if case.operation <= PLAIN {
            let Ok(rule) = read(&case.first) else {
                continue;
            };
            rules += 1;
            some += usize::from(rule.variables.iter().any(|one| one.working));
            all += usize::from(rule.variables.iter().all(|one| one.working));
        }
        if case.operation >= READ_CIRCUIT {
            let outputs = outputs_of(&case.first);
            files += 1;
            none += usize::from(outputs.contains(&&[0xFF, 0xFF][..]));
            let near = |output: &&[u8]| {
                [[0xFF, 0xFE], [0xFF, 0x00], [0x00, 0xFF]]
                    .iter()
                    .any(|near| output == near)
            };
            odd += usize::from(outputs.iter().any(near));
        }
    }
    println!("{rules} rules, of them {some} with a working variable, {all} with no other");
    println!("{files} files, of them {none} with FF FF as an output, {odd} with one near it");
    assert!(
        3 * some > rules && 12 * all > rules,
        "{some}, {all} of {rules}"
    );
    assert!(4 * none > files && odd > 30, "{none}, {odd} of {files}");
}
