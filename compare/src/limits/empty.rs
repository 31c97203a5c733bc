//! The plan of no group, for every rule of the other cases.

use super::{inputs, plan, List};
use crate::circuit::{accept, accept_within};
use crate::law::*;
use std::collections::HashSet;

/// The empty plan for every rule of the list; a refused rule's has gate count 0 and must not matter. That of a rule
/// with a working variable has it too, and that of a rule with seven conditions or ifs nested seven deep, since such a rule was
/// refused when the cases were first stored.
pub fn add(list: &mut List) {
    let mut seen = HashSet::new();
    let rules: Vec<Vec<u8>> = list
        .cases
        .iter()
        .map(|made| made.case.first.clone())
        .collect();
    for rule in rules {
        if !seen.insert(rule.clone()) {
            continue;
        }
        match accept(&rule) {
            Ok(_) if accept_within(&rule, LIMITS_BEFORE).is_err() => {
                list.with_plan(&rule, &plan(0, &[]), 22);
            }
            Ok(accepted) if accepted.rule.variables.iter().any(|one| one.working) => {
                list.check(&rule, &plan(0, &[]), 22);
                list.write(&rule, &plan(0, &[]), CIRCUIT_BYTES_MAX, 22);
                list.fused(&rule, &plan(0, &[]), &[], 1, 22);
            }
            Ok(accepted) => {
                let plan = plan(accepted.circuit.gates.len(), &[]);
                list.check(&rule, &plan, 0);
                list.write(&rule, &plan, list.length(&rule, &plan), 0);
                list.fused(
                    &rule,
                    &plan,
                    &inputs(&rule, 1),
                    accepted.rule.variables.len(),
                    0,
                );
            }
            Err(refusal) => list.with_plan(&rule, &plan(0, &[]), refusal.number),
        }
    }
}
