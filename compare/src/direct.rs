//! The direct run: statements in file order on one figure for each variable.

use crate::answer::{Answer, Refusal};
use crate::circuit::accept;
use crate::law::{work_out, Kind};
use crate::rule::{Expression, Rule, Statement};

/// Rows 40 to 42, the lowest first.
pub fn check_inputs(kinds: &[Kind], inputs: &[u32], places: usize) -> Result<(), Refusal> {
    if inputs.len() != kinds.len() {
        return Err(Refusal::nowhere(40));
    }
    for (&kind, &input) in kinds.iter().zip(inputs) {
        if kind == Kind::Bit && input > 1 {
            return Err(Refusal::nowhere(41));
        }
    }
    if places < kinds.len() {
        return Err(Refusal::nowhere(42));
    }
    Ok(())
}

/// What every run writes: in each of the first V places the variable's figure, or 0 for a working one, which has
/// none to write (C-13).
pub fn write_results(figures: &[Option<u32>], results: &mut [u32]) {
    for (result, figure) in results.iter_mut().zip(figures) {
        *result = figure.unwrap_or(0);
    }
}

/// The operation "direct run". Only the first V results are written, and only on success.
pub fn run(bytes: &[u8], inputs: &[u32], results: &mut [u32]) -> Answer {
    let accepted = match accept(bytes) {
        Ok(accepted) => accepted,
        Err(refusal) => return refusal.into(),
    };
    if let Err(refusal) = check_inputs(&accepted.rule.kinds(), inputs, results.len()) {
        return refusal.into();
    }
    write_results(&figures(&accepted.rule, inputs), results);
    accepted.answer()
}

/// The figure of every result variable at the end of the rule.
pub fn figures(rule: &Rule, inputs: &[u32]) -> Vec<Option<u32>> {
    let last = rule.variables.iter().zip(all_figures(rule, inputs));
    last.map(|(variable, figure)| variable.if_result(figure))
        .collect()
}

/// Every variable's figure at the end of the rule: working ones are kept until then.
pub fn all_figures(rule: &Rule, inputs: &[u32]) -> Vec<u32> {
    let mut figures = inputs.to_vec();
    run_block(&rule.block, &mut figures);
    figures
}

fn run_block(block: &[Statement], figures: &mut [u32]) {
    for statement in block {
        match statement {
            Statement::Assign(variable, value) => figures[*variable] = figure(value, figures),
            Statement::Skip => {}
            Statement::If(condition, first, second) => {
                if figure(condition, figures) == 1 {
                    run_block(first, figures);
                } else {
                    run_block(second, figures);
                }
            }
        }
    }
}

fn figure(expression: &Expression, figures: &[u32]) -> u32 {
    match expression {
        Expression::Variable(variable) => figures[*variable],
        Expression::Word(word) => *word,
        Expression::Bit(bit) => u32::from(*bit),
        Expression::Operation(code, arguments) => {
            let first = figure(&arguments[0], figures);
            let second = arguments.get(1).map_or(0, |second| figure(second, figures));
            work_out(*code, first, second)
        }
    }
}
