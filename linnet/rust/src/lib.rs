//! Linnetshelf's proved tool, called from Rust. Every function passes its arguments on to the
//! function `linnet_` and its name of the archive that `rt lib` writes in crates/linnet, and adds nothing;
//! only `record` makes a slice of the part that it is told.
//! What each does, and the numbers of the refusals, stands in `linnet.h`.

/// The seven numbers that every operation answers with. A count that an operation does not work
/// out is 0; a refusal has number and place alone.
#[repr(C)]
#[derive(Clone, Copy, Debug, Default, PartialEq, Eq)]
pub struct Answer {
    pub number: u8,
    pub place: usize,
    pub gates: usize,
    pub wires: usize,
    pub bytes: usize,
    pub before: usize,
    pub after: usize,
}

/// A plain circuit: the answer of reading its rule, four numbers a gate (code, then variable,
/// figure, or argument gates in the order in which the gate takes them), and each gate's
/// precondition, four words a gate, the lowest first: bit j of these 256 is setting j; zeros after
/// the gates.
#[repr(C)]
#[derive(Clone, Copy, Debug, PartialEq, Eq)]
pub struct Shown {
    pub answer: Answer,
    pub rows: [u32; 1024],
    pub needs: [u64; 1024],
}

/// The part of an array from `start` on, so many elements.
#[repr(C)]
struct Part {
    start: usize,
    length: usize,
}

#[rustfmt::skip]
extern "C" {
    fn linnet_read_rule(rule: *const u8, rule_count: usize) -> Answer;
    fn linnet_run_rule(rule: *const u8, rule_count: usize, inputs: *const u32, inputs_count: usize, results: *mut u32, results_count: usize) -> Answer;
    fn linnet_show_plain(rule: *const u8, rule_count: usize) -> Shown;
    fn linnet_check_plan(rule: *const u8, rule_count: usize, plan: *const u8, plan_count: usize) -> Answer;
    fn linnet_write_fused(rule: *const u8, rule_count: usize, plan: *const u8, plan_count: usize, out: *mut u8, out_count: usize) -> Answer;
    fn linnet_run_fused(rule: *const u8, rule_count: usize, plan: *const u8, plan_count: usize, inputs: *const u32, inputs_count: usize, results: *mut u32, results_count: usize) -> Answer;
    fn linnet_read_circuit(file: *const u8, file_count: usize) -> Answer;
    fn linnet_record(file: *const u8, file_count: usize, wire: usize) -> Part;
    fn linnet_run_circuit(file: *const u8, file_count: usize, inputs: *const u32, inputs_count: usize, results: *mut u32, results_count: usize) -> Answer;
}

// Each call below is sound: a slice is a pointer and a count for the time of the call, the lent
// parts do not overlap by Rust's own rule, and the archive's functions ask for nothing more.

/// Reads a rule: gates and cost before, or a refusal by rows 1 to 11.
#[rustfmt::skip]
pub fn read_rule(rule: &[u8]) -> Answer {
    unsafe { linnet_read_rule(rule.as_ptr(), rule.len()) }
}

/// Runs a rule directly: each variable's figure at its end, 0 for a working variable, in the first V results.
#[rustfmt::skip]
pub fn run_rule(rule: &[u8], inputs: &[u32], results: &mut [u32]) -> Answer {
    unsafe { linnet_run_rule(rule.as_ptr(), rule.len(), inputs.as_ptr(), inputs.len(), results.as_mut_ptr(), results.len()) }
}

/// Shows the plain circuit of a rule, with each gate's precondition.
#[rustfmt::skip]
pub fn show_plain(rule: &[u8]) -> Shown {
    unsafe { linnet_show_plain(rule.as_ptr(), rule.len()) }
}

/// Checks a plan for a rule: gates and cost before, or a refusal of the rule or by rows 20 to 30 and 32.
#[rustfmt::skip]
pub fn check_plan(rule: &[u8], plan: &[u8]) -> Answer {
    unsafe { linnet_check_plan(rule.as_ptr(), rule.len(), plan.as_ptr(), plan.len()) }
}

/// Writes the fused circuit's file at the start of `out`: all five counts.
#[rustfmt::skip]
pub fn write_fused(rule: &[u8], plan: &[u8], out: &mut [u8]) -> Answer {
    unsafe { linnet_write_fused(rule.as_ptr(), rule.len(), plan.as_ptr(), plan.len(), out.as_mut_ptr(), out.len()) }
}

/// Runs the fused circuit: each variable's figure, 0 for a working variable, in the first V results; all five counts.
#[rustfmt::skip]
pub fn run_fused(rule: &[u8], plan: &[u8], inputs: &[u32], results: &mut [u32]) -> Answer {
    unsafe { linnet_run_fused(rule.as_ptr(), rule.len(), plan.as_ptr(), plan.len(), inputs.as_ptr(), inputs.len(), results.as_mut_ptr(), results.len()) }
}

/// Reads a circuit file of either version, of whichever house: its wires and bytes, or a refusal by rows 60 to 62.
#[rustfmt::skip]
pub fn read_circuit(file: &[u8]) -> Answer {
    unsafe { linnet_read_circuit(file.as_ptr(), file.len()) }
}

/// The part of a circuit file that holds a wire's record; empty for a refused file or a number that is no wire.
#[rustfmt::skip]
pub fn record(file: &[u8], wire: usize) -> &[u8] {
    let part = unsafe { linnet_record(file.as_ptr(), file.len(), wire) };
    &file[part.start..part.start + part.length]
}

/// Runs a circuit file: each variable's figure, 0 where its output is FF FF, in the first V results; its wires and bytes.
#[rustfmt::skip]
pub fn run_circuit(file: &[u8], inputs: &[u32], results: &mut [u32]) -> Answer {
    unsafe { linnet_run_circuit(file.as_ptr(), file.len(), inputs.as_ptr(), inputs.len(), results.as_mut_ptr(), results.len()) }
}
