//! The plan file: its layout and its check, rows 20 to 30 and 32, which comes after 26 (C-15).

use crate::answer::{Answer, Refusal};
use crate::circuit::{accept, preconditions, Accepted, Circuit, GateNumber, Settings};
use crate::law::*;

/// An accepted plan: every gate in one group, and what the groups wait for.
#[derive(Debug)]
pub struct Plan {
    /// By smallest member; members rising. Unlisted gates stand alone.
    pub groups: Vec<Vec<GateNumber>>,
    /// For each gate the place of its group in `groups`.
    pub group_of: Vec<usize>,
    /// For each group the groups that it waits for.
    pub waits: Vec<Vec<usize>>,
    /// For each gate the settings that need it.
    pub needs: Vec<Settings>,
}

/// The operation "check a plan".
pub fn check_plan(rule: &[u8], plan: &[u8]) -> Answer {
    match accept_both(rule, plan) {
        Ok((accepted, _)) => accepted.answer(),
        Err(refusal) => refusal.into(),
    }
}

/// Rule before plan.
pub fn accept_both(rule: &[u8], plan: &[u8]) -> Result<(Accepted, Plan), Refusal> {
    let accepted = accept(rule)?;
    let needs = preconditions(&accepted.circuit);
    let plan = check(&accepted.circuit, needs, plan)?;
    Ok((accepted, plan))
}

/// Checks the rows one after the other, each over the whole file, so the first failing row decides.
pub fn check(circuit: &Circuit, needs: Vec<Settings>, bytes: &[u8]) -> Result<Plan, Refusal> {
    let gate_count = circuit.gates.len();
    let listed = listed(gate_count, bytes)?;
    check_numbers(gate_count, &listed)?;
    check_members(circuit, &needs, &listed)?;

    let (groups, group_of) = all_groups(gate_count, &listed);
    let waits = waits(circuit, &needs, &groups, &group_of);
    if (0..groups.len()).any(|group| waits_for_itself(group, &waits)) {
        return Err(Refusal::nowhere(30));
    }
    Ok(Plan {
        groups,
        group_of,
        waits,
        needs,
    })
}

/// The groups as the file lists them: rows 20 to 23.
fn listed(gate_count: usize, bytes: &[u8]) -> Result<Vec<Vec<usize>>, Refusal> {
    if bytes.len() < PLAN_BYTES_MIN || bytes.len() > PLAN_BYTES_MAX {
        return Err(Refusal::nowhere(20));
    }
    if bytes[..5] != PLAN_MARK {
        return Err(Refusal::nowhere(21));
    }
    if two_bytes(bytes, 5) != gate_count {
        return Err(Refusal::nowhere(22));
    }
    lay_out(bytes).ok_or(Refusal::nowhere(23))
}

/// What the numbers alone decide: rows 24 to 26, then 32.
fn check_numbers(gate_count: usize, listed: &[Vec<usize>]) -> Result<(), Refusal> {
    if listed.iter().any(|group| group.len() < GROUP_SIZE_MIN) {
        return Err(Refusal::nowhere(24));
    }
    for group in listed {
        let unknown = group.iter().any(|&member| member >= gate_count);
        let falls = group.windows(2).any(|pair| pair[0] >= pair[1]);
        if unknown || falls {
            return Err(Refusal::nowhere(25));
        }
    }
    let mut times = vec![0; gate_count];
    for &member in listed.iter().flatten() {
        times[member] += 1;
    }
    if times.iter().any(|&count| count > 1) {
        return Err(Refusal::nowhere(26));
    }
    // Members rise, so the first is the smallest.
    if listed.windows(2).any(|pair| pair[1][0] <= pair[0][0]) {
        return Err(Refusal::nowhere(32));
    }
    Ok(())
}

/// What the members' gates decide: rows 27 to 29.
fn check_members(
    circuit: &Circuit,
    needs: &[Settings],
    listed: &[Vec<usize>],
) -> Result<(), Refusal> {
    if listed.iter().flatten().any(|&m| !circuit.gates[m].costly()) {
        return Err(Refusal::nowhere(27));
    }
    for group in listed {
        let code = circuit.gates[group[0]].code();
        if group.iter().any(|&m| circuit.gates[m].code() != code) {
            return Err(Refusal::nowhere(28));
        }
    }
    for group in listed {
        for (i, &one) in group.iter().enumerate() {
            if group[i + 1..].iter().any(|&m| needs[one].meets(&needs[m])) {
                return Err(Refusal::nowhere(29));
            }
        }
    }
    Ok(())
}

fn two_bytes(bytes: &[u8], at: usize) -> usize {
    usize::from(u16::from_be_bytes([bytes[at], bytes[at + 1]]))
}

/// As many groups as the file counts, of any size, if they end just where the file ends. It has 9 bytes or more.
pub(crate) fn lay_out(bytes: &[u8]) -> Option<Vec<Vec<usize>>> {
    let mut at = PLAN_BYTES_MIN;
    let mut groups = Vec::new();
    for _ in 0..two_bytes(bytes, 7) {
        let size = usize::from(*bytes.get(at)?);
        let members = bytes.get(at + 1..at + 1 + 2 * size)?;
        groups.push(members.chunks(2).map(|pair| two_bytes(pair, 0)).collect());
        at += 1 + 2 * size;
    }
    (at == bytes.len()).then_some(groups)
}

/// The listed groups and every unlisted gate as a group alone, by smallest member.
fn all_groups(gate_count: usize, listed: &[Vec<usize>]) -> (Vec<Vec<GateNumber>>, Vec<usize>) {
    let mut groups: Vec<Vec<GateNumber>> = Vec::new();
    let mut group_of = vec![usize::MAX; gate_count];
    for gate in 0..gate_count {
        // A group already begun has a smaller member, so this gate begins none.
        if group_of[gate] != usize::MAX {
            continue;
        }
        let alone = vec![gate];
        let members = listed.iter().find(|g| g.contains(&gate)).unwrap_or(&alone);
        for &member in members {
            group_of[member] = groups.len();
        }
        groups.push(members.iter().map(|&member| GateNumber(member)).collect());
    }
    (groups, group_of)
}

fn waits(
    circuit: &Circuit,
    needs: &[Settings],
    groups: &[Vec<GateNumber>],
    group_of: &[usize],
) -> Vec<Vec<usize>> {
    let mut waits = Vec::new();
    for members in groups {
        let mut list = Vec::new();
        for &member in members {
            for argument in circuit.gate(member).arguments() {
                list.push(group_of[argument.0]);
            }
            // A joined gate's guard reads the conditions that the gate rests on.
            if members.len() >= GROUP_SIZE_MIN {
                for (t, condition) in circuit.conditions.iter().enumerate() {
                    if needs[member.0].rests_on(t) {
                        list.push(group_of[condition.0]);
                    }
                }
            }
        }
        list.sort();
        list.dedup();
        waits.push(list);
    }
    waits
}

/// Whether a chain of one or more waits returns to its start: a search along the waits.
fn waits_for_itself(start: usize, waits: &[Vec<usize>]) -> bool {
    let mut reached = vec![false; waits.len()];
    let mut waiting = waits[start].clone();
    while let Some(group) = waiting.pop() {
        if !reached[group] {
            reached[group] = true;
            waiting.extend(&waits[group]);
        }
    }
    reached[start]
}
