//! 02's claims about a frame's count, the entries of a step, and runs, looked at in what the library itself answered and
//! left, whatever was written before.
use crate::{
    list::Action,
    player::{row, Call},
    side::Side,
};
use tables::Tables;

/// The spot of a tree's first node.
const FIRST_NODE: u64 = 4;

/// A step has at most 64 changes and its closing entry.
const STEP_ENTRIES: u64 = 65;

const CALL: u64 = 9;

/// The library's side before the call is at hand for a run.
pub fn broken(call: &Call, tables: &Tables, before: Option<&Side>, after: &Side) -> Option<String> {
    let what = match (call.action, call.number) {
        (Action::Frame(_), 0 | 5) => miscounted(call, after),
        (Action::Forward(_), 0) => crowded(call, 1, after),
        (Action::Run(allowance), 0) => {
            crowded(call, after.ran[0], after).or_else(|| no_forwards(*allowance, tables, before?, after))
        }
        _ => None,
    };
    what.map(|what| format!("02's claim: {what}"))
}

/// Whether a row may lead elsewhere than to the next one or to the end.
pub fn has_jumps(tables: &Tables) -> bool {
    tables.instructions().any(|row| (11..=13).contains(&row[0]))
}

/// "The count is the failing node's place in its tree plus 1, or the whole tree's where none fails."
fn miscounted(call: &Call, library: &Side) -> Option<String> {
    let (looked, spot) = (library.looked[0], library.error[2]);
    let count = match call.number {
        0 => call.row.map_or(0, |row| row[3]),
        _ => (spot + 1).saturating_sub(FIRST_NODE),
    };
    (looked != count).then(|| format!("{looked} nodes looked at, not {count}"))
}

/// "Each step uses at most 65 entries", and one at least.
fn crowded(call: &Call, steps: u64, after: &Side) -> Option<String> {
    let (from, to) = (call.from[2], after.position[2]);
    let fits = (steps..=steps.saturating_mul(STEP_ENTRIES)).contains(&to.wrapping_sub(from));
    (!fits).then(|| format!("{steps} steps from {from} to {to} entries"))
}

/// "Every run reports at most its allowance and leaves what that many forwards leave, never stops short at a row that a
/// forward would take, CALL apart, and an allowance of 0 changes nothing."
fn no_forwards(allowance: u64, tables: &Tables, before: &Side, after: &Side) -> Option<String> {
    let [steps, stop, number] = after.ran;
    if steps > allowance {
        return Some(format!("{steps} steps, the allowance was {allowance}"));
    }
    let mut forwards = before.clone();
    for step in 0..steps {
        let called = is_call(row(tables, forwards.position[0]));
        match forwards.act(tables, &Action::Forward(Vec::new())) {
            Some(0) if !called => {}
            number => return Some(format!("of {steps} steps forward {step} is {number:?}, a CALL: {called}")),
        }
    }
    if !forwards.stands_as(after) {
        return Some(format!("{steps} forwards leave something else, position {:?}", forwards.position));
    }
    if allowance == 0 && !before.stands_as(after) {
        return Some("an allowance of 0 changed something".to_string());
    }
    let expected = expected_stop(steps == allowance, tables, forwards);
    ([stop, number] != expected).then(|| format!("stop {stop}, {number}, where it is {expected:?}"))
}

fn is_call(row: Option<&[u64]>) -> bool {
    row.is_some_and(|row| row[0] == CALL)
}

/// The stop and its number where a run stands: "allowance, end, CALL, refusal".
fn expected_stop(used_up: bool, tables: &Tables, mut forwards: Side) -> [u64; 2] {
    match row(tables, forwards.position[0]) {
        _ if used_up => [0, 0],
        None => [1, 0],
        called if is_call(called) => [2, 0],
        Some(_) => [3, forwards.act(tables, &Action::Forward(Vec::new())).unwrap_or(0)],
    }
}
