//! The expander: "body 0 with each call replaced by the pass's declarations in
//! order (R gives need; W gives mark; RW gives need, mark) and then its other
//! records, and with the arm counts grown to fit."

use super::judge::judged;
use super::open::{refuse, turns_of, Refusal};
use super::plan::*;
use super::verdict::Verdict;
use std::ops::Range;

pub fn expand(file: &[u8], out: &mut [u8]) -> Verdict {
    match expanded(file, out.len()) {
        Err(refusal) => refusal.into(),
        Ok(bytes) => {
            out[..bytes.len()].copy_from_slice(&bytes);
            Verdict::Accepted
        }
    }
}

/// The expansion's file, if an output of `room` bytes holds it.
fn expanded(file: &[u8], room: usize) -> Result<Vec<u8>, Refusal> {
    let plan = judged(file)?;
    // Counted before anything is built: it can have far more records than fit.
    let records = size(&plan, 0..plan.bodies[0].count);
    if records > MAX_RECORDS {
        return refuse(16, 0);
    }
    // "the expander tests the expansion too, after 16, place the call"
    if let Some(call) = call_past_turns(&plan, 0..plan.bodies[0].count, 1) {
        return refuse(26, call);
    }
    if room < HEADER + ARRAY_ENTRY * plan.arrays() + BODY_ENTRY + RECORD * records + TAIL {
        return refuse(17, 0);
    }
    Ok(expansion(&plan).to_bytes())
}

/// What a declaration gives.
pub fn given(declaration: &Record) -> Vec<Record> {
    let need = Record { kind: NEED, ..*declaration };
    let mark = Record { kind: MARK, ..*declaration };
    match declaration.kind {
        R => vec![need],
        W => vec![mark],
        _ => vec![need, mark],
    }
}

/// The records that a part of body 0 expands to.
pub fn size(plan: &Plan, part: Range<usize>) -> usize {
    plan.records[part].iter().map(|x| if x.kind == CALL { pass_size(plan, x.p) } else { 1 }).sum()
}

fn pass_size(plan: &Plan, body: usize) -> usize {
    let body = &plan.bodies[body];
    let twice = plan.records[body.first..body.steps().start].iter().filter(|x| x.kind == RW);
    body.count + twice.count()
}

/// The lowest call in a part of body 0 that `around` turns hold at which the product
/// of the counts passes 4,096 in the expansion.
fn call_past_turns(plan: &Plan, part: Range<usize>, around: usize) -> Option<usize> {
    let mut r = part.start;
    while r < part.end {
        let x = &plan.records[r];
        if x.kind == CALL && around * most_turns(plan, plan.bodies[x.p].steps()) > MAX_TURNS {
            return Some(r);
        }
        let (first, second) = plan.arms(r);
        let around = around * turns_of(x);
        r = second.end;
        let inside = call_past_turns(plan, first, around).or_else(|| call_past_turns(plan, second, around));
        if inside.is_some() {
            return inside;
        }
    }
    None
}

/// The largest product of the counts along a nesting.
fn most_turns(plan: &Plan, part: Range<usize>) -> usize {
    let mut most = 1;
    let mut r = part.start;
    while r < part.end {
        let (first, second) = plan.arms(r);
        let inside = most_turns(plan, first).max(most_turns(plan, second.clone()));
        most = most.max(turns_of(&plan.records[r]) * inside);
        r = second.end;
    }
    most
}

/// The expansion held as records, also where it is too large for a file.
pub fn expansion(plan: &Plan) -> Plan {
    expansion_by(plan, &given)
}

/// The expansion with other records for a declaration.
pub fn expansion_by(plan: &Plan, given: &dyn Fn(&Record) -> Vec<Record>) -> Plan {
    let mut records = Vec::new();
    script(plan, 0..plan.bodies[0].count, given, &mut records);
    let body = Body { first: 0, count: records.len(), declarations: 0 };
    plan.like(FileKind::Plain, vec![body], records)
}

fn script(plan: &Plan, part: Range<usize>, given: &dyn Fn(&Record) -> Vec<Record>, out: &mut Vec<Record>) {
    let mut r = part.start;
    while r < part.end {
        let x = plan.records[r];
        let (first, second) = plan.arms(r);
        r = second.end;
        if x.kind == CALL {
            pass(plan, &plan.bodies[x.p], given, out);
            continue;
        }
        let head = out.len();
        out.push(x);
        script(plan, first, given, out);
        let middle = out.len();
        script(plan, second, given, out);
        // Q is the count of a branch's second arm alone: a loop keeps its own.
        out[head].p = middle - head - 1;
        if x.kind == BRANCH {
            out[head].q = out.len() - middle;
        }
    }
}

fn pass(plan: &Plan, body: &Body, given: &dyn Fn(&Record) -> Vec<Record>, out: &mut Vec<Record>) {
    for declaration in &plan.records[body.first..body.steps().start] {
        out.extend(given(declaration));
    }
    out.extend(&plan.records[body.steps()]);
}
