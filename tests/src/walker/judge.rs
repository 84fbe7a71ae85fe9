//! The judge: pass by pass, 12 to 14 by record, then 15.

use super::open::{open, refuse, Refusal};
use super::plan::*;
use super::verdict::{of_kind, Verdict};
use std::ops::Range;

pub fn judge(file: &[u8]) -> Verdict {
    match judged(file) {
        Err(refusal) => refusal.into(),
        Ok(_) => Verdict::Accepted,
    }
}

/// The opened plan where the judge accepts it.
pub fn judged(file: &[u8]) -> Result<Plan, Refusal> {
    let plan = open(file)?;
    of_kind(&plan, FileKind::Declared)?;
    passes(&plan)?;
    Ok(plan)
}

/// "Passes that nobody calls are judged too." Body 0 is no pass.
pub fn passes(plan: &Plan) -> Result<(), Refusal> {
    for body in &plan.bodies[1..] {
        declarations(plan, body)?;
        steps(plan, body)?;
        every_w_met(plan, body)?;
    }
    Ok(())
}

/// "In a pass each array is declared at most once."
fn declarations(plan: &Plan, body: &Body) -> Result<(), Refusal> {
    let mut declared = [false; MAX_ARRAYS];
    for r in body.first..body.steps().start {
        let array = plan.records[r].array;
        if declared[array] {
            return refuse(12, r);
        }
        declared[array] = true;
    }
    Ok(())
}

/// "A read needs R or RW of its array on its side, a write W or RW. Kinds 3, 4,
/// 5 are barred."
fn steps(plan: &Plan, body: &Body) -> Result<(), Refusal> {
    let mut declared = [None; MAX_ARRAYS];
    for x in &plan.records[body.first..body.steps().start] {
        declared[x.array] = Some((x.kind, x.side));
    }
    for r in body.steps() {
        let x = &plan.records[r];
        let named = |kind| declared[x.array] == Some((kind, x.side));
        match x.kind {
            READ if !(named(R) || named(RW)) => return refuse(13, r),
            WRITE if !(named(W) || named(RW)) => return refuse(13, r),
            COPY | NEED | MARK => return refuse(14, r),
            _ => {}
        }
    }
    Ok(())
}

/// "Where W is declared, every way through the pass, stops aside, writes every
/// cell of the array on that side."
fn every_w_met(plan: &Plan, body: &Body) -> Result<(), Refusal> {
    let declared = body.first..body.steps().start;
    if plan.records[declared.clone()].iter().all(|x| x.kind != W) {
        return Ok(());
    }
    let written = written_on_every_way(plan, body.steps());
    for r in declared {
        let x = &plan.records[r];
        if x.kind == W && !written[x.side].holds(plan.cells_of(x.array)) {
            return refuse(15, r);
        }
    }
    Ok(())
}

/// A set of cells, one bit each.
#[derive(Clone)]
struct Cells([u64; MAX_CELLS / 64]);

impl Cells {
    fn none() -> Cells {
        Cells([0; MAX_CELLS / 64])
    }

    /// The bits of a range that fall into one word.
    fn word(range: &Range<usize>, word: usize) -> u64 {
        let from = range.start.max(64 * word);
        let end = range.end.min(64 * word + 64);
        if from >= end {
            return 0;
        }
        (u64::MAX >> (64 - (end - from))) << (from - 64 * word)
    }

    fn words(range: &Range<usize>) -> Range<usize> {
        range.start / 64..range.end.div_ceil(64)
    }

    fn add(&mut self, range: Range<usize>) {
        for word in Cells::words(&range) {
            self.0[word] |= Cells::word(&range, word);
        }
    }

    fn add_covered(&mut self, cells: Covered) {
        if cells.step == 1 {
            return self.add(cells.range());
        }
        for cell in cells {
            self.0[cell / 64] |= 1 << (cell % 64);
        }
    }

    fn holds(&self, range: Range<usize>) -> bool {
        Cells::words(&range).all(|word| Cells::word(&range, word) & !self.0[word] == 0)
    }

    fn add_all(&mut self, other: &Cells) {
        for (word, other) in self.0.iter_mut().zip(other.0) {
            *word |= other;
        }
    }

    fn add_common(&mut self, one: &Cells, two: &Cells) {
        for ((word, one), two) in self.0.iter_mut().zip(one.0).zip(two.0) {
            *word |= one & two;
        }
    }
}

/// The cells written on each side whatever arms are taken and however often
/// loops turn: a loop may turn zero times, so what it writes does not count. "A
/// write inside [a fixed loop] meets a W like one outside."
fn written_on_every_way(plan: &Plan, part: Range<usize>) -> [Cells; 2] {
    let mut written = [Cells::none(), Cells::none()];
    let mut r = part.start;
    while r < part.end {
        let x = &plan.records[r];
        let (first, second) = plan.arms(r);
        r = second.end;
        match x.kind {
            WRITE => written[x.side].add_covered(plan.covered(x)),
            BRANCH if !first.is_empty() && !second.is_empty() => {
                let one = written_on_every_way(plan, first);
                let two = written_on_every_way(plan, second);
                for side in [HOST, CARD] {
                    written[side].add_common(&one[side], &two[side]);
                }
            }
            FIXED => {
                let turn = written_on_every_way(plan, first);
                for side in [HOST, CARD] {
                    written[side].add_all(&turn[side]);
                }
            }
            _ => {}
        }
    }
    written
}
