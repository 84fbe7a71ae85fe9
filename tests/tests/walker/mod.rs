//! The walker against document 01's own examples, and against itself. Fixed loops
//! are in a file of their own.

pub mod check;
mod demand;
mod expand;
mod judge;
mod near;
mod open;
mod run;

use cuplihang_tests::generate::*;
use cuplihang_tests::walker::plan::MAX_CHOICES;
use cuplihang_tests::walker::run::run_plan;
use cuplihang_tests::walker::{self, Memories, Plan, RunEnd, Tally, Verdict};
use std::collections::BTreeMap;

const HOST: u8 = 0;
const CARD: u8 = 1;

fn plan_of(draft: &Draft) -> Plan {
    walker::open(&encode(draft)).expect("a valid draft")
}

fn one_cell(steps: &[Step]) -> Draft {
    Draft::plain(&[1], steps)
}

/// Memories with a pattern in them, also behind the plan's cells.
#[derive(Clone, Debug, PartialEq, Eq)]
struct Lent {
    host: Vec<u64>,
    card: Vec<u64>,
    latest: Vec<u64>,
    tally: Tally,
}

impl Lent {
    fn new(length: usize) -> Lent {
        let pattern = |seed: u64| (0..length as u64).map(|i| 0xABCD_0000 + seed + i).collect();
        let tally = Tally { reads: 9, writes: 9, moved: 9 };
        Lent { host: pattern(0), card: pattern(1 << 20), latest: pattern(2 << 20), tally }
    }

    fn run(mut self, plan: &Plan, choices: &[u8]) -> (RunEnd, Lent) {
        let sides = [&mut self.host[..], &mut self.card[..]];
        let mut memories = Memories { sides, latest: &mut self.latest };
        let end = run_plan(plan, &mut memories, choices, &mut self.tally);
        (end, self)
    }

    fn run_file(mut self, file: &[u8], choices: &[u8]) -> (RunEnd, Lent) {
        let sides = [&mut self.host[..], &mut self.card[..]];
        let mut memories = Memories { sides, latest: &mut self.latest };
        let end = walker::run(file, &mut memories, choices, &mut self.tally);
        (end, self)
    }
}
