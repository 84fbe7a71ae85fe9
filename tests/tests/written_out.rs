//! Plans with something of them written out.

use cuplihang_tests::walker::plan::{Body, Record, BRANCH, COPY, FIXED, READ, WRITE};
use cuplihang_tests::walker::Plan;
use std::ops::Range;

/// What is written out.
#[derive(Clone, Copy, PartialEq, Eq)]
enum What {
    Turns,
    Cells,
    Layers,
}

/// The plan, and with each of its records the number that it had.
pub struct WrittenOut {
    pub plan: Plan,
    pub was: Vec<usize>,
}

impl WrittenOut {
    /// Without fixed loops: the arm of each stands there as often as it turns.
    pub fn turns(plan: &Plan) -> WrittenOut {
        WrittenOut::of(plan, What::Turns)
    }

    /// Without steps: a record with one is a record for each of its cells.
    pub fn cells(plan: &Plan) -> WrittenOut {
        WrittenOut::of(plan, What::Cells)
    }

    /// With steps: a record of several cells without one is two records or more of
    /// every second cell or more, which cover the same cells together.
    pub fn layers(plan: &Plan) -> WrittenOut {
        WrittenOut::of(plan, What::Layers)
    }

    fn of(plan: &Plan, what: What) -> WrittenOut {
        let (mut records, mut was, mut bodies) = (vec![], vec![], vec![]);
        for body in &plan.bodies {
            let first = records.len();
            for r in body.first..body.steps().start {
                records.push(plan.records[r]);
                was.push(r);
            }
            write_out(plan, what, body.steps(), &mut records, &mut was);
            bodies.push(Body { first, count: records.len() - first, declarations: body.declarations });
        }
        WrittenOut { plan: plan.like(plan.kind, bodies, records), was }
    }
}

fn write_out(plan: &Plan, what: What, part: Range<usize>, records: &mut Vec<Record>, was: &mut Vec<usize>) {
    let mut r = part.start;
    while r < part.end {
        let x = plan.records[r];
        let (first, second) = plan.arms(r);
        if what == What::Turns && x.kind == FIXED {
            for _ in 0..x.q {
                write_out(plan, what, first.clone(), records, was);
            }
        } else if what == What::Cells && x.step > 1 {
            for p in (x.p..x.q).step_by(x.step) {
                records.push(Record { step: 0, p, q: p + 1, ..x });
                was.push(r);
            }
        } else if what == What::Layers
            && matches!(x.kind, READ | WRITE | COPY)
            && x.step <= 1
            && x.q - x.p > 1
        {
            let step = (2 + r % 3).min(x.q - x.p);
            for p in x.p..x.p + step {
                records.push(Record { step, p, ..x });
                was.push(r);
            }
        } else {
            let head = records.len();
            records.push(x);
            was.push(r);
            if !first.is_empty() || !second.is_empty() {
                write_out(plan, what, first, records, was);
                let middle = records.len();
                write_out(plan, what, second.clone(), records, was);
                records[head].p = middle - head - 1;
                if x.kind == BRANCH {
                    records[head].q = records.len() - middle;
                }
            }
        }
        r = second.end;
    }
}
