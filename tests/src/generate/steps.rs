//! Plans whose reads, writes and copies have steps.

use super::*;

/// Steps that matter: each cell, near ones, and up to the largest byte.
pub const STEPS: [u8; 10] = [0, 1, 2, 2, 3, 4, 7, 16, 100, 255];

/// A read, write or copy of every `step`-th of its cells.
pub fn every(step: u8, act: Step) -> Step {
    let Step::Act(mut record) = act else { panic!("no step here") };
    record[3] = step;
    Step::Act(record)
}

/// 1,024 records over 4,096 cells that tell all of them apart, each of every
/// `step`-th cell.
pub fn stepped_apart(step: u8) -> Draft {
    let acts = (0..1024u16).map(|r| {
        let (p, q) = (r, 4096 - r);
        every(
            step,
            match r % 4 {
                0 => read(0, 0, p, q),
                1 => copy(1, 0, p, q),
                2 => read(1, 0, p, q),
                _ => write(0, 0, p, q),
            },
        )
    });
    Draft::plain(&[4096], &acts.collect::<Vec<_>>())
}

/// So many in a hundred of the records of kinds 1 to 3 get one of these steps.
pub fn give_steps(rng: &mut Rng, draft: &mut Draft, percent: usize, steps: &[u8]) {
    for body in &mut draft.bodies {
        for record in &mut body.records {
            if matches!(record[0], 1..=3) && rng.chance(percent) {
                record[3] = rng.pick(steps);
            }
        }
    }
}

/// A small plan with near steps: brute force decides it.
pub fn small_stepped(rng: &mut Rng) -> Draft {
    let shape = Shape::small(rng);
    let mut draft = plain(rng, &shape);
    give_steps(rng, &mut draft, 70, &[0, 1, 2, 2, 3, 5]);
    draft
}

/// A file with steps: valid ones, and damaged.
pub fn any_stepped_file(rng: &mut Rng) -> Vec<u8> {
    let mut draft = valid(rng);
    give_steps(rng, &mut draft, 60, &STEPS);
    if rng.chance(30) {
        // A step where no kind has one is number 8.
        let body = rng.below(draft.bodies.len());
        let records = &mut draft.bodies[body].records;
        if !records.is_empty() {
            let at = rng.below(records.len());
            records[at][3] = rng.pick(&STEPS);
        }
    }
    encode(&draft)
}

/// All records of the kinds 1 to 3 over these arrays with these steps, and needs
/// and marks.
pub fn every_stepped_act(arrays: &[u16], steps: &[u8]) -> Vec<Raw> {
    let with = |act: Raw| {
        let steps = if act[0] <= 3 { steps } else { &[0] };
        steps.iter().map(move |&step| {
            let mut act = act;
            act[3] = step;
            act
        })
    };
    every_act(arrays).into_iter().flat_map(with).collect()
}

/// All plain plans of exactly `records` such records over these arrays.
pub fn every_stepped_plan(arrays: &[u16], steps: &[u8], records: usize) -> Vec<Draft> {
    let blocks = every_block(&every_stepped_act(arrays, steps), records);
    let draft = |records| Draft {
        kind: 2,
        arrays: arrays.to_vec(),
        bodies: vec![DraftBody { declarations: 0, records }],
    };
    blocks.into_iter().map(draft).collect()
}
