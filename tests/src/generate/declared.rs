//! Declared plans: accepted ones, one for each of 12 to 16, and expansions of
//! a given size.

use super::*;

#[derive(Clone, Debug, Default)]
pub struct Pass {
    pub declarations: Vec<Raw>,
    pub steps: Vec<Step>,
}

impl Pass {
    pub fn records(&self) -> usize {
        self.declarations.len() + flatten(&self.steps).len()
    }

    /// Its records in the expansion: RW gives two.
    pub fn expanded(&self) -> usize {
        self.records() + self.declarations.iter().filter(|d| d[0] == 18).count()
    }
}

/// R, W or RW (16, 17, 18) of an array on a side.
pub fn declare(kind: u8, side: u8, array: u8) -> Raw {
    raw(kind, side, array, 0, 0)
}

pub fn declared_draft(arrays: &[u16], script: &[Step], passes: &[Pass]) -> Draft {
    let mut bodies = vec![DraftBody { declarations: 0, records: flatten(script) }];
    for pass in passes {
        let mut records = pass.declarations.clone();
        records.extend(flatten(&pass.steps));
        bodies.push(DraftBody { declarations: pass.declarations.len() as u8, records });
    }
    Draft { kind: 1, arrays: arrays.to_vec(), bodies }
}

/// Steps that write every cell of the array on every way, in some manner.
fn meeting(rng: &mut Rng, side: u8, array: u8, length: u16, levels: usize) -> Vec<Step> {
    let whole = write(side, array, 0, length);
    match rng.below(5) {
        0 if length > 1 => {
            let cut = rng.between(1, length as usize - 1) as u16;
            let from = rng.between(0, cut as usize) as u16;
            let mut parts = vec![write(side, array, 0, cut), write(side, array, from, length)];
            if rng.chance(50) {
                parts.reverse();
            }
            parts
        }
        1 if levels > 0 => {
            let one = meeting(rng, side, array, length, levels - 1);
            let two = meeting(rng, side, array, length, levels - 1);
            vec![Step::Branch(one, two)]
        }
        2 if levels > 0 && length > 1 => {
            // The arms write different cells; one more write covers the rest.
            let cut = rng.between(1, length as usize - 1) as u16;
            let one = vec![write(side, array, 0, cut)];
            let two = vec![write(side, array, 0, length)];
            vec![Step::Branch(one, two), write(side, array, cut, length)]
        }
        _ => vec![whole],
    }
}

/// An act that the declarations allow; without one, an empty loop.
fn allowed_act(rng: &mut Rng, arrays: &[u16], declarations: &[Raw]) -> Raw {
    if declarations.is_empty() {
        return raw(7, 0, 0, 0, 0);
    }
    let [kind, side, array, ..] = rng.pick(declarations);
    let (p, q) = cells(rng, arrays[array as usize]);
    let writes = kind == 17 || (kind == 18 && rng.chance(50));
    raw(if writes { 2 } else { 1 }, side, array, p, q)
}

fn distinct_arrays(rng: &mut Rng, arrays: usize, wanted: usize) -> Vec<u8> {
    let mut all: Vec<u8> = (0..arrays as u8).collect();
    for i in 0..wanted {
        let j = rng.between(i, arrays - 1);
        all.swap(i, j);
    }
    all.truncate(wanted);
    all
}

/// A pass that the judge accepts, of at most `budget` records.
pub fn pass(rng: &mut Rng, arrays: &[u16], budget: usize, levels: usize, nesting: usize) -> Pass {
    let most = arrays.len().min(budget / 2);
    let wanted = if rng.chance(30) { most } else { rng.between(0, most.min(4)) };
    let mut left = budget - wanted;
    let mut declarations = Vec::new();
    let mut duties = Vec::new();
    for array in distinct_arrays(rng, arrays.len(), wanted) {
        let side = rng.below(2) as u8;
        let kind = rng.pick(&[16, 16, 17, 18]);
        declarations.push(declare(kind, side, array));
        if kind == 17 {
            let mut duty = meeting(rng, side, array, arrays[array as usize], levels.min(2));
            // One record is always left for each declaration.
            if flatten(&duty).len() > left / wanted {
                duty = vec![write(side, array, 0, arrays[array as usize])];
            }
            left -= flatten(&duty).len();
            duties.push(duty);
        }
    }
    let free = rng.between(0, left);
    // An empty loop in place of an act takes a level of its own.
    let levels = if declarations.is_empty() { levels.saturating_sub(1) } else { levels };
    let mut act = |rng: &mut Rng| allowed_act(rng, arrays, &declarations);
    let mut steps = block(rng, free, levels, nesting, &mut act);
    for duty in duties {
        let at = rng.between(0, steps.len());
        steps.splice(at..at, duty);
    }
    Pass { declarations, steps }
}

/// A declared plan that the judge accepts, of exactly `shape.records` records
/// (body 0 takes what the passes leave).
pub fn accepted(rng: &mut Rng, shape: &Shape, bodies: usize) -> Draft {
    let (arrays, passes) = accepted_passes(rng, shape, bodies);
    let used: usize = passes.iter().map(Pass::records).sum();
    let script = script(rng, shape.records - used, shape.levels, shape.nesting, passes.len());
    declared_draft(&arrays, &script, &passes)
}

fn accepted_passes(rng: &mut Rng, shape: &Shape, bodies: usize) -> (Vec<u16>, Vec<Pass>) {
    let arrays = lengths(rng, shape.arrays, shape.cells);
    let share = shape.records / bodies;
    let mut pass = |_| {
        let budget = rng.between(0, share);
        pass(rng, &arrays, budget, shape.levels, shape.nesting)
    };
    let passes = (1..bodies).map(&mut pass).collect();
    (arrays, passes)
}

/// Body 0: calls of any pass; where there is none, empty loops.
pub fn script(rng: &mut Rng, records: usize, levels: usize, nesting: usize, passes: usize) -> Vec<Step> {
    let mut act = |rng: &mut Rng| match passes {
        0 => raw(7, 0, 0, 0, 0),
        _ => raw(8, 0, 0, rng.between(1, passes) as u16, 0),
    };
    let levels = if passes == 0 { levels.saturating_sub(1) } else { levels };
    block(rng, records, levels, nesting, &mut act)
}

/// A shape for declared plans: 8 levels at most.
pub fn declared_shape(rng: &mut Rng) -> Shape {
    let mut shape = Shape::any(rng);
    shape.levels = shape.levels.min(8);
    shape
}

/// Few calls of small passes: the expansion mostly fits into a file.
pub fn accepted_small(rng: &mut Rng) -> Draft {
    let count = rng.between(1, 4);
    let cells = rng.between(count, 8);
    let shape = Shape::new(count, cells, rng.between(0, 60), rng.between(0, 5), rng.between(0, 40));
    let bodies = rng.between(2, 5) - usize::from(rng.chance(2));
    let (arrays, passes) = accepted_passes(rng, &shape, bodies);
    let calls = rng.between(0, 30);
    let script = script(rng, calls, shape.levels, shape.nesting, passes.len());
    declared_draft(&arrays, &script, &passes)
}

/// Where a declared plan goes wrong for the judge.
#[derive(Clone, Copy, Debug, PartialEq, Eq)]
pub enum Fault {
    Twice,
    Undeclared,
    Barred,
    Unmet,
}

pub const FAULTS: [Fault; 4] = [Fault::Twice, Fault::Undeclared, Fault::Barred, Fault::Unmet];

/// A declared plan with a fault in one pass, now and then in several.
pub fn faulty(rng: &mut Rng, fault: Fault) -> Draft {
    let shape = {
        let mut shape = declared_shape(rng);
        shape.records = shape.records.clamp(8, 900);
        shape
    };
    let bodies = rng.between(2, 6);
    let (arrays, mut passes) = accepted_passes(rng, &shape, bodies);
    let mut faults = vec![fault];
    while rng.chance(25) {
        faults.push(rng.pick(&FAULTS));
    }
    for fault in faults {
        let at = rng.below(passes.len());
        spoil(rng, &arrays, &mut passes[at], fault);
    }
    let calls = rng.between(0, 20);
    let script = script(rng, calls, shape.levels, shape.nesting, passes.len());
    declared_draft(&arrays, &script, &passes)
}

pub fn spoil(rng: &mut Rng, arrays: &[u16], pass: &mut Pass, fault: Fault) {
    let side = rng.below(2) as u8;
    match fault {
        Fault::Twice => {
            if pass.declarations.is_empty() {
                pass.declarations.push(declare(16, side, 0));
            }
            let array = rng.pick(&pass.declarations)[2];
            let at = rng.between(0, pass.declarations.len());
            let kind = rng.between(16, 18) as u8;
            pass.declarations.insert(at, declare(kind, side, array));
        }
        Fault::Undeclared => {
            let array = rng.below(arrays.len());
            let (p, q) = cells(rng, arrays[array]);
            let step = Step::Act(raw(rng.between(1, 2) as u8, side, array as u8, p, q));
            insert(rng, &mut pass.steps, step);
        }
        Fault::Barred => {
            let array = rng.below(arrays.len());
            let step = match rng.below(3) {
                0 => {
                    let (p, q) = cells(rng, arrays[array]);
                    copy(side, array as u8, p, q)
                }
                1 => need(side, array as u8),
                _ => mark(side, array as u8),
            };
            insert(rng, &mut pass.steps, step);
        }
        Fault::Unmet => unmet(rng, arrays, pass),
    }
}

/// Puts a step at any place of a tree.
fn insert(rng: &mut Rng, steps: &mut Vec<Step>, step: Step) {
    let at = rng.between(0, steps.len());
    match steps.get_mut(at) {
        Some(Step::Loop(arm) | Step::Fixed(_, arm)) if rng.chance(70) => insert(rng, arm, step),
        Some(Step::Branch(first, second)) if rng.chance(70) => {
            let arm = if rng.chance(50) { first } else { second };
            insert(rng, arm, step);
        }
        _ => steps.insert(at, step),
    }
}

fn without_writes(steps: &[Step], array: u8) -> Vec<Step> {
    let kept = steps.iter().filter(|step| !matches!(step, Step::Act([2, _, a, ..]) if *a == array));
    kept.map(|step| match step {
        Step::Act(record) => Step::Act(*record),
        Step::Branch(first, second) => {
            Step::Branch(without_writes(first, array), without_writes(second, array))
        }
        Step::Loop(arm) => Step::Loop(without_writes(arm, array)),
        Step::Fixed(turns, arm) => Step::Fixed(*turns, without_writes(arm, array)),
    })
    .collect()
}

/// A W whose array is nearly written: in one arm, in a loop, all but one cell.
fn unmet(rng: &mut Rng, arrays: &[u16], pass: &mut Pass) {
    let declared = pass.declarations.iter().copied().find(|d| d[0] == 17);
    let free = (0..arrays.len() as u8).find(|a| pass.declarations.iter().all(|d| d[2] != *a));
    let w = match (declared, free) {
        (Some(w), _) => w,
        (None, Some(array)) => {
            let w = declare(17, rng.below(2) as u8, array);
            let at = rng.between(0, pass.declarations.len());
            pass.declarations.insert(at, w);
            w
        }
        (None, None) => return,
    };
    let [_, side, array, ..] = w;
    let length = arrays[array as usize];
    pass.steps = without_writes(&pass.steps, array);
    let whole = write(side, array, 0, length);
    let steps = match rng.below(5) {
        0 => vec![],
        1 => vec![Step::Branch(vec![whole], vec![])],
        2 => vec![Step::Branch(vec![], vec![whole])],
        3 => vec![Step::Loop(vec![whole])],
        _ => {
            let hole = rng.below(length as usize) as u16;
            let mut parts = Vec::new();
            if hole > 0 {
                parts.push(write(side, array, 0, hole));
            }
            if hole + 1 < length {
                parts.push(write(side, array, hole + 1, length));
            }
            parts
        }
    };
    for step in steps {
        let at = rng.between(0, pass.steps.len());
        pass.steps.insert(at, step);
    }
}

/// An accepted plan whose expansion has exactly `target` records.
pub fn sized(rng: &mut Rng, target: usize) -> Draft {
    let arrays = lengths(rng, 3, 9);
    let budget = rng.between(8, 60);
    let large = loop {
        let large = pass(rng, &arrays, budget, 7, 30);
        if large.expanded() > 0 {
            break large;
        }
    };
    // A pass of one record fills up, a pass of none shrinks its arms.
    let one = Pass { declarations: vec![declare(16, 0, 0)], steps: vec![] };
    let passes = [large, one, Pass::default()];
    let wraps = rng.between(0, 8);
    let most = ((target - wraps) / passes[0].expanded()).min(600);
    let calls = if rng.chance(80) { most } else { rng.between(most / 2, most) };
    let rest = target - wraps - calls * passes[0].expanded();
    if calls + rest + wraps + passes[0].records() + 4 > 1024 {
        return sized(rng, target);
    }
    let mut script: Vec<Step> = Vec::new();
    for (body, times) in [(1, calls), (2, rest), (3, rng.between(0, 3))] {
        for _ in 0..times {
            let at = rng.between(0, script.len());
            script.insert(at, call(body));
        }
    }
    for _ in 0..wraps {
        wrap(rng, &mut script);
    }
    declared_draft(&arrays, &script, &passes)
}

/// Takes a part of the steps into a branch or a loop: one record more.
fn wrap(rng: &mut Rng, steps: &mut Vec<Step>) {
    let from = rng.between(0, steps.len());
    let end = rng.between(from, steps.len());
    let inside: Vec<Step> = steps.drain(from..end).collect();
    let step = match rng.below(3) {
        0 => Step::Loop(inside),
        1 => Step::Branch(inside, vec![]),
        _ => {
            let mut first = inside;
            let second = first.split_off(first.len() / 2);
            Step::Branch(first, second)
        }
    };
    steps.insert(from, step);
}

/// Accepted, and far too large: `calls` calls of a pass that fills the file.
/// The arm of the loop has more records than 16 bits can count.
pub fn overflowing(rng: &mut Rng, calls: usize) -> Draft {
    let arrays = lengths(rng, 2, 4);
    let kind = rng.pick(&[16, 18]);
    let declarations = vec![declare(kind, 0, 0)];
    let size = 1024 - 1 - calls - declarations.len();
    let steps = vec![read(0, 0, 0, arrays[0]); size];
    let script = vec![Step::Loop(vec![call(1); calls])];
    declared_draft(&arrays, &script, &[Pass { declarations, steps }])
}
