//! Plain plans, and the shapes that both kinds are made of.

use super::*;

/// How large a plan is and how it nests. `levels` counts the branches and
/// loops that stand inside one another, the innermost included: 16 is the most
/// in a plain plan, 8 in a body of a declared one.
#[derive(Clone, Debug)]
pub struct Shape {
    pub arrays: usize,
    pub cells: usize,
    pub records: usize,
    pub levels: usize,
    /// In a hundred records, how many are branches or loops.
    pub nesting: usize,
}

impl Shape {
    pub fn new(arrays: usize, cells: usize, records: usize, levels: usize, nesting: usize) -> Shape {
        Shape { arrays, cells, records, levels, nesting }
    }

    /// One or two arrays of one or two cells: brute force decides these.
    pub fn small(rng: &mut Rng) -> Shape {
        let arrays = rng.between(1, 2);
        let cells = rng.between(arrays, 2 * arrays);
        Shape::new(arrays, cells, rng.between(0, 9), rng.between(0, 4), rng.between(0, 60))
    }

    pub fn medium(rng: &mut Rng) -> Shape {
        let arrays = rng.between(1, 6);
        let cells = rng.between(arrays, 60);
        Shape::new(arrays, cells, rng.between(0, 60), rng.between(0, 16), rng.between(0, 50))
    }

    /// At one or several limits.
    pub fn large(rng: &mut Rng) -> Shape {
        let arrays = rng.pick(&[1, 2, 31, 32]);
        let cells = rng.pick(&[arrays, 64, 4095, 4096]).max(arrays);
        let records = rng.pick(&[300, 1023, 1024]);
        Shape::new(arrays, cells, records, rng.pick(&[1, 15, 16]), rng.between(0, 50))
    }

    pub fn any(rng: &mut Rng) -> Shape {
        match rng.below(100) {
            0..=59 => Shape::small(rng),
            60..=94 => Shape::medium(rng),
            _ => Shape::large(rng),
        }
    }
}

/// Lengths of the arrays: each at least 1, together `cells`.
pub fn lengths(rng: &mut Rng, arrays: usize, cells: usize) -> Vec<u16> {
    let mut lengths = vec![1u16; arrays];
    let mut left = cells - arrays;
    for length in &mut lengths[1..] {
        let part = if rng.chance(50) { left / arrays } else { rng.between(0, left) };
        *length += part as u16;
        left -= part;
    }
    lengths[0] += left as u16;
    let other = rng.below(arrays);
    lengths.swap(0, other);
    lengths
}

/// A range of cells P to Q − 1: often the whole array, often one cell.
pub fn cells(rng: &mut Rng, length: u16) -> (u16, u16) {
    let n = length as usize;
    let (p, q) = match rng.below(10) {
        0..=4 => (0, n),
        5..=6 => {
            let p = rng.below(n);
            (p, p + 1)
        }
        _ => {
            let p = rng.below(n);
            (p, rng.between(p + 1, n))
        }
    };
    (p as u16, q as u16)
}

/// Any of the kinds 1 to 5, all fields good.
pub fn any_act(rng: &mut Rng, arrays: &[u16]) -> Raw {
    let array = rng.below(arrays.len());
    let side = rng.below(2) as u8;
    let (p, q) = cells(rng, arrays[array]);
    match rng.below(10) {
        0..=2 => raw(1, side, array as u8, p, q),
        3..=4 => raw(2, side, array as u8, p, q),
        5..=6 => raw(3, side, array as u8, p, q),
        7..=8 => raw(4, side, array as u8, 0, 0),
        _ => raw(5, side, array as u8, 0, 0),
    }
}

/// Exactly `budget` records, nested at most `levels` deep, with `act` for the
/// records that are neither branch nor loop.
pub fn block(
    rng: &mut Rng,
    budget: usize,
    levels: usize,
    nesting: usize,
    act: &mut dyn FnMut(&mut Rng) -> Raw,
) -> Vec<Step> {
    let mut steps = Vec::new();
    let mut left = budget;
    while left > 0 {
        left -= 1;
        if levels == 0 || !rng.chance(nesting) {
            steps.push(Step::Act(act(rng)));
            continue;
        }
        // Mostly short arms, now and then all that is left.
        let most = if rng.chance(30) { left } else { left.min(8) };
        let inside = rng.between(0, most);
        left -= inside;
        if rng.chance(50) {
            steps.push(Step::Loop(block(rng, inside, levels - 1, nesting, act)));
        } else {
            let first = rng.between(0, inside);
            let one = block(rng, first, levels - 1, nesting, act);
            let two = block(rng, inside - first, levels - 1, nesting, act);
            steps.push(Step::Branch(one, two));
        }
    }
    steps
}

/// A nest of exactly `levels` branches and loops, a few records in each.
pub fn nest(rng: &mut Rng, levels: usize, each: usize, act: &mut dyn FnMut(&mut Rng) -> Raw) -> Vec<Step> {
    let mut steps: Vec<Step> = Vec::new();
    for _ in 0..levels {
        for _ in 0..rng.between(0, each) {
            let at = rng.between(0, steps.len());
            steps.insert(at, Step::Act(act(rng)));
        }
        let other = if rng.chance(50) { vec![Step::Act(act(rng))] } else { vec![] };
        steps = vec![match rng.below(3) {
            0 => Step::Loop(steps),
            1 => Step::Branch(steps, other),
            _ => Step::Branch(other, steps),
        }];
    }
    steps
}

pub fn plain(rng: &mut Rng, shape: &Shape) -> Draft {
    let arrays = lengths(rng, shape.arrays, shape.cells);
    let mut act = |rng: &mut Rng| any_act(rng, &arrays);
    let steps = block(rng, shape.records, shape.levels, shape.nesting, &mut act);
    Draft::plain(&arrays, &steps)
}

/// A plain plan nested exactly `levels` deep.
pub fn deep(rng: &mut Rng, levels: usize) -> Draft {
    let arrays = lengths(rng, 2, 4);
    let mut act = |rng: &mut Rng| any_act(rng, &arrays);
    let mut steps = nest(rng, levels, 3, &mut act);
    steps.push(Step::Act(act(rng)));
    Draft::plain(&arrays, &steps)
}

/// One loop over one cell whose arm mixes all kinds: now and then its answer
/// needs three turns and more, most often where each turn takes one of several
/// short arms.
pub fn turning(rng: &mut Rng) -> Draft {
    let arrays = [1];
    let mut act = |rng: &mut Rng| any_act(rng, &arrays);
    let before = rng.below(2);
    let mut steps = block(rng, before, 0, 0, &mut act);
    let arm = if rng.chance(60) {
        one_of_several(rng, &mut act)
    } else {
        let inside = rng.between(3, 12);
        block(rng, inside, 3, 35, &mut act)
    };
    steps.push(Step::Loop(arm));
    let after = rng.below(3);
    steps.extend(block(rng, after, 1, 30, &mut act));
    Draft::plain(&arrays, &steps)
}

/// One loop over a few cells whose records cover some of them each: cells enter
/// it in the same status and leave it in different ones.
pub fn many_classes(rng: &mut Rng) -> Draft {
    let arrays = [rng.between(2, 6) as u16];
    let mut act = |rng: &mut Rng| any_act(rng, &arrays);
    let (inside, after) = (rng.between(2, 8), rng.between(1, 4));
    let mut steps = vec![Step::Loop(block(rng, inside, 3, 35, &mut act))];
    steps.extend(block(rng, after, 1, 30, &mut act));
    Draft::plain(&arrays, &steps)
}

fn one_of_several(rng: &mut Rng, act: &mut dyn FnMut(&mut Rng) -> Raw) -> Vec<Step> {
    let mut others = vec![];
    for _ in 0..rng.between(2, 5) {
        let records = rng.between(1, 3);
        others = vec![Step::Branch(block(rng, records, 0, 0, act), others)];
    }
    others
}

/// Replaces the record that `stops` names by another, at most `times` times:
/// what is left is accepted or stops at a place that is not plain to see.
pub fn mend(rng: &mut Rng, draft: &mut Draft, times: usize, stops: &dyn Fn(&[u8]) -> Option<usize>) {
    for _ in 0..times {
        let Some(record) = stops(&encode(draft)) else { return };
        let act = any_act(rng, &draft.lengths());
        draft.bodies[0].records[record] = act;
    }
}
