//! Plans with fixed loops: loops of other drafts made fixed, nests whose counts
//! have a given product, and files for opening.

use super::*;

/// Some of the loops of a draft that has no fixed one become fixed: `percent` in a hundred, with one of
/// these counts, or with 1 where the product along the nesting would pass `most`.
pub fn fix_loops(rng: &mut Rng, draft: &mut Draft, percent: usize, counts: &[u16], most: usize) {
    for body in &mut draft.bodies {
        fix_part(rng, &mut body.records, percent, counts, most);
    }
}

fn fix_part(rng: &mut Rng, records: &mut [Raw], percent: usize, counts: &[u16], most: usize) {
    let mut at = 0;
    while at < records.len() {
        let [kind, _, _, _, p0, p1, q0, q1] = records[at];
        let (p, q) = (u16::from_le_bytes([p0, p1]), u16::from_le_bytes([q0, q1]));
        let inside = match kind {
            6 => p as usize + q as usize,
            7 => p as usize,
            _ => 0,
        };
        let mut turns = 1;
        if kind == 7 && rng.chance(percent) {
            turns = rng.pick(counts);
            if turns as usize > most {
                turns = 1;
            }
            records[at] = raw(9, 0, 0, p, turns);
        }
        let end = at + 1 + inside;
        fix_part(rng, &mut records[at + 1..end], percent, counts, most / turns as usize);
        at = end;
    }
}

/// Counts of 1 to 3 in a small plan: brute force decides it.
pub fn small_fixed(rng: &mut Rng) -> Draft {
    let shape = Shape::small(rng);
    let mut draft = plain(rng, &Shape { nesting: shape.nesting.max(30), ..shape });
    fix_loops(rng, &mut draft, 80, &[1, 2, 2, 3], 27);
    draft
}

/// One loop over one cell whose arm mixes all kinds, fixed most often.
pub fn turning_fixed(rng: &mut Rng) -> Draft {
    let mut draft = turning(rng);
    fix_loops(rng, &mut draft, 80, &[1, 2, 3, 4, 5, 7], 60);
    draft
}

/// A fixed loop over one cell whose sets of statuses repeat every second turn, and
/// a few records behind it.
pub fn period_two_fixed(rng: &mut Rng) -> Draft {
    let [mut one, mut two] = [vec![need(0, 0), mark(1, 0)], vec![need(1, 0), mark(0, 0)]];
    for arm in [&mut one, &mut two] {
        if rng.chance(50) {
            let at = rng.between(0, 2);
            arm.insert(at, read(rng.below(2) as u8, 0, 0, 1));
        }
    }
    let mut steps = vec![Step::Fixed(rng.between(1, 12) as u16, vec![Step::Branch(one, two)])];
    for _ in 0..rng.between(1, 3) {
        steps.push(Step::Act(any_act(rng, &[1])));
    }
    Draft::plain(&[1], &steps)
}

/// A free loop in a fixed one over one cell of which the card's flag is set and the
/// card's copy is stale: now and then the last turn alone makes that one current.
pub fn late_fixed(rng: &mut Rng) -> Draft {
    let mut act = |rng: &mut Rng| any_act(rng, &[1]);
    let mut steps = vec![need(1, 0), write(0, 0, 0, 1)];
    let (free, inside) = (rng.below(2), rng.between(1, 3));
    let mut arm = block(rng, inside, 1, 20, &mut act);
    let at = rng.between(0, arm.len());
    arm.insert(at, Step::Loop(block(rng, free, 0, 0, &mut act)));
    steps.push(Step::Fixed(rng.between(1, 4) as u16, arm));
    steps.push(read(rng.below(2) as u8, 0, 0, 1));
    Draft::plain(&[1], &steps)
}

/// An accepted small plan with fixed loops of few turns in body 0 and in passes.
pub fn accepted_fixed(rng: &mut Rng) -> Draft {
    let mut draft = accepted_small(rng);
    fix_loops(rng, &mut draft, 70, &[1, 2, 2, 3], 6);
    draft
}

/// So many counts with this product, in any order; each is at most 4,096.
pub fn factors(rng: &mut Rng, product: usize, parts: usize) -> Vec<u16> {
    loop {
        let mut counts = vec![1; parts];
        let (mut left, mut prime) = (product, 2);
        while left > 1 {
            if left % prime == 0 {
                counts[rng.below(parts)] *= prime;
                left /= prime;
            } else {
                prime += 1;
            }
        }
        if counts.iter().all(|&count| count <= 4096) {
            return counts.into_iter().map(|count| count as u16).collect();
        }
    }
}

/// Fixed loops of these counts, one in another, outermost first, branches and free
/// loops between them up to `levels` in all, a few records and fixed loops beside.
pub fn fixed_nest(
    rng: &mut Rng,
    counts: &[u16],
    levels: usize,
    act: &mut dyn FnMut(&mut Rng) -> Raw,
) -> Vec<Step> {
    let mut steps = vec![Step::Act(act(rng))];
    let mut more = levels - counts.len();
    for &turns in counts.iter().rev() {
        steps = vec![Step::Fixed(turns, steps)];
        while more > 0 && rng.chance(30) {
            more -= 1;
            let other = if rng.chance(50) { vec![Step::Act(act(rng))] } else { vec![] };
            steps = vec![match rng.below(3) {
                0 => Step::Loop(steps),
                1 => Step::Branch(steps, other),
                _ => Step::Branch(other, steps),
            }];
        }
        if rng.chance(50) {
            let at = rng.below(2);
            steps.insert(at, Step::Act(act(rng)));
        }
    }
    if rng.chance(50) {
        // A neighbour: it holds none of the others, so its count multiplies none.
        let at = rng.between(0, steps.len());
        steps.insert(at, Step::Fixed(rng.pick(counts), vec![Step::Act(act(rng))]));
    }
    steps
}

/// A plain plan with this product of counts along a nesting of `parts` fixed loops.
pub fn product_plain(rng: &mut Rng, product: usize, parts: usize) -> Draft {
    let arrays = lengths(rng, 2, 4);
    let counts = factors(rng, product, parts);
    let steps = fixed_nest(rng, &counts, 16, &mut |rng| any_act(rng, &arrays));
    Draft::plain(&arrays, &steps)
}

/// A declared plan with such products in body 0, around its call of pass 1, and in
/// that pass. Pass 2 has none, and nobody calls pass 3, which has 4,096.
pub fn product_declared(rng: &mut Rng, around: (usize, usize), inside: (usize, usize)) -> Draft {
    let counts = factors(rng, around.0, around.1);
    let mut called = false;
    let mut calls = |_: &mut Rng| {
        // The innermost record comes first.
        let body = if called { 2 } else { 1 };
        called = true;
        raw(8, 0, 0, body, 0)
    };
    let script = fixed_nest(rng, &counts, 8, &mut calls);
    let counts = factors(rng, inside.0, inside.1);
    let steps = fixed_nest(rng, &counts, 8, &mut |_| raw(1, 0, 0, 0, 1));
    let passes = [
        Pass { declarations: vec![declare(16, 0, 0)], steps },
        Pass { declarations: vec![declare(18, 1, 0)], steps: vec![write(1, 0, 0, 1)] },
        Pass { declarations: vec![], steps: vec![Step::Fixed(4096, vec![])] },
    ];
    declared_draft(&[1], &script, &passes)
}

/// A declared plan with fixed loops: small ones that the judge accepts, expansions
/// around 1,024 records, and products up to 4,096 on either side of a call.
pub fn declared_fixed(rng: &mut Rng, round: usize) -> Draft {
    let fixed = |rng: &mut Rng, mut draft: Draft, counts: &[u16]| {
        fix_loops(rng, &mut draft, 80, counts, 4096);
        draft
    };
    match round % 10 {
        0 | 5 => accepted_fixed(rng),
        1 => {
            let target = rng.between(1000, 1050);
            let draft = sized(rng, target);
            fixed(rng, draft, &[1, 2, 64])
        }
        2 | 6 | 7 => {
            let product = |rng: &mut Rng| (rng.pick(&[1, 16, 64, 4096]), rng.between(1, 6));
            let (around, inside) = (product(rng), product(rng));
            product_declared(rng, around, inside)
        }
        _ => {
            let draft = accepted_small(rng);
            fixed(rng, draft, &[1, 2, 64, 65])
        }
    }
}

/// Whether one of these records is a fixed loop.
pub fn has_fixed(records: &[Raw]) -> bool {
    records.iter().any(|record| record[0] == 9)
}

/// A file with fixed loops: good ones of every kind, products around 4,096, and
/// damage of the fields, the place, the arms and the counts.
pub fn any_fixed_file(rng: &mut Rng) -> Vec<u8> {
    let draft = match rng.below(6) {
        0 => {
            let (product, parts) = (rng.pick(&[4095, 4096, 4097, 4098, 8192]), rng.between(3, 12));
            product_plain(rng, product, parts)
        }
        1 => {
            let product = |rng: &mut Rng| (rng.pick(&[1, 64, 4096, 4097]), rng.between(2, 7));
            let (around, inside) = (product(rng), product(rng));
            product_declared(rng, around, inside)
        }
        _ => {
            let mut draft = valid(rng);
            fix_loops(rng, &mut draft, 60, &[1, 2, 3, 16, 64, 4096], 4096);
            draft
        }
    };
    let mut file = encode(&draft);
    if rng.chance(60) {
        harm_fixed(rng, &draft, &mut file);
        repair(&mut file);
    }
    file
}

/// Edits a record that is a fixed loop, or makes one of another record.
fn harm_fixed(rng: &mut Rng, draft: &Draft, file: &mut [u8]) {
    let records: Vec<usize> = (0..draft.records()).map(|r| draft.record_at(r)).collect();
    let fixed: Vec<usize> = records.iter().copied().filter(|&at| file[at] == 9).collect();
    if records.is_empty() {
        return;
    }
    if fixed.is_empty() || rng.chance(20) {
        // In place of any record, a declaration too: P as it was or 0.
        let at = rng.pick(&records);
        let p = if rng.chance(50) { 0 } else { u16::from_le_bytes([file[at + 4], file[at + 5]]) };
        file[at..at + 8].copy_from_slice(&raw(9, 0, 0, p, rng.pick(&[1, 2, 4096])));
        return;
    }
    let at = rng.pick(&fixed);
    let mut put = |field: usize, number: u16| {
        file[at + field..at + field + 2].copy_from_slice(&number.to_le_bytes());
    };
    match rng.below(6) {
        0 => put(6, rng.pick(&[0, 4097, 8192, 65535])),
        1 => put(6, rng.pick(&[1, 2, 3, 4095, 4096])),
        2 => put(4, rng.pick(&[0, 1, 2, 1024, 65535])),
        3 => file[at + 1] = rng.pick(&[1, 2, 255]),
        4 => file[at + 2] = rng.pick(&[1, 32]),
        _ => file[at + 3] = rng.between(1, 255) as u8,
    }
}
