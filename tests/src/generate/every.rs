//! All plans of a few records, one by one.

use super::*;

/// All records of the kinds 1 to 5 over these arrays.
pub fn every_act(arrays: &[u16]) -> Vec<Raw> {
    let mut acts = Vec::new();
    for (array, &length) in arrays.iter().enumerate() {
        for side in 0..2 {
            for p in 0..length {
                for q in p + 1..=length {
                    acts.extend([1, 2, 3].map(|kind| raw(kind, side, array as u8, p, q)));
                }
            }
            acts.extend([4, 5].map(|kind| raw(kind, side, array as u8, 0, 0)));
        }
    }
    acts
}

/// All blocks of exactly `records` records over these acts.
pub fn every_block(acts: &[Raw], records: usize) -> Vec<Vec<Raw>> {
    every_block_fixed(acts, &[], records)
}

/// The same with fixed loops of these counts.
pub fn every_block_fixed(acts: &[Raw], counts: &[u16], records: usize) -> Vec<Vec<Raw>> {
    let mut blocks: Vec<Vec<Vec<Raw>>> = vec![vec![vec![]]];
    for size in 1..=records {
        let mut found = Vec::new();
        for act in acts {
            found.extend(blocks[size - 1].iter().map(|rest| join(&[&[*act], rest])));
        }
        for p in 0..size {
            for q in 0..size - p {
                let head = raw(6, 0, 0, p as u16, q as u16);
                for (first, second) in pairs(&blocks[p], &blocks[q]) {
                    let rests = &blocks[size - 1 - p - q];
                    found.extend(rests.iter().map(|rest| join(&[&[head], first, second, rest])));
                }
            }
            let fixed = counts.iter().map(|&turns| raw(9, 0, 0, p as u16, turns));
            for head in [raw(7, 0, 0, p as u16, 0)].into_iter().chain(fixed) {
                for (arm, rest) in pairs(&blocks[p], &blocks[size - 1 - p]) {
                    found.push(join(&[&[head], arm, rest]));
                }
            }
        }
        blocks.push(found);
    }
    blocks.swap_remove(records)
}

fn pairs<'a, T>(one: &'a [T], two: &'a [T]) -> impl Iterator<Item = (&'a T, &'a T)> {
    one.iter().flat_map(move |a| two.iter().map(move |b| (a, b)))
}

fn join(parts: &[&[Raw]]) -> Vec<Raw> {
    parts.concat()
}

/// All plain plans of at most `records` records over these arrays.
pub fn every_plan(arrays: &[u16], records: usize) -> Vec<Draft> {
    every_plan_fixed(arrays, &[], records)
}

/// The same with fixed loops of these counts.
pub fn every_plan_fixed(arrays: &[u16], counts: &[u16], records: usize) -> Vec<Draft> {
    let acts = every_act(arrays);
    let blocks = (0..=records).flat_map(|size| every_block_fixed(&acts, counts, size));
    let draft = |records| Draft {
        kind: 2,
        arrays: arrays.to_vec(),
        bodies: vec![DraftBody { declarations: 0, records }],
    };
    blocks.map(draft).collect()
}

/// All lists of choices of exactly `length`.
pub fn every_choices(length: usize) -> impl Iterator<Item = Vec<u8>> {
    (0..1usize << length).map(move |bits| (0..length).map(|i| (bits >> i & 1) as u8).collect())
}
