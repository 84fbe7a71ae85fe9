//! Plans with scratch: arrays whose length has its highest bit set.

use super::*;

pub const SCRATCH: u16 = 0x8000;

/// So many in a hundred of the arrays become scratch.
pub fn give_scratch(rng: &mut Rng, draft: &mut Draft, percent: usize) {
    for entry in &mut draft.arrays {
        if rng.chance(percent) {
            *entry |= SCRATCH;
        }
    }
}

/// A small plan with scratch: brute force decides it.
pub fn small_scratch(rng: &mut Rng) -> Draft {
    let shape = Shape::small(rng);
    let mut draft = plain(rng, &shape);
    give_scratch(rng, &mut draft, 60);
    draft
}

/// The same with near steps and fixed loops of few turns.
pub fn small_mixed(rng: &mut Rng) -> Draft {
    let mut draft = small_fixed(rng);
    give_steps(rng, &mut draft, 50, &[0, 1, 2, 2, 3]);
    give_scratch(rng, &mut draft, 60);
    draft
}

/// A declared plan that the judge accepts, with scratch, now and then with fixed loops.
pub fn accepted_scratch(rng: &mut Rng, percent: usize) -> Draft {
    let mut draft = if rng.chance(30) { accepted_fixed(rng) } else { accepted_small(rng) };
    give_scratch(rng, &mut draft, percent);
    draft
}

/// A file with scratch: valid ones, damaged ones, lengths on both sides of the
/// bounds with the bit and without it.
pub fn any_scratch_file(rng: &mut Rng) -> Vec<u8> {
    let mut draft = valid(rng);
    give_scratch(rng, &mut draft, 50);
    if rng.chance(40) {
        let array = rng.below(draft.arrays.len());
        let all: usize = (0..draft.arrays.len()).map(|a| draft.length(a)).sum();
        let room = 4096 + draft.length(array) - all;
        let length = rng.pick(&[0, 1, room, room + 1, 4096, 4097, 0x4000, 0x7FFF]);
        draft.arrays[array] = length as u16 | rng.pick(&[0, SCRATCH]);
    }
    let mut file = encode(&draft);
    if rng.chance(20) {
        let at = rng.below(file.len());
        file[at] ^= 1 << rng.below(8);
        repair(&mut file);
    }
    file
}

/// All plain plans of exactly `records` records over these arrays, of which those
/// with the bit are scratch.
pub fn every_scratch_plan(entries: &[u16], records: usize) -> Vec<Draft> {
    let lengths: Vec<u16> = entries.iter().map(|entry| entry & !SCRATCH).collect();
    let mut plans = every_plan(&lengths, records);
    for plan in &mut plans {
        plan.arrays = entries.to_vec();
    }
    plans
}
