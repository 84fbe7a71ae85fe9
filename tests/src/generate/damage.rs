//! Files for opening: each of the numbers 1 to 10 at several places, boundary
//! values on both sides, edits of single bytes, wrong lengths, noise.

use super::*;

/// A valid file of either kind.
pub fn valid(rng: &mut Rng) -> Draft {
    match rng.below(10) {
        0..=3 => {
            let shape = Shape::any(rng);
            plain(rng, &shape)
        }
        4..=6 => {
            let shape = declared_shape(rng);
            let bodies = rng.pick(&[1, 2, 3, 5, 31, 32]);
            accepted(rng, &shape, bodies)
        }
        7 => {
            let levels = rng.between(12, 16);
            deep(rng, levels)
        }
        8 => {
            let levels = rng.between(5, 8);
            deep_declared(rng, levels)
        }
        _ => at_limit(rng),
    }
}

/// Nested exactly `levels` deep in body 0 and in a pass.
pub fn deep_declared(rng: &mut Rng, levels: usize) -> Draft {
    let arrays = lengths(rng, 2, 4);
    let declarations = vec![declare(18, 0, 0), declare(16, 1, 1)];
    let steps = nest(rng, levels, 3, &mut |rng| allowed(rng, &arrays));
    let script = nest(rng, levels, 3, &mut |_| raw(8, 0, 0, 1, 0));
    declared_draft(&arrays, &script, &[Pass { declarations, steps }])
}

fn allowed(rng: &mut Rng, arrays: &[u16]) -> Raw {
    let (p, q) = cells(rng, arrays[0]);
    raw(rng.between(1, 2) as u8, 0, 0, p, q)
}

/// At one limit exactly.
fn at_limit(rng: &mut Rng) -> Draft {
    match rng.below(6) {
        0 => Draft::plain(&[4096], &[read(0, 0, 0, 4096), read(0, 0, 4095, 4096)]),
        1 => Draft::plain(&[128; 32], &[read(0, 31, 127, 128)]),
        2 => Draft::plain(&[1], &vec![read(0, 0, 0, 1); 1024]),
        3 => Draft::plain(&[1], &[Step::Branch(vec![read(0, 0, 0, 1); 500], vec![need(1, 0); 523])]),
        4 => {
            // 255 declarations in one pass, all but the first repeated.
            let pass = Pass { declarations: vec![declare(16, 0, 0); 255], steps: vec![] };
            declared_draft(&[1], &[call(1)], &[pass])
        }
        _ => {
            let passes = vec![Pass { declarations: vec![declare(17, 1, 0)], steps: vec![] }; 31];
            declared_draft(&[7], &[call(1), call(31)], &passes)
        }
    }
}

/// A file that has a breach of this number; an earlier one may stand before it.
pub fn breach(rng: &mut Rng, number: u16) -> Vec<u8> {
    let draft = match (number, rng.below(4)) {
        (10, 0) => deep(rng, 17),
        (10, 1) => deep_declared(rng, 9),
        _ => valid(rng),
    };
    let mut file = encode(&draft);
    harm(rng, number, &draft, &mut file);
    if !matches!(number, 1 | 3 | 7) {
        repair(&mut file);
    }
    file
}

/// Two breaches in one file: the first in the table's order is the answer.
pub fn two_breaches(rng: &mut Rng) -> Vec<u8> {
    let draft = valid(rng);
    let mut file = encode(&draft);
    let (one, two) = (rng.between(2, 10) as u16, rng.between(2, 10) as u16);
    for number in [one.max(two), one.min(two)] {
        if file.len() >= encode(&draft).len() {
            harm(rng, number, &draft, &mut file);
        }
    }
    if one != 7 && two != 7 {
        repair(&mut file);
    }
    file
}

/// Edits the file of a draft so that it breaks the rule of a number.
fn harm(rng: &mut Rng, number: u16, draft: &Draft, file: &mut Vec<u8>) {
    match number {
        1 => file.truncate(rng.below(4)),
        2 => harm_header(rng, draft, file),
        3 => file.truncate(rng.between(4, draft.record_at(0) - 1)),
        4 => harm_lengths(rng, draft, file),
        5 => harm_bodies(rng, draft, file),
        6 => harm_size(rng, draft, file),
        7 => harm_check(rng, draft, file),
        8 => harm_fields(rng, draft, file),
        9 => harm_kind(rng, draft, file),
        _ => harm_arms(rng, draft, file),
    }
}

fn put(file: &mut [u8], at: usize, number: usize) {
    file[at..at + 2].copy_from_slice(&(number as u16).to_le_bytes());
}

fn get(file: &[u8], at: usize) -> usize {
    file[at] as usize + 256 * file[at + 1] as usize
}

fn harm_header(rng: &mut Rng, draft: &Draft, file: &mut [u8]) {
    match rng.below(4) {
        0 => file[0] = rng.pick(&[0, 3, 4, 255, 3 - draft.kind]),
        1 => file[1] = rng.pick(&[0, 33, 34, 255]),
        2 => file[2] = rng.pick(&[0, 2, 32, 33, 255]),
        _ => file[3] = rng.between(1, 255) as u8,
    }
}

fn harm_lengths(rng: &mut Rng, draft: &Draft, file: &mut [u8]) {
    let array = rng.below(draft.arrays.len());
    let before: usize = (0..array).map(|a| draft.length(a)).sum();
    let after: usize = (array + 1..draft.arrays.len()).map(|a| draft.length(a)).sum();
    // Both sides of the bound, for the length and for the total here or later.
    let length = match rng.below(7) {
        0 => 0,
        1 => 4097,
        // Length 0 with the bit that marks scratch, and more than 4,096 with it.
        2 => rng.pick(&[32768, 36865, 61440, 65535]),
        3 => 4096 - before,
        4 => 4097 - before,
        5 => 4097usize.saturating_sub(before + after),
        _ => 4096usize.saturating_sub(before + after),
    };
    put(file, draft.array_at(array), length);
}

fn harm_bodies(rng: &mut Rng, draft: &Draft, file: &mut [u8]) {
    let body = rng.below(draft.bodies.len());
    let at = draft.body_at(body);
    let count = draft.bodies[body].records.len();
    let before: usize = draft.bodies[..body].iter().map(|b| b.records.len()).sum();
    let after = draft.records() - before - count;
    match rng.below(8) {
        0 => file[at + 3] = rng.between(1, 255) as u8,
        1 => file[at + 2] = (count + 1).min(255) as u8,
        2 => file[at + 2] = count.min(255) as u8,
        3 => file[draft.body_at(0) + 2] = 1,
        4 => put(file, at, 1025 - before),
        5 => put(file, at, 1024 - before),
        6 => put(file, at, 1025usize.saturating_sub(before + after)),
        _ => put(file, at, rng.pick(&[65535, 32768, 1025])),
    }
}

fn harm_size(rng: &mut Rng, draft: &Draft, file: &mut Vec<u8>) {
    let front = draft.record_at(0);
    match rng.below(6) {
        0 => {
            let end = rng.between(front, file.len() - 1);
            file.truncate(end);
        }
        1 => file.truncate(file.len() - 1),
        2 => file.truncate(file.len() - 2),
        3 => file.push(rng.below(256) as u8),
        4 => {
            let more = rng.between(1, 40);
            file.extend((0..more).map(|i| i as u8));
        }
        _ => {
            let at = draft.body_at(rng.below(draft.bodies.len()));
            let count = get(file, at);
            put(file, at, if rng.chance(50) { count + 1 } else { count.saturating_sub(1) });
        }
    }
}

fn harm_check(rng: &mut Rng, draft: &Draft, file: &mut [u8]) {
    let end = file.len();
    let which = end - rng.between(1, 2);
    match rng.below(5) {
        0 => file[which] = file[which].wrapping_add(rng.between(1, 255) as u8),
        // The same remainder written as 251 and more does not fit.
        1 => file[which] = file[which].checked_add(251).unwrap_or(251),
        2 => file.swap(end - 1, end - 2),
        // An edit by 251 is not seen, one by 250 is.
        3 if draft.records() > 0 => {
            let at = draft.record_at(rng.below(draft.records())) + rng.below(8);
            file[at] = file[at].wrapping_add(rng.pick(&[5, 6, 250, 251]));
        }
        _ => {
            let at = rng.below(end - 2);
            file[at] ^= 1 << rng.below(8);
        }
    }
}

/// A record of the draft: its offset and its kind.
fn some_record(rng: &mut Rng, draft: &Draft, file: &[u8]) -> Option<(usize, u8)> {
    if draft.records() == 0 {
        return None;
    }
    let at = draft.record_at(rng.below(draft.records()));
    Some((at, file[at]))
}

fn harm_fields(rng: &mut Rng, draft: &Draft, file: &mut [u8]) {
    let Some((at, kind)) = some_record(rng, draft, file) else { return };
    let arrays = draft.arrays.len();
    let array = file[at + 2] as usize;
    let length = if array < arrays { draft.length(array) } else { 1 };
    if rng.chance(15) {
        file[at + 3] = rng.between(1, 255) as u8;
        return;
    }
    match (kind, rng.below(4)) {
        (6..=8, 0) => file[at + 1] = rng.between(1, 2) as u8,
        (6..=8, 1) => file[at + 2] = 1,
        (7, _) => put(file, at + 6, rng.pick(&[1, 256, 65535])),
        (8, 2) => put(file, at + 6, rng.pick(&[1, 256, 65535])),
        (8, _) => {
            let bodies = draft.bodies.len();
            put(file, at + 4, rng.pick(&[0, 1, bodies - 1, bodies, 256 + 1, 65535]));
        }
        (6, _) => file[at + 3] = 1,
        (_, 0) => file[at + 1] = rng.pick(&[2, 3, 255]),
        (_, 1) => file[at + 2] = rng.pick(&[arrays - 1, arrays, arrays + 1, 255]) as u8,
        (1..=3, 2) => {
            let end = rng.pick(&[length, length + 1, length + 256, 65535]);
            put(file, at + 6, end);
        }
        (1..=3, _) => {
            let end = get(file, at + 6);
            put(file, at + 4, rng.pick(&[end.saturating_sub(1), end, end + 1, 65535]));
        }
        (_, 2) => put(file, at + 4, rng.pick(&[1, 256, 65535])),
        (_, _) => put(file, at + 6, rng.pick(&[1, 256, 65535])),
    }
}

fn harm_kind(rng: &mut Rng, draft: &Draft, file: &mut [u8]) {
    let Some((at, _)) = some_record(rng, draft, file) else { return };
    match rng.below(4) {
        // An unknown kind or a fixed loop, its fields as they come.
        0 => {
            file[at] = rng.pick(&[0, 9, 10, 15, 19, 20, 128, 255]);
            if rng.chance(50) {
                file[at + rng.between(1, 7)] = rng.below(256) as u8;
            }
        }
        // A known kind with good fields at a place that may not have it.
        1 => replace(file, at, raw(rng.between(16, 18) as u8, 1, 0, 0, 0)),
        2 => replace(file, at, raw(8, 0, 0, (draft.bodies.len() - 1) as u16, 0)),
        _ => replace(file, at, raw(rng.pick(&[1, 2, 3]), 0, 0, 0, 1)),
    }
    // One declaration more or less than there are: 9 at its edge.
    if draft.kind == 1 && rng.chance(30) {
        let body = rng.below(draft.bodies.len());
        let entry = draft.body_at(body) + 2;
        let declared = file[entry];
        let more = rng.chance(50);
        file[entry] = if more { declared.saturating_add(1) } else { declared.saturating_sub(1) };
    }
}

fn replace(file: &mut [u8], at: usize, record: Raw) {
    file[at..at + 8].copy_from_slice(&record);
}

fn harm_arms(rng: &mut Rng, draft: &Draft, file: &mut [u8]) {
    let nests: Vec<usize> = (0..draft.records())
        .map(|r| draft.record_at(r))
        .filter(|&at| file[at] == 6 || file[at] == 7)
        .collect();
    if nests.is_empty() || rng.chance(20) {
        // The last record becomes a branch or loop whose arm is not there.
        if draft.records() > 0 {
            let at = draft.record_at(draft.records() - 1);
            let record = if rng.chance(50) { raw(7, 0, 0, 1, 0) } else { raw(6, 0, 0, 0, 1) };
            replace(file, at, record);
        }
        return;
    }
    let at = rng.pick(&nests);
    let field = if file[at] == 6 && rng.chance(50) { at + 6 } else { at + 4 };
    let old = get(file, field);
    let new = rng.pick(&[old + 1, old + 2, old.saturating_sub(1), 65535, 1024, 0]);
    put(file, field, new);
    if file[at] == 6 && rng.chance(20) {
        // Both arms together pass 16 bits and come round to a small sum.
        put(file, at + 4, 65535);
        put(file, at + 6, rng.pick(&[1, 2, 65535]));
    }
}

/// One byte of a valid file changed.
pub fn one_byte(rng: &mut Rng, repaired: bool) -> Vec<u8> {
    let mut file = encode(&valid(rng));
    let at = if rng.chance(40) { rng.below(file.len().min(40)) } else { rng.below(file.len()) };
    file[at] = match rng.below(4) {
        0 => file[at].wrapping_add(1),
        1 => file[at].wrapping_sub(1),
        2 => file[at] ^ 1 << rng.below(8),
        _ => rng.below(256) as u8,
    };
    if repaired {
        repair(&mut file);
    }
    file
}

/// Bytes without a plan, now and then behind a good header.
pub fn noise(rng: &mut Rng) -> Vec<u8> {
    let length = if rng.chance(10) { rng.between(0, 10_000) } else { rng.between(0, 60) };
    let mut file: Vec<u8> = (0..length).map(|_| rng.draw() as u8).collect();
    if rng.chance(60) {
        let kind = rng.between(1, 2) as u8;
        let bodies = if kind == 2 { 1 } else { rng.between(1, 3) as u8 };
        for (byte, good) in file.iter_mut().zip([kind, rng.between(1, 3) as u8, bodies, 0]) {
            *byte = good;
        }
    }
    file
}

/// A file of the right size whose records are noise of known kinds: many
/// different answers among 8, 9 and 10.
pub fn noisy_records(rng: &mut Rng) -> Vec<u8> {
    let mut draft = valid(rng);
    let kinds: &[u8] = if draft.kind == 2 { &[1, 2, 3, 4, 5, 6, 7] } else { &[1, 2, 6, 7, 8, 16, 17, 18] };
    for record in draft.bodies.iter_mut().flat_map(|body| &mut body.records) {
        if rng.chance(20) {
            let kind = rng.pick(kinds);
            let small = |rng: &mut Rng| if rng.chance(60) { 0 } else { rng.between(1, 2) };
            let (side, array) = (small(rng) as u8, small(rng) as u8);
            *record = raw(kind, side, array, small(rng) as u16, small(rng) as u16);
        }
    }
    encode(&draft)
}

/// The largest files with large bytes in their last records: the weighted sum
/// passes 32 bits.
pub fn heavy(rng: &mut Rng) -> Vec<u8> {
    let mut draft = Draft::plain(&[4096], &vec![read(0, 0, 255, 511); 1024]);
    let from = rng.below(1024);
    for record in &mut draft.bodies[0].records[from..] {
        *record = std::array::from_fn(|_| rng.between(230, 255) as u8);
    }
    encode(&draft)
}

/// One of everything above.
pub fn any_file(rng: &mut Rng) -> Vec<u8> {
    match rng.below(100) {
        0..=24 => encode(&valid(rng)),
        25..=69 => {
            let number = rng.between(1, 10) as u16;
            breach(rng, number)
        }
        70..=74 => two_breaches(rng),
        75..=82 => one_byte(rng, true),
        83..=87 => one_byte(rng, false),
        88..=93 => noisy_records(rng),
        94 => heavy(rng),
        95 => {
            let fault = rng.pick(&FAULTS);
            encode(&faulty(rng, fault))
        }
        _ => noise(rng),
    }
}
