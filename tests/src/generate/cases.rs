//! The examples of document 01, and plans at the limits for tests and
//! benchmarks.

use super::*;

/// "Case 3 is, in hexadecimal, 02 01 01 00 …"
pub const CASE_3: [u8; 20] = [
    0x02, 0x01, 0x01, 0x00, 0x01, 0x00, 0x01, 0x00, 0x00, 0x00, 0x01, 0x01, 0x00, 0x00, 0x00, 0x00, 0x01,
    0x00, 0x09, 0x3B,
];

/// The twelve cases, "one array of one cell unless said", each with the record
/// and the cell at which it may stop.
pub fn twelve_cases() -> Vec<(Draft, Option<(usize, usize)>)> {
    let (to_host, to_card) = (copy(0, 0, 0, 1), copy(1, 0, 0, 1));
    let (read_host, read_card) = (read(0, 0, 0, 1), read(1, 0, 0, 1));
    let (write_host, write_card) = (write(0, 0, 0, 1), write(1, 0, 0, 1));
    let steps = |all: &[&Step]| all.iter().map(|&step| step.clone()).collect::<Vec<Step>>();
    let plan = |all: &[&Step]| Draft::plain(&[1], &steps(all));
    let turning = |arm: &[&Step]| Step::Loop(steps(arm));
    vec![
        (plan(&[]), None),
        (plan(&[&read_host]), None),
        (plan(&[&read_card]), Some((0, 0))),
        (plan(&[&to_card, &read_card]), None),
        (plan(&[&write_card, &read_host]), Some((1, 0))),
        (plan(&[&to_host]), Some((0, 0))),
        (plan(&[&Step::Branch(vec![to_card.clone()], vec![]), &read_card]), Some((2, 0))),
        (plan(&[&turning(&[&read_host, &write_card])]), Some((1, 0))),
        (Draft::plain(&[2], &[write(1, 0, 0, 1), read(0, 0, 0, 2)]), Some((1, 0))),
        (plan(&[&turning(&[&read_host, &read_card, &write_card])]), Some((1, 0))),
        (plan(&[&need(1, 0), &write_host, &need(1, 0), &read_card]), Some((3, 0))),
        (plan(&[&mark(1, 0), &need(0, 0)]), Some((1, 0))),
    ]
}

/// 1,024 records that tell 2,047 cells apart.
pub fn all_told_apart() -> Draft {
    let acts = (0..1024u16).map(|r| {
        let (p, q) = (r, 2047 - r);
        let q = if p < q { q } else { p + 1 };
        match r % 4 {
            0 => read(0, 0, p, q),
            1 => copy(1, 0, p, q),
            2 => read(1, 0, p, q),
            _ => write(0, 0, p, q),
        }
    });
    Draft::plain(&[2047], &acts.collect::<Vec<_>>())
}

/// 1,024 records over whole arrays, 32 arrays of `length` cells.
pub fn whole_arrays(length: u16) -> Draft {
    let acts = (0..1024u16).map(|r| {
        let array = (r / 4 % 32) as u8;
        match r % 4 {
            0 => write(0, array, 0, length),
            1 => mark(0, array),
            2 => need(1, array),
            _ => read(1, array, 0, length),
        }
    });
    Draft::plain(&[length; 32], &acts.collect::<Vec<_>>())
}

/// `levels` loops, one in another, and `records` records in all.
pub fn deep_loops(levels: usize, records: usize) -> Draft {
    loops_in_loops(&vec![Step::Loop; levels], records)
}

/// Fixed loops of these counts, one in another, innermost first, and `records`
/// records in all.
pub fn deep_fixed(counts: &[u16], records: usize) -> Draft {
    let fixed = |&turns: &u16| move |arm| Step::Fixed(turns, arm);
    loops_in_loops(&counts.iter().map(fixed).collect::<Vec<_>>(), records)
}

fn loops_in_loops(loops: &[impl Fn(Vec<Step>) -> Step], records: usize) -> Draft {
    let acts = |count: usize| {
        let act = |i: usize| match i % 4 {
            0 => write(0, 0, 0, 1),
            1 => copy(1, 0, 0, 1),
            2 => read(1, 0, 0, 1),
            _ => need(0, 0),
        };
        (0..count).map(act).collect::<Vec<_>>()
    };
    let levels = loops.len();
    let each = (records - levels) / (levels + 1);
    let mut steps = acts(records - levels - each * levels);
    for turning in loops {
        steps = vec![turning(steps)];
        steps.extend(acts(each));
    }
    Draft::plain(&[1], &steps)
}

/// A loop around copies of a whole array to and fro: long runs.
pub fn copying(copies: usize, length: u16) -> Draft {
    let arm = (0..copies).map(|i| copy(1 - (i % 2) as u8, 0, 0, length));
    Draft::plain(&[length], &[Step::Loop(arm.collect())])
}
