//! The library's judge and expander against the walker, and demand 3 on what
//! it writes.

use cuplihang_tests::archive::{self, Answer};
use cuplihang_tests::generate::*;
use cuplihang_tests::walker::demand::demand_3;
use cuplihang_tests::walker::near::{Expander, Judge};
use cuplihang_tests::walker::{self, Plan, Verdict};
use std::collections::BTreeMap;

type Counts = BTreeMap<u16, usize>;

/// What stands in an output before the expander gets it.
const PATTERN: u8 = 0xA5;

fn packed(verdict: Verdict, kind: u8) -> Answer {
    let (number, place, cell) = verdict.numbers();
    Answer { number, place: place as u16, cell: cell as u16, kind }
}

fn kind_of(file: &[u8]) -> u8 {
    walker::open(file).map_or(0, |plan| plan.kind.number())
}

pub fn match_judge(file: &[u8], counts: &mut Counts) {
    let expected = packed(walker::judge(file), kind_of(file));
    assert_eq!(archive::judge(file), expected, "{:02X?}", &file[..file.len().min(400)]);
    *counts.entry(expected.number).or_default() += 1;
}

/// The answer and every byte of an output of `room` bytes.
fn match_expand(file: &[u8], room: usize, counts: &mut Counts) -> Vec<u8> {
    let (mut ours, mut theirs) = (vec![PATTERN; room], vec![PATTERN; room]);
    let expected = packed(walker::expand(file, &mut theirs), kind_of(file));
    let answer = archive::expand(file, &mut ours);
    assert_eq!(answer, expected, "room {room}: {:02X?}", &file[..file.len().min(400)]);
    assert!(ours == theirs, "the outputs differ: {:02X?}", &file[..file.len().min(400)]);
    *counts.entry(expected.number).or_default() += 1;
    ours
}

/// The length of the expansion's file, or the answer of an output with room for
/// every expansion.
fn match_length(file: &[u8]) -> u16 {
    let mut scratch = vec![0; 9000];
    let verdict = walker::expand(file, &mut scratch);
    let expected = match verdict {
        Verdict::Accepted => Ok((file_length(&scratch), 1)),
        _ => Err(packed(verdict, kind_of(file))),
    };
    let answer = archive::expansion_length(file);
    assert_eq!(answer, expected, "{:02X?}", &file[..file.len().min(400)]);
    answer.map_or_else(|refusal| refusal.number, |_| 0)
}

/// Outputs far too short, one byte short, exact and longer.
pub fn match_rooms(file: &[u8], counts: &mut Counts) -> Option<Vec<u8>> {
    let mut scratch = vec![0; 9000];
    let exact = match walker::expand(file, &mut scratch) {
        Verdict::Accepted => file_length(&scratch),
        _ => 40,
    };
    match_length(file);
    for room in [0, 1, exact / 2, exact.saturating_sub(1), exact + 1, exact + 100] {
        match_expand(file, room, counts);
    }
    let written = match_expand(file, exact, counts);
    (written.first() == Some(&2)).then_some(written)
}

fn file_length(file: &[u8]) -> usize {
    let (arrays, bodies) = (file[1] as usize, file[2] as usize);
    assert_eq!(bodies, 1);
    let entry = 4 + 2 * arrays;
    let records = u16::from_le_bytes([file[entry], file[entry + 1]]) as usize;
    entry + 4 + 8 * records + 2
}

/// The plan of the file that the library writes of a plan, if it writes one.
pub fn written(file: &[u8]) -> Option<Plan> {
    let mut out = vec![PATTERN; 9000];
    let accepted = archive::expand(file, &mut out).number == 0;
    accepted.then(|| walker::open(&out[..file_length(&out)]).unwrap())
}

pub fn some_declared(rng: &mut Rng, round: usize) -> Draft {
    match round % 8 {
        0..=2 => accepted_small(rng),
        3 => {
            let shape = declared_shape(rng);
            let bodies = rng.between(1, 32);
            accepted(rng, &shape, bodies)
        }
        n => faulty(rng, FAULTS[n - 4]),
    }
}

#[test]
fn seeded_plans_judged() {
    let mut rng = Rng::new(70);
    let mut counts = Counts::new();
    let mut places: BTreeMap<u16, std::collections::BTreeSet<u16>> = BTreeMap::new();
    for round in 0..24_000 {
        let file = encode(&some_declared(&mut rng, round));
        match_judge(&file, &mut counts);
        let answer = archive::judge(&file);
        places.entry(answer.number).or_default().insert(answer.place);
    }
    println!("{counts:?}");
    for number in [0, 12, 13, 14, 15] {
        assert!(counts.get(&number).is_some_and(|&n| n > 500), "number {number} is too rare");
    }
    for number in [12, 13, 14, 15] {
        assert!(places[&number].len() > 20, "number {number} at few places");
    }
}

#[test]
fn seeded_plans_expanded() {
    let mut rng = Rng::new(71);
    let mut counts = Counts::new();
    let mut written = 0;
    for round in 0..20_000 {
        let file = encode(&some_declared(&mut rng, round));
        if let Some(expansion) = match_rooms(&file, &mut counts) {
            assert_eq!(archive::open(&expansion), Answer { number: 0, place: 0, cell: 0, kind: 2 });
            assert_eq!(walker::check(&expansion), Verdict::Accepted);
            assert_eq!(archive::check(&expansion).number, 0);
            written += 1;
        }
    }
    println!("{counts:?}, written {written}");
    for number in [0, 12, 13, 14, 15, 16, 17] {
        assert!(counts.get(&number).is_some_and(|&n| n > 500), "number {number} is too rare");
    }
}

/// Writes of every k-th cell meet a W together, exactly if none of them is missing.
#[test]
fn stepped_writes_meet_a_w_together() {
    for k in 1..=6u8 {
        for length in [1, 5, 6, 13] {
            for some in 0..1u32 << k {
                let these = (0..k).filter(|i| some >> i & 1 != 0 && u16::from(*i) < length);
                let steps = these.map(|i| every(k, write(1, 0, u16::from(i), length)));
                let pass = Pass { declarations: vec![declare(17, 1, 0)], steps: steps.collect() };
                let file = encode(&declared_draft(&[length], &[call(1)], &[pass]));
                match_judge(&file, &mut Counts::new());
                match_rooms(&file, &mut Counts::new());
                let all = (0..k).all(|i| some >> i & 1 != 0 || u16::from(i) >= length);
                assert_eq!(archive::judge(&file).number, if all { 0 } else { 15 });
            }
        }
    }
}

/// The expansion keeps the byte as it is, 0 and 1 apart.
#[test]
fn seeded_steps() {
    let mut rng = Rng::new(78);
    let (mut judged, mut expanded) = (Counts::new(), Counts::new());
    for round in 0..6000 {
        let mut draft = some_declared(&mut rng, round);
        give_steps(&mut rng, &mut draft, 40, &[0, 1, 1, 2, 3, 255]);
        let file = if rng.chance(10) { any_stepped_file(&mut rng) } else { encode(&draft) };
        match_judge(&file, &mut judged);
        match_rooms(&file, &mut expanded);
    }
    println!("{judged:?}\n{expanded:?}");
    for number in [0, 15] {
        assert!(judged.get(&number).is_some_and(|&n| n >= 200), "judge: number {number} is too rare");
        assert!(expanded.get(&number).is_some_and(|&n| n >= 200), "expand: number {number} is too rare");
    }
}

/// Fixed loops in body 0 and in passes: judged, expanded, and refused by 26 where
/// a call's product would pass 4,096.
#[test]
fn seeded_fixed_loops() {
    let mut rng = Rng::new(77);
    let (mut judged, mut expanded) = (Counts::new(), Counts::new());
    for round in 0..6000 {
        let mut draft = declared_fixed(&mut rng, round);
        if rng.chance(30) {
            draft = some_declared(&mut rng, round);
            fix_loops(&mut rng, &mut draft, 70, &[1, 2, 3, 64], 4096);
        }
        let file = if rng.chance(10) { any_fixed_file(&mut rng) } else { encode(&draft) };
        match_judge(&file, &mut judged);
        if let Some(expansion) = match_rooms(&file, &mut expanded) {
            assert_eq!(archive::open(&expansion).number, 0);
            assert_eq!(archive::check(&expansion).number, 0);
        }
    }
    println!("{judged:?}\n{expanded:?}");
    for number in [0, 12, 13, 14, 15, 26] {
        assert!(judged.get(&number).is_some_and(|&n| n >= 20), "judge: number {number} is too rare");
    }
    for number in [0, 12, 13, 14, 15, 16, 17, 26] {
        assert!(expanded.get(&number).is_some_and(|&n| n >= 100), "expand: number {number} is too rare");
    }
}

/// 1 to 10 as opening, 11 for a plain plan; nothing is written.
#[test]
fn refusals() {
    let mut rng = Rng::new(72);
    let (mut judged, mut expanded) = (Counts::new(), Counts::new());
    for _ in 0..10_000 {
        let file = any_file(&mut rng);
        match_judge(&file, &mut judged);
        match_expand(&file, 9000, &mut expanded);
    }
    println!("{judged:?}\n{expanded:?}");
    for number in 0..=11 {
        assert!(judged.get(&number).is_some_and(|&n| n >= 20), "judge: number {number} is too rare");
        assert!(expanded.get(&number).is_some_and(|&n| n >= 20), "expand: number {number} is too rare");
    }
}

/// Expansions of 1,023, 1,024 and 1,025 records, and far larger ones.
#[test]
fn sizes() {
    let mut rng = Rng::new(73);
    for (target, number) in [(1023, 0), (1024, 0), (1025, 16)] {
        for _ in 0..300 {
            let mut counts = Counts::new();
            match_rooms(&encode(&sized(&mut rng, target)), &mut counts);
            assert!(counts.contains_key(&number), "{target} records");
            assert_eq!(counts.contains_key(&17), number == 0);
        }
    }
    for calls in [2, 3, 64, 65, 127, 128, 129, 255, 256, 257, 510, 511, 512, 513, 1000] {
        let mut counts = Counts::new();
        match_rooms(&encode(&overflowing(&mut rng, calls)), &mut counts);
        assert_eq!(counts.keys().copied().collect::<Vec<_>>(), [16]);
    }
}

/// The largest accepted expansion of the deepest nesting: 8 levels in 8.
#[test]
fn deepest() {
    let mut rng = Rng::new(74);
    let mut written = 0;
    for _ in 0..500 {
        let file = encode(&deep_declared(&mut rng, 8));
        if let Some(expansion) = match_rooms(&file, &mut Counts::new()) {
            assert_eq!(archive::open(&expansion).number, 0);
            written += 1;
        }
    }
    assert!(written > 400);
}

/// Demand 3 clause by clause on the file that the library wrote.
#[test]
fn demand_3_on_what_is_written() {
    let mut rng = Rng::new(75);
    let (mut runs, mut finished, mut moves) = (0, 0, 0);
    for _ in 0..4000 {
        let file = encode(&accepted_small(&mut rng));
        let Some(expansion) = written(&file) else { continue };
        let declared = walker::open(&file).unwrap();
        for _ in 0..5 {
            let length = rng.between(0, 150);
            let more = rng.between(10, 60);
            let list = choices(&mut rng, length, more);
            let shown =
                demand_3(&declared, &expansion, &list).unwrap_or_else(|b| panic!("{b:?} {declared:?}"));
            runs += 1;
            finished += usize::from(shown.finished);
            moves += shown.moves;
        }
    }
    println!("runs {runs}, finished {finished}, moves {moves}");
    assert!(runs > 10_000 && finished > 5000 && moves > 5000);
}

/// Each wrong judge and expander differs from the library on some plan.
#[test]
fn near_judges_and_expanders_differ() {
    let mut rng = Rng::new(76);
    let judges = [
        Judge::WriteInOneArmMeetsW,
        Judge::WriteInLoopMeetsW,
        Judge::ReadUnderWIsDeclared,
        Judge::SideNotCompared,
        Judge::UnmetLast,
    ];
    let expanders = [
        Expander::InsertsNothing,
        Expander::MarkBeforeNeed,
        Expander::NeedOfRwMissing,
        Expander::ArmsNotGrown,
    ];
    let mut differs: BTreeMap<String, usize> = BTreeMap::new();
    for round in 0..8000 {
        let file = encode(&some_declared(&mut rng, round));
        let plan = walker::open(&file).unwrap();
        let ours = archive::judge(&file);
        for judge in judges {
            let other = judge.passes(&plan).map_or_else(Verdict::from, |()| Verdict::Accepted);
            *differs.entry(format!("{judge:?}")).or_default() += usize::from(packed(other, 1) != ours);
        }
        let mut out = vec![0; 9000];
        if archive::expand(&file, &mut out).number == 0 {
            let written = &out[..file_length(&out)];
            for expander in expanders {
                let wrong: Plan = expander.expansion(&plan);
                *differs.entry(format!("{expander:?}")).or_default() +=
                    usize::from(wrong.to_bytes() != written);
            }
        }
    }
    println!("{differs:?}");
    assert_eq!(differs.len(), judges.len() + expanders.len());
    assert!(differs.values().all(|&count| count > 0));
}

#[test]
fn lengths_of_expansions() {
    let mut rng = Rng::new(79);
    let mut counts = Counts::new();
    for round in 0..6_000 {
        let file = match round % 4 {
            0 => encode(&sized(&mut rng, 1022 + round % 5)),
            1 => encode(&some_declared(&mut rng, round)),
            _ => any_file(&mut rng),
        };
        *counts.entry(match_length(&file)).or_default() += 1;
    }
    println!("{counts:?}");
    for number in 0..=16 {
        assert!(counts.get(&number).is_some_and(|&n| n >= 5), "number {number} is too rare");
    }
}
