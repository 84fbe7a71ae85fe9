//! The library's check against the walker.

use cuplihang_tests::archive::{self, Answer};
use cuplihang_tests::generate::*;
use cuplihang_tests::walker::check::{self, Stop};
use cuplihang_tests::walker::near::{self, Checker};
use cuplihang_tests::walker::{self, Plan, Verdict};
use std::collections::BTreeMap;

/// How often each number occurred, 0 for accepted.
type Counts = BTreeMap<u16, usize>;

fn packed(verdict: Verdict, kind: u8) -> Answer {
    let (number, place, cell) = verdict.numbers();
    Answer { number, place: place as u16, cell: cell as u16, kind }
}

fn kind_of(file: &[u8]) -> u8 {
    walker::open(file).map_or(0, |plan| plan.kind.number())
}

pub fn match_check(file: &[u8], counts: &mut Counts) {
    let expected = packed(walker::check(file), kind_of(file));
    assert_eq!(archive::check(file), expected, "{:02X?}", &file[..file.len().min(400)]);
    *counts.entry(expected.number).or_default() += 1;
}

/// Against brute force over the whole state: for small plans.
pub fn match_brute(draft: &Draft, counts: &mut Counts) {
    let file = encode(draft);
    let plan = walker::open(&file).unwrap();
    let expected = packed(check::verdict(check::brute(&plan)), 2);
    assert_eq!(archive::check(&file), expected, "{plan:?}");
    *counts.entry(expected.number).or_default() += 1;
}

fn stops(file: &[u8]) -> Option<usize> {
    check::summary(&walker::open(file).unwrap()).map(|stop| stop.record)
}

/// A draft in which some of the records that stop are others.
pub fn mended(rng: &mut Rng, mut draft: Draft, most: usize) -> Draft {
    let times = if rng.chance(60) { rng.between(0, 2) } else { rng.between(0, most) };
    mend(rng, &mut draft, times, &stops);
    draft
}

#[test]
fn the_twelve_cases() {
    for (number, (draft, answer)) in (1..).zip(twelve_cases()) {
        let expected = answer.map_or(Verdict::Accepted, |(record, cell)| Verdict::Stopped { record, cell });
        assert_eq!(archive::check(&encode(&draft)), packed(expected, 2), "case {number}");
    }
    assert_eq!(archive::check(&CASE_3), Answer { number: 18, place: 0, cell: 0, kind: 2 });
    let copied = [copy(1, 0, 0, 1), write(0, 0, 0, 1), need(1, 0), read(1, 0, 0, 1)];
    assert_eq!(archive::check(&encode(&Draft::plain(&[1], &copied))).number, 0);
}

/// All plans of up to four records over one cell, up to three over two cells,
/// in one array and in two.
#[test]
fn every_small_plan() {
    let mut counts = Counts::new();
    for (arrays, records) in [(&[1][..], 4), (&[2][..], 3), (&[1, 1][..], 3)] {
        for draft in every_plan(arrays, records) {
            match_brute(&draft, &mut counts);
        }
    }
    println!("{counts:?}");
    assert!(counts[&0] > 10_000 && counts[&18] > 10_000);
}

/// The same with fixed loops of one to three turns, up to three records over two
/// cells in one array.
#[test]
fn every_small_plan_with_fixed_loops() {
    let mut counts = Counts::new();
    for (arrays, records) in [(&[1][..], 4), (&[2][..], 3)] {
        for draft in every_plan_fixed(arrays, &[1, 2, 3], records) {
            if has_fixed(&draft.bodies[0].records) {
                match_brute(&draft, &mut counts);
            }
        }
    }
    println!("{counts:?}");
    assert!(counts[&0] > 10_000 && counts[&18] > 10_000);
}

/// Fixed loops of any count, alone and in one another, and files that say 26.
#[test]
fn seeded_fixed_loops() {
    let mut rng = Rng::new(66);
    let mut counts = Counts::new();
    for round in 0..12_000 {
        let draft = match round % 6 {
            0 => turning_fixed(&mut rng),
            1 => late_fixed(&mut rng),
            2 => period_two_fixed(&mut rng),
            3 => small_fixed(&mut rng),
            4 => {
                let (product, parts) = (rng.pick(&[24, 4095, 4096]), rng.between(2, 12));
                product_plain(&mut rng, product, parts)
            }
            _ => {
                let shape = Shape::medium(&mut rng);
                let mut draft = plain(&mut rng, &shape);
                fix_loops(&mut rng, &mut draft, 70, &[1, 2, 3, 100, 4096], 4096);
                draft
            }
        };
        match_check(&encode(&mended(&mut rng, draft, 40)), &mut counts);
        match_check(&any_fixed_file(&mut rng), &mut counts);
    }
    println!("{counts:?}");
    for number in [0, 8, 9, 10, 11, 18, 26] {
        assert!(counts.get(&number).is_some_and(|&n| n >= 100), "number {number} is too rare");
    }
}

/// All plans of up to two records over four cells, with steps up to four.
#[test]
fn every_small_plan_with_steps() {
    let mut counts = Counts::new();
    for records in 0..=2 {
        for draft in every_stepped_plan(&[4], &[0, 2, 3, 4], records) {
            match_brute(&draft, &mut counts);
        }
    }
    println!("{counts:?}");
    assert!(counts[&0] > 10_000 && counts[&18] > 10_000);
}

/// Steps in plans of every size, and where no kind has one.
#[test]
fn seeded_steps() {
    let mut rng = Rng::new(67);
    let mut counts = Counts::new();
    for _ in 0..6000 {
        let draft = small_stepped(&mut rng);
        match_brute(&mended(&mut rng, draft, 40), &mut counts);
        let shape = Shape::medium(&mut rng);
        let mut draft = plain(&mut rng, &shape);
        give_steps(&mut rng, &mut draft, 60, &STEPS);
        match_check(&encode(&mended(&mut rng, draft, 40)), &mut counts);
        match_check(&any_stepped_file(&mut rng), &mut counts);
    }
    for _ in 0..100 {
        let shape = Shape::large(&mut rng);
        let mut draft = plain(&mut rng, &shape);
        give_steps(&mut rng, &mut draft, 60, &STEPS);
        match_check(&encode(&mended(&mut rng, draft, 30)), &mut counts);
    }
    println!("{counts:?}");
    for number in [0, 8, 11, 18] {
        assert!(counts.get(&number).is_some_and(|&n| n >= 200), "number {number} is too rare");
    }
}

#[test]
fn seeded_small_plans() {
    let mut rng = Rng::new(60);
    let mut counts = Counts::new();
    for round in 0..15_000 {
        let draft = match round % 3 {
            0 => {
                let shape = Shape::small(&mut rng);
                plain(&mut rng, &shape)
            }
            1 => turning(&mut rng),
            _ => {
                let shape = Shape::new(2, 5, rng.between(5, 30), 6, 35);
                plain(&mut rng, &shape)
            }
        };
        match_brute(&mended(&mut rng, draft, 40), &mut counts);
    }
    println!("{counts:?}");
    assert!(counts[&0] > 2000 && counts[&18] > 2000);
}

#[test]
fn seeded_plans_of_every_size() {
    let mut rng = Rng::new(61);
    let mut counts = Counts::new();
    for _ in 0..8000 {
        let shape = Shape::medium(&mut rng);
        let draft = plain(&mut rng, &shape);
        match_check(&encode(&mended(&mut rng, draft, 60)), &mut counts);
        let levels = rng.between(1, 16);
        let draft = deep(&mut rng, levels);
        match_check(&encode(&mended(&mut rng, draft, 30)), &mut counts);
    }
    for _ in 0..150 {
        let shape = Shape::large(&mut rng);
        let draft = plain(&mut rng, &shape);
        match_check(&encode(&mended(&mut rng, draft, 30)), &mut counts);
    }
    println!("{counts:?}");
    assert!(counts[&0] > 1000 && counts[&18] > 1000);
}

/// 1 to 10 as opening, 11 for a declared plan.
#[test]
fn refusals() {
    let mut rng = Rng::new(62);
    let mut counts = Counts::new();
    for _ in 0..10_000 {
        match_check(&any_file(&mut rng), &mut counts);
    }
    println!("{counts:?}");
    for number in (0..=11).chain([18]) {
        assert!(counts.get(&number).is_some_and(|&n| n >= 20), "number {number} is too rare");
    }
}

/// Answers that need three turns of a loop and more.
#[test]
fn plans_that_need_many_turns() {
    let mut rng = Rng::new(63);
    let mut found = 0;
    while found < 200 {
        let draft = turning(&mut rng);
        let draft = mended(&mut rng, draft, 20);
        let plan = walker::open(&encode(&draft)).unwrap();
        let twice = Checker { turns: Some(2), ..Checker::default() }.check(&plan);
        if twice != check::brute(&plan) {
            match_brute(&draft, &mut Counts::new());
            found += 1;
        }
    }
}

/// What was found of a loop's arm for one cell says nothing of another.
#[test]
fn loops_that_tell_cells_apart() {
    let mut rng = Rng::new(65);
    let mut found = 0;
    while found < 300 {
        let draft = many_classes(&mut rng);
        let draft = mended(&mut rng, draft, 20);
        let plan = walker::open(&encode(&draft)).unwrap();
        let kept = Checker { keeps_rows: true, ..Checker::default() }.check(&plan);
        if kept != check::brute(&plan) {
            match_brute(&draft, &mut Counts::new());
            found += 1;
        }
    }
}

/// The stop may be at the last record and the last cell.
#[test]
fn the_last_record_and_cell() {
    let mut acts = vec![read(0, 0, 0, 4096); 1022];
    acts.push(write(1, 0, 4095, 4096));
    acts.push(read(0, 0, 0, 4096));
    let file = encode(&Draft::plain(&[4096], &acts));
    assert_eq!(archive::check(&file), Answer { number: 18, place: 1023, cell: 4095, kind: 2 });
}

/// The largest plans in a thread with a stack of 256 KiB.
#[test]
fn a_small_stack() {
    let work = || {
        let drafts = [all_told_apart(), whole_arrays(128), deep_loops(16, 1024), deep_loops(16, 16)];
        for draft in drafts {
            match_check_lightly(&encode(&draft));
        }
    };
    let thread = std::thread::Builder::new().stack_size(256 * 1024).spawn(work).unwrap();
    thread.join().expect("the check fits into a small stack");
}

fn match_check_lightly(file: &[u8]) {
    let answer = archive::check(file);
    // The walker has its own stack.
    let file = file.to_vec();
    let walker = std::thread::spawn(move || packed(walker::check(&file), 2));
    assert_eq!(answer, walker.join().unwrap());
}

type NearChecker = Box<dyn Fn(&Plan) -> Option<Stop>>;

/// Each checker that would nearly do differs from the library on some plan.
#[test]
fn near_checkers_differ() {
    let mut rng = Rng::new(64);
    let mut plans: Vec<Plan> =
        every_plan(&[2], 2).iter().map(|d| walker::open(&encode(d)).unwrap()).collect();
    for _ in 0..6000 {
        let draft = turning(&mut rng);
        plans.push(walker::open(&encode(&mended(&mut rng, draft, 20))).unwrap());
        plans.push(walker::open(&encode(&many_classes(&mut rng))).unwrap());
    }
    let ours: Vec<Option<Stop>> = plans.iter().map(|plan| answer_of(&plan.to_bytes())).collect();
    let none = Checker::default();
    let wrong: [(&str, NearChecker); 9] = [
        ("loops turned twice", Box::new(move |plan| Checker { turns: Some(2), ..none }.check(plan))),
        ("arms joined", Box::new(move |plan| Checker { joins_arms: true, ..none }.check(plan))),
        ("a write sets a flag", Box::new(move |plan| Checker { write_sets_flag: true, ..none }.check(plan))),
        ("a copy sets a flag", Box::new(move |plan| Checker { copy_sets_flag: true, ..none }.check(plan))),
        ("a run ends at its stop", Box::new(move |plan| Checker { ends_at_stop: true, ..none }.check(plan))),
        ("rows of another cell", Box::new(move |plan| Checker { keeps_rows: true, ..none }.check(plan))),
        ("the highest cell", Box::new(move |plan| Checker { highest_cell: true, ..none }.check(plan))),
        ("accepts all", Box::new(near::accepts_all)),
        ("stops all", Box::new(near::stops_all)),
    ];
    for (name, checker) in &wrong {
        let count = plans.iter().zip(&ours).filter(|(plan, ours)| checker(plan) != **ours).count();
        println!("{name}: differs on {count}");
        assert!(count > 0, "{name} never differs");
    }
}

/// The library's answer of a plain plan that opens.
pub fn answer_of(file: &[u8]) -> Option<Stop> {
    let answer = archive::check(file);
    match answer.number {
        0 => None,
        18 => Some(Stop { record: answer.place as usize, cell: answer.cell as usize }),
        number => panic!("number {number} on a plain plan"),
    }
}
