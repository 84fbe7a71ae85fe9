//! Fixed loops, request (a) of document 02: the walker by hand, against itself,
//! and against plans in which each turn is written out.

use crate::check::{answer_of, mended};
use crate::walker::check::carried_on;
use crate::written_out::WrittenOut;
use cuplihang_tests::generate::*;
use cuplihang_tests::walker::check::{self, Stop, Summary};
use cuplihang_tests::walker::demand::{calls_reached, demand_3, Breach};
use cuplihang_tests::walker::expand::{expansion, size};
use cuplihang_tests::walker::near::{Checker, Fixed, Judge};
use cuplihang_tests::walker::plan::{Body, Record, CALL, FIXED, MAX_TURNS};
use cuplihang_tests::walker::run::{run_plan, Done};
use cuplihang_tests::walker::{self, FileKind, Memories, Plan, Refusal, RunEnd, Tally, Verdict};
use cuplihang_tests::words::refusal;
use std::collections::BTreeMap;

const HOST: u8 = 0;
const CARD: u8 = 1;

fn plan_of(draft: &Draft) -> Plan {
    walker::open(&encode(draft)).expect("a valid draft")
}

fn one_cell(steps: &[Step]) -> Plan {
    plan_of(&Draft::plain(&[1], steps))
}

/// Number and place of the opening, 0 and 0 if it opens.
fn opened(draft: &Draft) -> (u16, usize) {
    walker::open(&encode(draft)).map_or_else(|refused| (refused.number, refused.place), |_| (0, 0))
}

// ---- Opening ----

/// "Add kind 9, wherever kind 7 may stand".
#[test]
fn where_a_fixed_loop_may_stand() {
    let fixed = |arm: &[Step]| Step::Fixed(2, arm.to_vec());
    let pass = |declarations: &[Raw], steps: &[Step]| Pass {
        declarations: declarations.to_vec(),
        steps: steps.to_vec(),
    };
    assert_eq!(opened(&Draft::plain(&[1], &[fixed(&[read(HOST, 0, 0, 1), fixed(&[])])])), (0, 0));
    let script = [fixed(&[call(1), fixed(&[])])];
    let steps = [fixed(&[read(HOST, 0, 0, 1)])];
    let draft = declared_draft(&[1], &script, &[pass(&[declare(16, 0, 0)], &steps)]);
    assert_eq!(opened(&draft), (0, 0));
    // Among the declarations: 8 with a bad field, else 9.
    for (turns, number) in [(1, 9), (0, 8), (4096, 9), (4097, 8)] {
        let draft = declared_draft(&[1], &[], &[pass(&[raw(9, 0, 0, 0, turns)], &[])]);
        assert_eq!(opened(&draft), (number, 0));
    }
    // A call inside a fixed loop of a pass is as barred as outside.
    assert_eq!(opened(&declared_draft(&[1], &[], &[pass(&[], &[fixed(&[call(1)])])])), (9, 1));
    assert_eq!(opened(&declared_draft(&[1], &[fixed(&[read(HOST, 0, 0, 1)])], &[])), (9, 1));
}

/// A fixed loop is one of the branches and loops of number 10.
#[test]
fn fixed_loops_count_for_the_depth() {
    let nested = |levels| (0..levels).fold(vec![], |inside, _| vec![Step::Fixed(1, inside)]);
    assert_eq!(opened(&Draft::plain(&[1], &nested(16))), (0, 0));
    assert_eq!(opened(&Draft::plain(&[1], &nested(17))), (10, 16));
    let declared = |a, b| declared_draft(&[1], &nested(a), &[Pass { steps: nested(b), ..Pass::default() }]);
    assert_eq!(opened(&declared(8, 8)), (0, 0));
    assert_eq!(opened(&declared(9, 8)), (10, 8));
    assert_eq!(opened(&declared(8, 9)), (10, 16));
    let mixed = (0..17).fold(vec![], |inside, level| match level % 3 {
        0 => vec![Step::Fixed(2, inside)],
        1 => vec![Step::Loop(inside)],
        _ => vec![Step::Branch(vec![], inside)],
    });
    assert_eq!(opened(&Draft::plain(&[1], &mixed)), (10, 16));
    // An arm that reaches into the second arm of what holds it.
    let mut reaching = Draft::plain(&[1], &[Step::Branch(vec![Step::Fixed(3, vec![])], vec![need(HOST, 0)])]);
    assert_eq!(opened(&reaching), (0, 0));
    reaching.bodies[0].records[1] = raw(9, 0, 0, 1, 3);
    assert_eq!(opened(&reaching), (10, 1));
}

/// "26: along some nesting the product of the counts passes 4,096".
#[test]
fn products_by_hand() {
    let fixed = |turns, arm: &[Step]| Step::Fixed(turns, arm.to_vec());
    let plain = |steps: &[Step]| opened(&Draft::plain(&[1], steps));
    assert_eq!(plain(&[fixed(4096, &[])]), (0, 0));
    assert_eq!(plain(&[fixed(64, &[fixed(64, &[])])]), (0, 0));
    assert_eq!(plain(&[fixed(4096, &[fixed(1, &[])])]), (0, 0));
    assert_eq!(plain(&[fixed(1, &[fixed(4096, &[fixed(1, &[])])])]), (0, 0));
    assert_eq!(plain(&[fixed(4096, &[fixed(2, &[])])]), (26, 1));
    // 17 × 241 is 4,097.
    assert_eq!(plain(&[fixed(17, &[fixed(241, &[])])]), (26, 1));
    assert_eq!(plain(&[fixed(17, &[fixed(240, &[])])]), (0, 0));
    assert_eq!(plain(&[fixed(4096, &[fixed(4096, &[])])]), (26, 1));
    // Twelve levels of two, and a thirteenth.
    let twos = |levels| (0..levels).fold(vec![], |inside, _| vec![Step::Fixed(2, inside)]);
    assert_eq!(plain(&twos(12)), (0, 0));
    assert_eq!(plain(&twos(13)), (26, 12));
    // Sixteen levels of the largest count: the product itself never overflows.
    let largest = (0..16).fold(vec![], |inside, _| vec![Step::Fixed(4096, inside)]);
    assert_eq!(plain(&largest), (26, 1));
    // Branches and free loops between count 1; neighbours do not multiply.
    let between = [fixed(64, &[Step::Loop(vec![Step::Branch(vec![], vec![fixed(65, &[])])])])];
    assert_eq!(plain(&between), (26, 3));
    assert_eq!(plain(&[fixed(4096, &[]), fixed(4096, &[]), fixed(4096, &[])]), (0, 0));
    assert_eq!(plain(&[fixed(2, &[fixed(2048, &[]), fixed(2048, &[])])]), (0, 0));
    assert_eq!(plain(&[fixed(2, &[fixed(2048, &[]), fixed(2049, &[])])]), (26, 2));
    let arms = Step::Branch(vec![fixed(4096, &[])], vec![fixed(4096, &[])]);
    assert_eq!(plain(&[arms.clone()]), (0, 0));
    assert_eq!(plain(&[fixed(2, &[arms])]), (26, 2));
    // The first of several.
    let two = |turns| [fixed(2, &[fixed(2, &[fixed(2, &[fixed(turns, &[])])]), fixed(4096, &[])])];
    assert_eq!(plain(&two(513)), (26, 3));
    assert_eq!(plain(&two(512)), (26, 4));
    assert_eq!(refusal(26, 4), "along some nesting the product of the counts passes 4,096, record 4");
}

/// "after 10, place the record": 8, 9, 10 and 26 of a record before the next one.
#[test]
fn order_of_26() {
    let edited = |steps: &[Step], at: usize, record: Raw| {
        let mut draft = Draft::plain(&[1], steps);
        draft.bodies[0].records[at] = record;
        opened(&draft)
    };
    let steps = [Step::Fixed(4096, vec![Step::Fixed(1, vec![read(HOST, 0, 0, 1)]), need(HOST, 0)])];
    assert_eq!(edited(&steps, 1, raw(9, 0, 0, 1, 1)), (0, 0));
    assert_eq!(edited(&steps, 1, raw(9, 0, 0, 1, 2)), (26, 1));
    // 8 and 10 of the same record come first.
    assert_eq!(edited(&steps, 1, raw(9, 0, 0, 1, 4097)), (8, 1));
    assert_eq!(edited(&steps, 1, raw(9, 1, 0, 1, 2)), (8, 1));
    assert_eq!(edited(&steps, 1, raw(9, 0, 0, 3, 2)), (10, 1));
    // 26 at record 1, whatever is wrong with record 2.
    let mut draft = Draft::plain(&[1], &steps);
    draft.bodies[0].records[1] = raw(9, 0, 0, 1, 2);
    for record in [raw(1, 0, 0, 0, 2), raw(77, 0, 0, 0, 0), raw(6, 0, 0, 9, 9)] {
        draft.bodies[0].records[2] = record;
        assert_eq!(opened(&draft), (26, 1));
    }
    // 8 at record 0 comes before 26 at record 1.
    draft.bodies[0].records[0] = raw(9, 1, 0, 3, 4096);
    assert_eq!(opened(&draft), (8, 0));
    // Too deep and past the product at once: 10.
    let deep = (0..17).fold(vec![], |inside, level| {
        vec![Step::Fixed(if level == 0 || level == 16 { 4096 } else { 1 }, inside)]
    });
    assert_eq!(opened(&Draft::plain(&[1], &deep)), (10, 16));
    // 11 comes after 26, in all services.
    let mut file = encode(&Draft::plain(&[1], &[Step::Fixed(4096, vec![Step::Fixed(2, vec![])])]));
    assert_eq!(walker::judge(&file).numbers(), (26, 1, 0));
    assert_eq!(walker::check(&file).numbers(), (26, 1, 0));
    assert_eq!(walker::expand(&file, &mut [0; 9]).numbers(), (26, 1, 0));
    assert_eq!(walker::body_view(&file, 0), Err(26));
    assert_eq!(walker::plancheck::line(&file), "0 26 1 0\n");
    // Check bytes first.
    *file.last_mut().unwrap() ^= 1;
    assert_eq!(walker::check(&file).numbers(), (7, 0, 0));
}

/// Number 26 by its words: for each fixed loop the counts of all that hold it.
fn past_the_product(plan: &Plan) -> Option<usize> {
    let holds = |holder: usize, r: usize| {
        let (first, second) = plan.arms(holder);
        first.contains(&r) || second.contains(&r)
    };
    (0..plan.records.len()).find(|&r| {
        let count = |r: usize| if plan.records[r].kind == FIXED { plan.records[r].q as u128 } else { 1 };
        let product: u128 = (0..r).filter(|&holder| holds(holder, r)).map(count).product();
        plan.records[r].kind == FIXED && product * count(r) > 4096
    })
}

/// Products of exactly 4,096, one above and further ones, along many nestings.
#[test]
fn products_along_nestings() {
    let mut rng = Rng::new(400);
    let mut counts: BTreeMap<(usize, u16), usize> = BTreeMap::new();
    for round in 0..6000 {
        let product = [4095, 4096, 4097, 4098, 4100, 6561, 8192][round % 7];
        let parts = rng.between(2, 14);
        let draft = product_plain(&mut rng, product, parts);
        let (number, place) = opened(&draft);
        let records = draft.bodies[0].records.iter().map(|record| Record::from_bytes(record)).collect();
        let body = Body { first: 0, count: draft.records(), declarations: 0 };
        let lengths: Vec<usize> = draft.arrays.iter().map(|&length| length as usize).collect();
        let plan = Plan::new(FileKind::Plain, &lengths, vec![body], records);
        let expected = past_the_product(&plan).map_or((0, 0), |place| (26, place));
        assert_eq!((number, place), expected, "{draft:?}");
        assert_eq!(number, if product > MAX_TURNS { 26 } else { 0 });
        *counts.entry((product, number)).or_default() += 1;
    }
    println!("{counts:?}");
    assert_eq!(counts.len(), 7);
}

/// In a declared file each body by itself; the judge accepts what the expander
/// refuses.
#[test]
fn products_of_bodies() {
    let mut rng = Rng::new(401);
    let mut counts: BTreeMap<(u16, u16), usize> = BTreeMap::new();
    for _ in 0..4000 {
        let product = |rng: &mut Rng| {
            let (product, parts) = (rng.pick(&[1, 2, 16, 64, 65, 4096, 4097]), rng.between(2, 6));
            (product, parts)
        };
        let (around, inside) = (product(&mut rng), product(&mut rng));
        let draft = product_declared(&mut rng, around, inside);
        let (number, _) = opened(&draft);
        assert_eq!(number == 26, around.0 > MAX_TURNS || inside.0 > MAX_TURNS);
        if number == 26 {
            continue;
        }
        let file = encode(&draft);
        assert_eq!(walker::judge(&file), Verdict::Accepted);
        let (number, _, _) = walker::expand(&file, &mut [0; 9000]).numbers();
        assert_eq!(number == 26, around.0 * inside.0 > MAX_TURNS, "{around:?} {inside:?}");
        *counts.entry((0, number)).or_default() += 1;
    }
    println!("{counts:?}");
    assert!(counts[&(0, 0)] > 300 && counts[&(0, 26)] > 300);
}

/// The generator's files: each number occurs, and 26 is where its words say.
#[test]
fn files_with_fixed_loops() {
    let mut rng = Rng::new(402);
    let mut counts: BTreeMap<u16, usize> = BTreeMap::new();
    for _ in 0..20_000 {
        let file = any_fixed_file(&mut rng);
        match walker::open(&file) {
            Ok(plan) => {
                assert_eq!(plan.to_bytes(), file);
                assert_eq!(past_the_product(&plan), None);
                *counts.entry(0).or_default() += 1;
            }
            Err(refused) => *counts.entry(refused.number).or_default() += 1,
        }
    }
    println!("{counts:?}");
    for number in [0, 8, 9, 10, 26] {
        assert!(counts.get(&number).is_some_and(|&n| n > 300), "number {number} is too rare");
    }
}

// ---- The check ----

/// "The verdict covers the fixed counts exactly and free loops as before."
#[test]
fn checks_by_hand() {
    let (to_card, read_card) = (copy(CARD, 0, 0, 1), read(CARD, 0, 0, 1));
    let (read_host, write_card) = (read(HOST, 0, 0, 1), write(CARD, 0, 0, 1));
    let at = |record| Some(Stop { record, cell: 0 });
    let answer = |steps: &[Step]| deciders_agree(&one_cell(steps));
    // Case 8 with a count: it stops from the second turn on.
    let reads_and_writes = vec![read_host.clone(), write_card.clone()];
    assert_eq!(answer(&[Step::Fixed(1, reads_and_writes.clone())]), None);
    for turns in [2, 3, 4095, 4096] {
        assert_eq!(answer(&[Step::Fixed(turns, reads_and_writes.clone())]), at(1));
    }
    // A fixed loop turns at least once, a free one may not.
    let copies = vec![to_card.clone()];
    assert_eq!(answer(&[Step::Fixed(1, copies.clone()), read_card.clone()]), None);
    assert_eq!(answer(&[Step::Loop(copies.clone()), read_card.clone()]), at(2));
    assert_eq!(answer(&[Step::Fixed(1, vec![Step::Loop(copies.clone())]), read_card.clone()]), at(3));
    assert_eq!(answer(&[Step::Loop(vec![Step::Fixed(1, copies)]), read_card.clone()]), at(3));
    // The choices inside are new at each turn: copied in one, read in the other.
    let either = Step::Branch(vec![to_card], vec![read_card]);
    assert_eq!(answer(&[Step::Fixed(2, vec![either])]), at(3));
    // Case 10 with a count: a run proper stops first at 2, the answer is 1.
    let arm = vec![read_host.clone(), read(CARD, 0, 0, 1), write_card.clone()];
    assert_eq!(answer(&[Step::Fixed(1, arm.clone())]), at(2));
    assert_eq!(answer(&[Step::Fixed(2, arm)]), at(1));
    // Twice a loop of two turns is four turns.
    let twice = |arm: &[Step]| vec![Step::Fixed(2, vec![Step::Fixed(2, arm.to_vec())])];
    assert_eq!(answer(&twice(&reads_and_writes)), at(2));
    assert_eq!(answer(&[Step::Fixed(4096, vec![])]), None);
    assert_eq!(answer(&[write_card, Step::Fixed(4096, vec![]), read_host]), at(2));
    // The card's flag is set and its copy stale: the first turn clears the flag, the
    // second one copies. The free loop inside begins anew at each turn.
    let arm = [Step::Loop(vec![]), need(CARD, 0), mark(HOST, 0)];
    let late = |turns| [need(CARD, 0), write(HOST, 0, 0, 1), Step::Fixed(turns, arm.to_vec())];
    let read_after = |turns| answer(&[&late(turns)[..], &[read(CARD, 0, 0, 1)]].concat());
    assert_eq!([1, 2, 3, 4096].map(read_after), [at(6), None, None, None]);
}

fn by_writing_out(plan: &Plan) -> Option<Stop> {
    let WrittenOut { plan, was } = WrittenOut::turns(plan);
    let stops = Checker::default().stops(&plan);
    stops.into_iter().map(|stop| Stop { record: was[stop.record], ..stop }).min()
}

/// Brute force, summary, statuses pushed forward, and those of the plan that has
/// no fixed loop.
fn deciders_agree(plan: &Plan) -> Option<Stop> {
    let brute = check::brute(plan);
    assert_eq!(check::summary(plan), brute, "{plan:?}");
    assert_eq!(Checker::default().check(plan), brute, "{plan:?}");
    assert_eq!(by_writing_out(plan), brute, "{plan:?}");
    brute
}

fn deciders_agree_on_every(arrays: &[u16], turns: &[u16], records: usize) {
    let mut counts = [0, 0];
    for draft in every_plan_fixed(arrays, turns, records) {
        if has_fixed(&draft.bodies[0].records) {
            let answer = deciders_agree(&plan_of(&draft));
            counts[usize::from(answer.is_some())] += 1;
        }
    }
    println!("accepted, stopped: {counts:?}");
    assert!(counts[0] > 1000 && counts[1] > 1000);
}

#[test]
fn every_small_plan_over_one_cell() {
    deciders_agree_on_every(&[1], &[1, 2, 3], 3);
}

#[test]
fn every_plan_of_four_records() {
    deciders_agree_on_every(&[1], &[1, 2, 3], 4);
}

#[test]
fn every_small_plan_over_two_cells() {
    deciders_agree_on_every(&[2], &[1, 2, 3], 3);
}

#[test]
fn deciders_agree_on_seeded_plans() {
    let mut rng = Rng::new(403);
    let mut counts = [0, 0];
    for round in 0..9000 {
        let draft = match round % 5 {
            0 => small_fixed(&mut rng),
            1 => turning_fixed(&mut rng),
            2 => period_two_fixed(&mut rng),
            3 => late_fixed(&mut rng),
            _ => {
                let shape = Shape::new(2, 4, rng.between(5, 25), 5, 35);
                let mut draft = plain(&mut rng, &shape);
                fix_loops(&mut rng, &mut draft, 60, &[1, 2, 3], 12);
                draft
            }
        };
        let answer = deciders_agree(&plan_of(&mended(&mut rng, draft, 40)));
        counts[usize::from(answer.is_some())] += 1;
    }
    println!("accepted, stopped: {counts:?}");
    assert!(counts[0] > 1000 && counts[1] > 1000);
}

/// Counts up to the limit: brute force cell by cell, with a counter for each
/// fixed loop.
#[test]
fn deciders_agree_on_large_counts() {
    let mut rng = Rng::new(404);
    let mut counts = [0, 0];
    for round in 0..120 {
        let (product, parts) = ([4096, 4095, 2310, 1024][round % 4], rng.between(1, 10));
        let draft = product_plain(&mut rng, product, parts);
        let plan = plan_of(&mended(&mut rng, draft, 12));
        let answer = check::summary(&plan);
        let cells = 0..plan.cells();
        assert_eq!(cells.filter_map(|cell| check::brute_on(&plan, &[cell])).min(), answer, "{plan:?}");
        assert_eq!(Checker::default().check(&plan), answer, "{plan:?}");
        counts[usize::from(answer.is_some())] += 1;
    }
    println!("accepted, stopped: {counts:?}");
    assert!(counts[0] > 10 && counts[1] > 10);
}

/// Large plans: the summary against the statuses pushed forward.
#[test]
fn deciders_agree_on_large_plans() {
    let mut rng = Rng::new(405);
    for _ in 0..150 {
        let shape = Shape::medium(&mut rng);
        let mut draft = plain(&mut rng, &Shape { records: 200, ..shape });
        fix_loops(&mut rng, &mut draft, 60, &[1, 2, 3, 5, 16, 100], 4096);
        let plan = plan_of(&mended(&mut rng, draft, 60));
        assert_eq!(Checker::default().check(&plan), check::summary(&plan), "{plan:?}");
    }
}

/// So many turns by squares of one turn, and one after the other.
#[test]
fn powers_of_a_turn() {
    let mut rng = Rng::new(406);
    let (mut different, mut odd) = (0, 0);
    for round in 0..300 {
        let draft = match round % 3 {
            0 => turning(&mut rng),
            1 => small_fixed(&mut rng),
            _ => period_two_fixed(&mut rng),
        };
        let plan = plan_of(&draft);
        let part = if round % 3 == 2 { plan.arms(0).0 } else { 0..plan.records.len() };
        let turn = Summary::of(&plan, 0, part);
        let mut one_by_one = Summary::nothing();
        for turns in 1..=4096 {
            let before = one_by_one.clone();
            one_by_one.then(&turn);
            if turns <= 40 || matches!(turns, 63..=65 | 127..=129 | 1000 | 2047..=2049 | 4094..=4096) {
                assert_eq!(turn.turns(turns), one_by_one, "{turns} turns of {plan:?}");
                different += usize::from(before != one_by_one);
            }
        }
        assert_eq!(turn.turns(0), Summary::nothing());
        odd += usize::from(turn.turns(4095) != turn.turns(4096));
    }
    println!("turns that changed something: {different}, even unlike odd: {odd}");
    assert!(different > 500 && odd == 100);
}

/// The stamps themselves, each turn written out, on every list of six choices.
#[test]
fn stamps_stop_where_the_check_says() {
    let mut tried = 0;
    for draft in every_plan_fixed(&[1], &[1, 2], 3) {
        let nests = draft.bodies[0].records.iter().filter(|x| matches!(x[0], 6 | 7)).count();
        if !has_fixed(&draft.bodies[0].records) || nests > 1 {
            continue;
        }
        let plan = plan_of(&draft);
        let WrittenOut { plan: long, was } = WrittenOut::turns(&plan);
        let stops = every_choices(6).flat_map(|choices| carried_on(&long, &choices));
        let lowest = stops.map(|stop| Stop { record: was[stop.record], ..stop }).min();
        assert_eq!(lowest, check::summary(&plan), "{plan:?}");
        tried += 1;
    }
    println!("{tried} plans");
    assert!(tried > 1000);
}

/// Plans on which a checker that has fixed loops wrong can show itself.
fn trial_plans() -> Vec<Plan> {
    let mut rng = Rng::new(407);
    let mut plans = vec![];
    for round in 0..12_000 {
        let draft = match round % 4 {
            0 => turning_fixed(&mut rng),
            1 => small_fixed(&mut rng),
            2 => late_fixed(&mut rng),
            _ => period_two_fixed(&mut rng),
        };
        plans.push(plan_of(&mended(&mut rng, draft, 30)));
    }
    plans
}

#[test]
fn each_near_checker_differs() {
    let plans = trial_plans();
    let right: Vec<_> = plans.iter().map(check::summary).collect();
    assert!(plans.iter().zip(&right).all(|(plan, right)| answer_of(&plan.to_bytes()) == *right));
    let differs = |name: &str, wrong: Checker| {
        let count = plans.iter().zip(&right).filter(|(plan, right)| wrong.check(plan) != **right).count();
        println!("{name}: differs on {count} of {}", plans.len());
        assert!(count > 0, "{name} never differs");
    };
    let none = Checker::default();
    assert!(plans.iter().zip(&right).all(|(plan, right)| none.check(plan) == *right));
    differs("a fixed loop as a free one", Checker { fixed: Fixed::Free, ..none });
    differs("a fixed loop turned once", Checker { fixed: Fixed::Turns(1), ..none });
    differs("a fixed loop turned twice", Checker { fixed: Fixed::Turns(2), ..none });
    differs("a fixed loop turned three times", Checker { fixed: Fixed::Turns(3), ..none });
    differs("a fixed loop turned up to its count", Checker { fixed: Fixed::UpTo, ..none });
    differs("entries of a free loop kept", Checker { keeps_entries: true, ..none });
    differs("a run ends at its stop", Checker { ends_at_stop: true, ..none });
}

/// The plans that tell them apart by hand.
#[test]
fn named_plans_of_near_checkers() {
    let fails = |wrong: Checker, steps: &[Step]| {
        let plan = one_cell(steps);
        wrong.check(&plan) != deciders_agree(&plan)
    };
    let none = Checker::default();
    let as_free = Checker { fixed: Fixed::Free, ..none };
    let turned = |turns| Checker { fixed: Fixed::Turns(turns), ..none };
    let reads_and_writes = |turns| [Step::Fixed(turns, vec![read(HOST, 0, 0, 1), write(CARD, 0, 0, 1)])];
    let copied = [Step::Fixed(1, vec![copy(CARD, 0, 0, 1)]), read(CARD, 0, 0, 1)];
    assert!(fails(as_free, &reads_and_writes(1)) && fails(as_free, &copied));
    assert!(fails(turned(1), &reads_and_writes(2)) && !fails(turned(1), &copied));
    assert!(fails(turned(2), &reads_and_writes(1)) && !fails(turned(2), &reads_and_writes(3)));
    assert!(fails(Checker { fixed: Fixed::UpTo, ..none }, &copied));
    let late = |turns| {
        let arm = vec![Step::Loop(vec![]), need(CARD, 0), mark(HOST, 0)];
        [need(CARD, 0), write(HOST, 0, 0, 1), Step::Fixed(turns, arm), read(CARD, 0, 0, 1)]
    };
    assert!(fails(turned(1), &late(2)) && fails(turned(2), &late(1)) && fails(as_free, &late(2)));
    assert!(fails(Checker { keeps_entries: true, ..none }, &late(2)));
}

// ---- The run ----

/// What a run leaves: its end, tally, host, card, latest.
type Left = (RunEnd, Tally, [Vec<u64>; 3]);

fn ran(plan: &Plan, choices: &[u8]) -> Left {
    let [mut host, mut card, mut latest] = [(); 3].map(|()| vec![77; plan.cells() + 2]);
    let mut tally = Tally { reads: 9, writes: 9, moved: 9 };
    let mut memories = Memories { sides: [&mut host, &mut card], latest: &mut latest };
    let end = run_plan(plan, &mut memories, choices, &mut tally);
    (end, tally, [host, card, latest])
}

/// "Q turns [..] taking no choice": the records of all turns are counted.
#[test]
fn runs_by_hand() {
    let act = [read(HOST, 0, 0, 2), write(HOST, 0, 0, 1), copy(CARD, 0, 0, 2)];
    let fixed = |turns, arm: &[Step]| Step::Fixed(turns, arm.to_vec());
    let tally = |steps: &[Step], choices: &[u8]| {
        let (end, Tally { reads, writes, moved }, _) = ran(&plan_of(&Draft::plain(&[2], steps)), choices);
        let RunEnd::Done(Done { choices_used, .. }) = end else { panic!("{end:?}") };
        assert_eq!((reads, moved), (writes, 2 * writes));
        (writes, choices_used)
    };
    for turns in [1, 2, 3, 4095, 4096] {
        assert_eq!(tally(&[fixed(turns, &act)], &[]), (u64::from(turns), 0));
    }
    // One in another: the inner one starts anew at each turn of the outer one.
    assert_eq!(tally(&[fixed(3, &[fixed(5, &act)])], &[]), (15, 0));
    assert_eq!(tally(&[fixed(64, &[fixed(64, &act)])], &[]), (4096, 0));
    assert_eq!(tally(&[fixed(2, &[fixed(3, &act), fixed(4, &act)]), fixed(5, &act)], &[]), (19, 0));
    let twelve = (0..12).fold(act.to_vec(), |inside, _| vec![fixed(2, &inside)]);
    assert_eq!(tally(&twelve, &[]), (4096, 0));
    // In a free loop, and around one: the tests alone take choices.
    assert_eq!(tally(&[Step::Loop(vec![fixed(4, &act)])], &[1, 1, 1, 0]), (12, 4));
    assert_eq!(tally(&[fixed(3, &[Step::Loop(act.to_vec())])], &[1, 0, 0, 1, 1, 0]), (3, 6));
    let either = Step::Branch(vec![fixed(7, &act)], act.to_vec());
    assert_eq!(tally(&[fixed(3, &[either])], &[1, 0, 1, 9]), (15, 3));
    // An empty one does nothing, so often as it likes.
    assert_eq!(tally(&[fixed(4096, &[]), fixed(2, &act)], &[]), (2, 0));
    assert_eq!(tally(&[fixed(64, &[fixed(64, &[])])], &[]), (0, 0));
}

/// Stops and spent choices inside a turn: the state just before the record.
#[test]
fn runs_that_end_inside_a_turn() {
    let arm = vec![read(HOST, 0, 0, 1), write(CARD, 0, 0, 1)];
    let (end, tally, [host, card, latest]) = ran(&one_cell(&[Step::Fixed(2, arm)]), &[]);
    assert_eq!(end, RunEnd::Stopped { record: 1, cell: 0 });
    assert_eq!(tally, Tally { reads: 1, writes: 1, moved: 0 });
    assert_eq!([host[0], card[0], latest[0]], [0, 1, 1]);
    let either = Step::Branch(vec![write(HOST, 0, 0, 1)], vec![]);
    let plan = one_cell(&[Step::Fixed(4, vec![either])]);
    for used in 0..4 {
        let (end, tally, _) = ran(&plan, &[1, 1, 1, 1][..used]);
        assert_eq!(end, RunEnd::Spent { record: 1 });
        assert_eq!(tally.writes, used as u64);
    }
    let (end, tally, _) = ran(&plan, &[1, 0, 1, 1, 1]);
    assert_eq!(end, RunEnd::Done(Done { choices_used: 4, flags: [1, 0], arrays_current: [1, 0] }));
    assert_eq!(tally.writes, 3);
}

/// The run of a plan and the run with each turn written out: the same end, the same
/// memories, the same tally.
#[test]
fn runs_are_those_with_each_turn_written_out() {
    let mut rng = Rng::new(408);
    let mut ends: BTreeMap<&str, usize> = BTreeMap::new();
    for round in 0..12_000 {
        let draft = match round % 3 {
            0 => turning_fixed(&mut rng),
            1 => small_fixed(&mut rng),
            _ => {
                let shape = Shape::medium(&mut rng);
                let mut draft = plain(&mut rng, &shape);
                fix_loops(&mut rng, &mut draft, 70, &[1, 2, 3, 5], 30);
                draft
            }
        };
        let plan = plan_of(&mended(&mut rng, draft, 60));
        let WrittenOut { plan: long, was } = WrittenOut::turns(&plan);
        let (length, more) = (rng.between(0, 60), rng.between(10, 60));
        let list = choices(&mut rng, length, more);
        let (end, tally, memories) = ran(&long, &list);
        let end = match end {
            RunEnd::Stopped { record, cell } => RunEnd::Stopped { record: was[record], cell },
            RunEnd::Spent { record } => RunEnd::Spent { record: was[record] },
            other => other,
        };
        assert_eq!(ran(&plan, &list), (end, tally, memories), "{plan:?} {list:?}");
        let name = match end {
            RunEnd::Done(_) => "done",
            RunEnd::Spent { .. } => "spent",
            _ => "stopped",
        };
        *ends.entry(name).or_default() += 1;
    }
    println!("{ends:?}");
    assert!(ends.len() == 3 && ends.values().all(|&n| n > 500));
}

/// No run proper of an accepted plan stops.
#[test]
fn accepted_plans_do_not_stop() {
    let mut rng = Rng::new(409);
    let (mut runs, mut stopped) = (0, 0);
    for _ in 0..3000 {
        let draft = if rng.chance(50) { turning_fixed(&mut rng) } else { small_fixed(&mut rng) };
        let plan = plan_of(&mended(&mut rng, draft, 40));
        let accepted = check::summary(&plan).is_none();
        for _ in 0..10 {
            let list = choices(&mut rng, 40, 40);
            let (end, ..) = ran(&plan, &list);
            assert!(!accepted || !matches!(end, RunEnd::Stopped { .. }), "{plan:?} {list:?}");
            runs += usize::from(accepted);
            stopped += usize::from(matches!(end, RunEnd::Stopped { .. }));
        }
    }
    println!("runs of accepted plans {runs}, stopped runs of others {stopped}");
    assert!(runs > 1000 && stopped > 1000);
}

// ---- Judge, expander, demand 3 ----

/// "A write inside it meets a W like one outside."
#[test]
fn judged_by_hand() {
    let answer = |steps: &[Step]| {
        let pass = Pass { declarations: vec![declare(17, 0, 0)], steps: steps.to_vec() };
        walker::judge(&encode(&declared_draft(&[2, 2], &[call(1)], &[pass]))).numbers()
    };
    let (whole, half) = (write(HOST, 0, 0, 2), write(HOST, 0, 0, 1));
    let fixed = |turns, arm: &[Step]| Step::Fixed(turns, arm.to_vec());
    for turns in [1, 2, 4096] {
        assert_eq!(answer(&[fixed(turns, &[whole.clone()])]), (0, 0, 0));
        assert_eq!(answer(&[fixed(turns, &[half.clone()])]), (15, 1, 0));
        assert_eq!(answer(&[fixed(turns, &[half.clone()]), write(HOST, 0, 1, 2)]), (0, 0, 0));
    }
    let free = Step::Loop(vec![whole.clone()]);
    assert_eq!(answer(&[fixed(2, &[free])]), (15, 1, 0));
    assert_eq!(answer(&[Step::Loop(vec![fixed(2, &[whole.clone()])])]), (15, 1, 0));
    assert_eq!(answer(&[fixed(2, &[fixed(3, &[whole.clone()])])]), (0, 0, 0));
    // The same arm may be taken at every turn.
    let either = Step::Branch(vec![half], vec![write(HOST, 0, 1, 2)]);
    assert_eq!(answer(&[fixed(4096, &[either])]), (15, 1, 0));
    let both = Step::Branch(vec![fixed(2, &[whole.clone()])], vec![whole.clone()]);
    assert_eq!(answer(&[both]), (0, 0, 0));
    assert_eq!(answer(&[Step::Branch(vec![fixed(2, &[whole])], vec![])]), (15, 1, 0));
    // 13 and 14 inside, at their records.
    assert_eq!(answer(&[fixed(2, &[read(HOST, 0, 0, 1)])]), (13, 3, 0));
    assert_eq!(answer(&[fixed(2, &[need(HOST, 0)])]), (14, 3, 0));
}

fn some_declared(rng: &mut Rng, round: usize) -> Draft {
    let mut draft = match round % 6 {
        0 | 1 => accepted_small(rng),
        n => faulty(rng, FAULTS[n - 2]),
    };
    fix_loops(rng, &mut draft, 70, &[1, 2, 2, 3], 8);
    draft
}

/// The judge against the second one, and against the plan with each turn written out.
#[test]
fn judges_agree() {
    let mut rng = Rng::new(410);
    let mut counts: BTreeMap<u16, usize> = BTreeMap::new();
    let mut differs: BTreeMap<String, usize> = BTreeMap::new();
    let wrong = [Judge::WriteInFixedLoopMeetsNoW, Judge::WriteInLoopMeetsW, Judge::WriteInOneArmMeetsW];
    for round in 0..12_000 {
        let plan = plan_of(&some_declared(&mut rng, round));
        let answer = walker::judge::passes(&plan);
        assert_eq!(answer, Judge::Right.passes(&plan), "{plan:?}");
        let WrittenOut { plan: long, was } = WrittenOut::turns(&plan);
        let written_out = walker::judge::passes(&long);
        assert_eq!(answer, written_out.map_err(|refused| Refusal { place: was[refused.place], ..refused }));
        *counts.entry(answer.err().map_or(0, |refused| refused.number)).or_default() += 1;
        for judge in wrong {
            *differs.entry(format!("{judge:?}")).or_default() += usize::from(judge.passes(&plan) != answer);
        }
    }
    println!("{counts:?}\n{differs:?}");
    for number in [0, 12, 13, 14, 15] {
        assert!(counts.get(&number).is_some_and(|&n| n > 300), "number {number} is too rare");
    }
    assert!(differs.len() == wrong.len() && differs.values().all(|&count| count > 0));
}

/// Q stays as it is, P grows; the place of 26 is the call.
#[test]
fn expanded_by_hand() {
    let fixed = |turns, arm: &[Step]| Step::Fixed(turns, arm.to_vec());
    let pass = Pass {
        declarations: vec![declare(18, 1, 0)],
        steps: vec![fixed(3, &[read(CARD, 0, 0, 1), fixed(5, &[])])],
    };
    let script = [fixed(7, &[call(1), Step::Loop(vec![call(2)])]), call(1)];
    let file = encode(&declared_draft(&[1], &script, &[pass, Pass::default()]));
    let called = [need(CARD, 0), mark(CARD, 0), fixed(3, &[read(CARD, 0, 0, 1), fixed(5, &[])])];
    let steps = [&[fixed(7, &[&called[..], &[Step::Loop(vec![])]].concat())][..], &called].concat();
    let expected = encode(&Draft::plain(&[1], &steps));
    let mut out = vec![0xA5; expected.len() + 9];
    assert_eq!(walker::expand(&file, &mut out), Verdict::Accepted);
    assert_eq!(out[..expected.len()], expected);
    assert_eq!(out[expected.len()..], [0xA5; 9]);
}

/// "(26: [..] the expander tests the expansion too, after 16, place the call.)"
#[test]
fn expander_refuses_by_hand() {
    let fixed = |turns, arm: &[Step]| Step::Fixed(turns, arm.to_vec());
    let turning = |turns| Pass { declarations: vec![], steps: vec![fixed(turns, &[])] };
    let passes = [turning(2), turning(64), turning(4096), Pass::default()];
    let answer = |script: &[Step], room: usize| {
        let file = encode(&declared_draft(&[1], script, &passes));
        assert_eq!(walker::judge(&file), Verdict::Accepted);
        let mut out = vec![0xA5; room];
        let (number, place, cell) = walker::expand(&file, &mut out).numbers();
        assert!(number == 0 || out.iter().all(|&byte| byte == 0xA5));
        assert_eq!(cell, 0);
        (number, place)
    };
    // Nobody calls pass 3 in a loop: its 4,096 turns are allowed.
    assert_eq!(answer(&[fixed(4096, &[]), call(3)], 9000), (0, 0));
    assert_eq!(answer(&[fixed(64, &[call(2)])], 9000), (0, 0));
    assert_eq!(answer(&[fixed(65, &[call(2)])], 9000), (26, 1));
    assert_eq!(answer(&[fixed(2048, &[call(1)])], 9000), (0, 0));
    assert_eq!(answer(&[fixed(2049, &[call(1)])], 9000), (26, 1));
    assert_eq!(answer(&[fixed(4096, &[call(4)])], 9000), (0, 0));
    assert_eq!(answer(&[fixed(1, &[call(3)])], 9000), (0, 0));
    // The lowest call, though an earlier one in the loop is good.
    let script = [call(3), fixed(65, &[call(1), Step::Loop(vec![call(4), call(2)]), call(3)]), call(3)];
    assert_eq!(answer(&script, 9000), (26, 5));
    let arms = Step::Branch(vec![call(1)], vec![call(3)]);
    assert_eq!(answer(&[fixed(2, &[fixed(2, &[arms])])], 9000), (26, 4));
    // 16, 26, 17 in this order.
    assert_eq!(answer(&[fixed(65, &[call(2)])], 0), (26, 1));
    assert_eq!(answer(&[fixed(64, &[call(2)])], 0), (17, 0));
    let large = Pass { declarations: vec![], steps: vec![fixed(1, &[]); 300] };
    let draft = |calls: usize| {
        let script = [&[fixed(4096, &[call(1)])][..], &vec![call(2); calls]].concat();
        encode(&declared_draft(&[1], &script, &[turning(2), large.clone()]))
    };
    assert_eq!(walker::expand(&draft(3), &mut [0; 9]).numbers(), (26, 1, 0));
    assert_eq!(walker::expand(&draft(4), &mut [0; 9]).numbers(), (16, 0, 0));
    // The judge's numbers before all of them.
    let unmet = Pass { declarations: vec![declare(17, 0, 0)], steps: vec![fixed(2, &[])] };
    let file = encode(&declared_draft(&[1], &[fixed(4096, &[call(1)])], &[unmet]));
    assert_eq!(walker::expand(&file, &mut [0; 9]).numbers(), (15, 2, 0));
}

/// The record of body 0 that each record of the expansion comes from.
fn origins(plan: &Plan) -> Vec<usize> {
    (0..plan.bodies[0].count).flat_map(|r| vec![r; size(plan, r..r + 1)]).collect()
}

/// The expander says 26 exactly where the expansion's file would not open for it,
/// at the call that the first such record comes from; else the file opens, the
/// check accepts it, and writing out commutes with expanding.
#[test]
fn expansions_open_or_are_26() {
    let mut rng = Rng::new(411);
    let mut counts: BTreeMap<u16, usize> = BTreeMap::new();
    let mut places: BTreeMap<usize, usize> = BTreeMap::new();
    for round in 0..6000 {
        let draft = declared_fixed(&mut rng, round);
        let (plan, file) = (plan_of(&draft), encode(&draft));
        let mut out = vec![0; 9000];
        let (number, place, _) = walker::expand(&file, &mut out).numbers();
        *counts.entry(number).or_default() += 1;
        let expanded = expansion(&plan);
        assert_eq!(number == 16, expanded.records.len() > 1024);
        if number == 16 {
            continue;
        }
        let opened = walker::open(&expanded.to_bytes());
        let expected = past_the_product(&expanded).map(|place| Refusal { number: 26, place });
        assert_eq!(opened.as_ref().err(), expected.as_ref());
        let Some(Refusal { place: record, .. }) = expected else {
            assert_eq!(number, 0);
            assert_eq!(opened, Ok(expanded.clone()));
            assert_eq!(out[..expanded.to_bytes().len()], expanded.to_bytes());
            assert_eq!(walker::check(&expanded.to_bytes()), Verdict::Accepted);
            continue;
        };
        assert_eq!((number, place), (26, origins(&plan)[record]));
        assert_eq!(plan.records[place].kind, CALL);
        assert!(out.iter().all(|&byte| byte == 0));
        *places.entry(place).or_default() += 1;
    }
    println!("{counts:?} {places:?}");
    assert!([0, 16, 26].iter().all(|number| counts[number] > 100));
    assert!(places.len() > 10);
}

/// Expanding and writing out turns can be done in either order.
#[test]
fn expansions_written_out() {
    let mut rng = Rng::new(412);
    for _ in 0..3000 {
        let plan = plan_of(&accepted_fixed(&mut rng));
        let one = WrittenOut::turns(&expansion(&plan)).plan;
        let two = expansion(&WrittenOut::turns(&plan).plan);
        assert_eq!(one, two, "{plan:?}");
    }
}

/// "a call in a loop counting again at each turn", in a fixed one too.
#[test]
fn demand_3_by_hand() {
    let on_card = Pass { declarations: vec![declare(18, 1, 0)], steps: vec![write(CARD, 0, 0, 1)] };
    let on_host = Pass { declarations: vec![declare(16, 0, 0)], steps: vec![read(HOST, 0, 0, 1)] };
    let either = Pass {
        declarations: vec![declare(16, 0, 0)],
        steps: vec![Step::Fixed(2, vec![Step::Branch(vec![read(HOST, 0, 0, 1)], vec![])])],
    };
    let script = [Step::Fixed(5, vec![call(1), call(2), call(2)]), Step::Fixed(2, vec![call(3)])];
    let plan = plan_of(&declared_draft(&[1], &script, &[on_card, on_host, either]));
    let turn = [1, 2, 2];
    assert_eq!(calls_reached(&plan, &[1, 0, 0, 1]), [&turn.repeat(5)[..], &[3, 3]].concat());
    assert_eq!(calls_reached(&plan, &[1]), [&turn.repeat(5)[..], &[3]].concat());
    let shown = demand_3(&plan, &expansion(&plan), &[1, 0, 0, 1]).unwrap();
    assert!(shown.finished);
    assert_eq!((shown.passes, shown.reads, shown.writes), (17, 12, 5));
    // The first RW moves in, each turn moves back once; each turn but the first one
    // finds the array on both sides.
    assert_eq!((shown.moves, shown.intervals), (6, 6));
    assert!(!demand_3(&plan, &expansion(&plan), &[1, 0, 0]).unwrap().finished);
    // An expansion whose loop turns once more breaks it.
    let mut wrong = expansion(&plan);
    wrong.records[0].q += 1;
    assert_eq!(demand_3(&plan, &wrong, &[1, 0, 0, 1]), Err(Breach::OtherDeclarations));
}

/// Accepted plans with fixed loops: every clause on every run, and what it shows is
/// what the plan with each turn written out shows.
#[test]
fn demand_3_clause_by_clause() {
    let mut rng = Rng::new(413);
    let (mut finished, mut moves, mut runs, mut fixed) = (0, 0, 0, 0);
    for _ in 0..4000 {
        let plan = plan_of(&accepted_fixed(&mut rng));
        assert_eq!(walker::judge::passes(&plan), Ok(()));
        let (expanded, long) = (expansion(&plan), WrittenOut::turns(&plan).plan);
        fixed += usize::from(expanded.records.iter().any(|x| x.kind == FIXED));
        for _ in 0..4 {
            let length = rng.between(0, 120);
            let more = rng.between(10, 60);
            let list = choices(&mut rng, length, more);
            let shown =
                demand_3(&plan, &expanded, &list).unwrap_or_else(|b| panic!("{b:?} {plan:?} {list:?}"));
            assert_eq!(demand_3(&long, &expansion(&long), &list), Ok(shown.clone()));
            assert_eq!(calls_reached(&plan, &list), calls_reached(&long, &list));
            let (end, tally, _) = ran(&expanded, &list);
            assert_eq!(matches!(end, RunEnd::Done(_)), shown.finished);
            let counted = [shown.reads, shown.writes, shown.moved_cells].map(|n| n as u64);
            assert_eq!([tally.reads, tally.writes, tally.moved], counted);
            runs += 1;
            finished += usize::from(shown.finished);
            moves += shown.moves;
        }
    }
    println!("plans with fixed loops {fixed}, runs {runs}, finished {finished}, moves {moves}");
    assert!(fixed > 1000 && runs > 10_000 && finished > 5000 && moves > 10_000);
}

/// Wrong counts in the expansion break demand 3 on some plan.
#[test]
fn wrong_counts_break_demand_3() {
    let mut rng = Rng::new(414);
    let mut broken: BTreeMap<&str, usize> = BTreeMap::new();
    for _ in 0..2000 {
        let plan = plan_of(&accepted_fixed(&mut rng));
        let list = choices(&mut rng, 80, 30);
        let mut tried = |name, turns: &dyn Fn(usize) -> usize| {
            let mut wrong = expansion(&plan);
            for x in wrong.records.iter_mut().filter(|x| x.kind == FIXED) {
                x.q = turns(x.q);
            }
            *broken.entry(name).or_default() += usize::from(demand_3(&plan, &wrong, &list).is_err());
        };
        tried("right", &|q| q);
        tried("one more", &|q| q + 1);
        tried("one", &|_| 1);
        tried("none", &|_| 0);
    }
    println!("{broken:?}");
    assert_eq!(broken.remove("right"), Some(0));
    assert!(broken.values().all(|&count| count > 0));
}
