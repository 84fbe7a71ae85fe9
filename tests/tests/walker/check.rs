//! The check: its two deciders, and the stamps themselves.

use super::*;
use cuplihang_tests::walker::check::{self, Stop};
use cuplihang_tests::walker::near::Checker;
use cuplihang_tests::walker::run::NEVER;

#[test]
fn the_twelve_cases() {
    let cases = twelve_cases();
    assert_eq!(cases.len(), 12);
    for (number, (draft, answer)) in (1..).zip(&cases) {
        let plan = plan_of(draft);
        let answer = answer.map(|(record, cell)| Stop { record, cell });
        assert_eq!(check::brute(&plan), answer, "case {number} by brute force");
        assert_eq!(check::summary(&plan), answer, "case {number} by summary");
        assert_eq!(walker::check(&encode(draft)), check::verdict(answer));
    }
}

/// "copy to card, write host, need card, read card is accepted"
#[test]
fn an_explicit_copy_sets_no_flag() {
    let steps = [copy(CARD, 0, 0, 1), write(HOST, 0, 0, 1), need(CARD, 0), read(CARD, 0, 0, 1)];
    let plan = plan_of(&one_cell(&steps));
    assert_eq!(check::brute(&plan), None);
    assert_eq!(check::summary(&plan), None);
}

/// An arm whose sets of statuses repeat every second turn: who leaves so many
/// turns of it early must look at how many are left.
#[test]
fn an_arm_of_period_two() {
    let arm = Step::Branch(vec![need(HOST, 0), mark(CARD, 0)], vec![need(CARD, 0), mark(HOST, 0)]);
    let after = |turns| Checker::default().exits(&plan_of(&one_cell(&vec![arm.clone(); turns])), 0);
    for turns in 4..12 {
        assert_eq!(after(turns), after(turns + 2));
        assert_ne!(after(turns), after(turns + 1));
    }
}

#[test]
fn check_refuses_a_declared_plan() {
    let file = encode(&declared_draft(&[1], &[], &[]));
    assert_eq!(walker::check(&file), Verdict::Refused { number: 11, place: 0 });
    assert_eq!(walker::judge(&CASE_3), Verdict::Refused { number: 11, place: 0 });
    assert_eq!(walker::check(&[]), Verdict::Refused { number: 1, place: 0 });
}

fn deciders_agree(plan: &Plan) -> Option<Stop> {
    let brute = check::brute(plan);
    assert_eq!(check::summary(plan), brute, "{plan:?}");
    assert_eq!(Checker::default().check(plan), brute, "{plan:?}");
    brute
}

/// All plans of up to four records over one cell, up to three over two cells.
#[test]
fn deciders_agree_on_every_small_plan() {
    let mut counts = [0, 0];
    for (arrays, records) in [(&[1][..], 4), (&[2][..], 3), (&[1, 1][..], 3)] {
        for draft in every_plan(arrays, records) {
            let answer = deciders_agree(&plan_of(&draft));
            counts[usize::from(answer.is_some())] += 1;
        }
    }
    println!("accepted, stopped: {counts:?}");
    assert!(counts[0] > 10_000 && counts[1] > 10_000);
}

#[test]
fn deciders_agree_on_random_small_plans() {
    let mut rng = Rng::new(20);
    let mut counts = [0, 0];
    let stops = |file: &[u8]| check::summary(&walker::open(file).unwrap()).map(|stop| stop.record);
    for round in 0..9000 {
        let mut draft = match round % 3 {
            0 => {
                let shape = Shape::small(&mut rng);
                plain(&mut rng, &shape)
            }
            1 => turning(&mut rng),
            _ => {
                let shape = Shape::new(2, 4, rng.between(5, 25), 5, 35);
                plain(&mut rng, &shape)
            }
        };
        let times = if rng.chance(60) { rng.between(0, 2) } else { rng.between(0, 40) };
        mend(&mut rng, &mut draft, times, &stops);
        let answer = deciders_agree(&plan_of(&draft));
        counts[usize::from(answer.is_some())] += 1;
    }
    println!("accepted, stopped: {counts:?}");
    assert!(counts[0] > 1000 && counts[1] > 1000);
}

/// The largest plans: the summary's answer is the lowest over all cells of
/// brute force on one cell, tried on many of them.
#[test]
fn summary_agrees_cell_by_cell_on_large_plans() {
    let mut rng = Rng::new(21);
    let stops = |file: &[u8]| check::summary(&walker::open(file).unwrap()).map(|stop| stop.record);
    for round in 0..60 {
        let shape = if round % 2 == 0 { Shape::large(&mut rng) } else { Shape::medium(&mut rng) };
        let mut draft = plain(&mut rng, &shape);
        let times = rng.between(0, 60);
        mend(&mut rng, &mut draft, times, &stops);
        let plan = plan_of(&draft);
        let answer = check::summary(&plan);
        let mut cells: Vec<usize> = (0..40).map(|_| rng.below(plan.cells())).collect();
        cells.extend(answer.map(|stop| stop.cell));
        let found = cells.iter().filter_map(|&cell| check::brute_on(&plan, &[cell])).min();
        match answer {
            None => assert_eq!(found, None),
            Some(stop) => assert_eq!(found, Some(stop)),
        }
    }
}

/// A carried-on run with its stamps, on one list of choices: all its stops.
pub fn carried_on(plan: &Plan, choices: &[u8]) -> Vec<Stop> {
    let end = plan.records.len();
    let flow = plan.flow(0..end, end);
    let cells = plan.cells();
    let mut copies = [vec![0; cells], vec![NEVER; cells]];
    let (mut latest, mut stamp) = (vec![0; cells], 0);
    let mut flags = [vec![true; plan.arrays()], vec![false; plan.arrays()]];
    let mut choices = choices.iter();
    let mut stops = Vec::new();
    let mut at = 0;
    while at < end {
        let x = plan.records[at];
        let (own, other) = (x.side, 1 - x.side);
        match x.kind {
            6 | 7 => {
                let Some(&choice) = choices.next() else { break };
                at = if choice != 0 { flow.first(at) } else { flow.second(at) };
                continue;
            }
            1 => {
                let stale = plan.covered(&x).into_iter().filter(|&c| copies[own][c] != latest[c]);
                stops.extend(stale.map(|cell| Stop { record: at, cell }));
            }
            2 => {
                stamp += 1;
                for cell in plan.covered(&x) {
                    copies[own][cell] = stamp;
                    latest[cell] = stamp;
                }
            }
            3 | 4 if x.kind == 3 || !flags[own][x.array] => {
                for cell in plan.covered(&x) {
                    if copies[other][cell] != latest[cell] {
                        stops.push(Stop { record: at, cell });
                    }
                    copies[own][cell] = copies[other][cell];
                }
                if x.kind == 4 {
                    (flags[0][x.array], flags[1][x.array]) = (true, true);
                }
            }
            5 => {
                flags[own][x.array] = true;
                flags[other][x.array] = false;
            }
            _ => {}
        }
        at = flow.first(at);
    }
    stops
}

/// The deciders know current and stale only; here the stamps themselves: on
/// every list of six choices of every small plan.
#[test]
fn stamps_stop_where_the_check_says() {
    let mut reached = 0;
    for draft in every_plan(&[1], 3) {
        let plan = plan_of(&draft);
        let lowest = every_choices(6).flat_map(|choices| carried_on(&plan, &choices)).min();
        assert_eq!(lowest, check::summary(&plan), "{plan:?}");
        reached += 1;
    }
    assert!(reached > 3000);
}

/// No carried-on run stops lower; an accepted plan never stops, a stopped one
/// is stuck in some run proper.
#[test]
fn runs_stop_no_lower_than_the_check_says() {
    let mut rng = Rng::new(22);
    let mut met = [0, 0];
    for _ in 0..4000 {
        let shape = if rng.chance(70) { Shape::small(&mut rng) } else { Shape::medium(&mut rng) };
        let plan = plan_of(&plain(&mut rng, &shape));
        let answer = check::summary(&plan);
        for _ in 0..10 {
            let list = choices(&mut rng, 30, 50);
            let lowest = carried_on(&plan, &list).into_iter().min();
            assert!(lowest.is_none() || answer.is_some_and(|stop| Some(stop) <= lowest), "{plan:?}");
            met[usize::from(lowest == answer)] += 1;
            let proper = Lent::new(plan.cells()).run(&plan, &list).0;
            assert_eq!(matches!(proper, RunEnd::Stopped { .. }), lowest.is_some());
        }
    }
    assert!(met[1] > met[0]);
}
