//! Each checker that would nearly do differs from the right one on some plan.

use super::*;
use cuplihang_tests::walker::check::{self, Stop};
use cuplihang_tests::walker::near::{self, Checker};

/// Plans on which a wrong checker can show itself.
fn trial_plans() -> Vec<Plan> {
    let mut rng = Rng::new(23);
    let mut plans: Vec<Plan> = twelve_cases().iter().map(|(draft, _)| plan_of(draft)).collect();
    plans.extend(every_plan(&[2], 2).iter().map(plan_of));
    let stops = |file: &[u8]| check::summary(&walker::open(file).unwrap()).map(|stop| stop.record);
    for _ in 0..20_000 {
        let mut draft = turning(&mut rng);
        let times = if rng.chance(70) { rng.between(0, 2) } else { rng.between(0, 30) };
        mend(&mut rng, &mut draft, times, &stops);
        plans.push(plan_of(&draft));
    }
    plans
}

#[test]
fn each_near_checker_differs() {
    let plans = trial_plans();
    let right: Vec<_> = plans.iter().map(check::summary).collect();
    let differs = |name: &str, wrong: &dyn Fn(&Plan) -> Option<Stop>| {
        let count = plans.iter().zip(&right).filter(|(plan, right)| wrong(plan) != **right).count();
        println!("{name}: differs on {count} of {}", plans.len());
        assert!(count > 0, "{name} never differs");
        count
    };
    let none = Checker::default();
    differs("loops not turned", &|plan| Checker { turns: Some(0), ..none }.check(plan));
    differs("loops turned once", &|plan| Checker { turns: Some(1), ..none }.check(plan));
    differs("loops turned twice", &|plan| Checker { turns: Some(2), ..none }.check(plan));
    differs("arms joined", &|plan| Checker { joins_arms: true, ..none }.check(plan));
    differs("a write sets a flag", &|plan| Checker { write_sets_flag: true, ..none }.check(plan));
    differs("a copy sets a flag", &|plan| Checker { copy_sets_flag: true, ..none }.check(plan));
    differs("a run ends at its stop", &|plan| Checker { ends_at_stop: true, ..none }.check(plan));
    differs("the highest cell", &|plan| Checker { highest_cell: true, ..none }.check(plan));
    differs("accepts all", &near::accepts_all);
    differs("stops all", &near::stops_all);
}

/// The cases that document 01 names for them.
#[test]
fn named_cases_of_near_checkers() {
    let cases = twelve_cases();
    let fails = |case: usize, wrong: &dyn Fn(&Plan) -> Option<Stop>| {
        let (draft, answer) = &cases[case - 1];
        wrong(&plan_of(draft)) != answer.map(|(record, cell)| Stop { record, cell })
    };
    let none = Checker::default();
    assert!(fails(11, &|plan| Checker { write_sets_flag: true, ..none }.check(plan)));
    assert!(fails(10, &|plan| Checker { ends_at_stop: true, ..none }.check(plan)));
    assert!(fails(3, &near::accepts_all));
    assert!(fails(2, &near::stops_all));
    // "cases 7, 8 and 10 may come out right by luck"
    for case in [7, 8, 10] {
        assert!(!fails(case, &|plan| Checker { turns: Some(2), ..none }.check(plan)));
    }
    let copied = [copy(CARD, 0, 0, 1), write(HOST, 0, 0, 1), need(CARD, 0), read(CARD, 0, 0, 1)];
    let plan = plan_of(&one_cell(&copied));
    assert!(Checker { copy_sets_flag: true, ..none }.check(&plan).is_some());
}

/// Answers that need three, four and five turns of a loop.
#[test]
fn answers_that_need_many_turns() {
    let mut needed: BTreeMap<usize, usize> = BTreeMap::new();
    for plan in trial_plans() {
        let answer = check::brute(&plan);
        let turns = (0..16)
            .find(|&turns| Checker { turns: Some(turns), ..Checker::default() }.check(&plan) == answer);
        *needed.entry(turns.expect("16 turns are enough")).or_default() += 1;
    }
    println!("turns needed: {needed:?}");
    assert!(needed.get(&3).is_some_and(|&plans| plans > 100));
    assert!(needed.keys().any(|&turns| turns >= 4));
}
