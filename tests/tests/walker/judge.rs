//! The judge, and the W rule by its words.

use super::*;
use cuplihang_tests::walker::near::Judge;

/// R on one side, and what breaks the rules of a pass, each at its record.
#[test]
fn judge_by_hand() {
    let answer = |declarations: &[Raw], steps: &[Step]| {
        let pass = Pass { declarations: declarations.to_vec(), steps: steps.to_vec() };
        walker::judge(&encode(&declared_draft(&[2, 2], &[call(1)], &[pass]))).numbers()
    };
    let (r, w, rw) = (declare(16, 0, 0), declare(17, 0, 0), declare(18, 0, 0));
    let whole = write(HOST, 0, 0, 2);
    // Record 0 is the call.
    assert_eq!(answer(&[], &[]), (0, 0, 0));
    assert_eq!(answer(&[r], &[read(HOST, 0, 0, 2)]), (0, 0, 0));
    assert_eq!(answer(&[r, r], &[]), (12, 2, 0));
    assert_eq!(answer(&[r, declare(17, 1, 0)], &[]), (12, 2, 0));
    assert_eq!(answer(&[r], &[read(CARD, 0, 0, 2)]), (13, 2, 0));
    assert_eq!(answer(&[r], &[read(HOST, 1, 0, 2)]), (13, 2, 0));
    assert_eq!(answer(&[r], std::slice::from_ref(&whole)), (13, 2, 0));
    assert_eq!(answer(&[w], &[read(HOST, 0, 0, 2), whole.clone()]), (13, 2, 0));
    assert_eq!(answer(&[rw], &[write(CARD, 0, 0, 1)]), (13, 2, 0));
    assert_eq!(answer(&[rw], &[]), (0, 0, 0));
    assert_eq!(answer(&[rw], &[read(HOST, 0, 0, 1), write(HOST, 0, 1, 2)]), (0, 0, 0));
    for barred in [copy(HOST, 0, 0, 1), need(HOST, 0), mark(CARD, 1)] {
        assert_eq!(answer(&[r], &[Step::Loop(vec![barred])]), (14, 3, 0));
    }
    assert_eq!(answer(&[w], &[]), (15, 1, 0));
    assert_eq!(answer(&[w], std::slice::from_ref(&whole)), (0, 0, 0));
    assert_eq!(answer(&[w], &[Step::Loop(vec![whole.clone()])]), (15, 1, 0));
    assert_eq!(answer(&[w], &[Step::Branch(vec![whole.clone()], vec![])]), (15, 1, 0));
    assert_eq!(answer(&[w], &[Step::Branch(vec![whole.clone()], vec![whole.clone()])]), (0, 0, 0));
    assert_eq!(answer(&[w], &[write(HOST, 0, 0, 1), write(HOST, 0, 1, 2)]), (0, 0, 0));
    assert_eq!(answer(&[w], &[write(HOST, 0, 1, 2)]), (15, 1, 0));
    // The lowest of two, and 14 at a later record before 15.
    assert_eq!(answer(&[declare(17, 1, 1), w], std::slice::from_ref(&whole)), (15, 1, 0));
    assert_eq!(answer(&[w], &[need(HOST, 0)]), (14, 2, 0));
}

/// "each pass, first by record … then 15": pass 1 whole before pass 2.
#[test]
fn judge_takes_pass_by_pass() {
    let unmet = Pass { declarations: vec![declare(17, 0, 0)], steps: vec![] };
    let barred = Pass { declarations: vec![], steps: vec![need(HOST, 0)] };
    let answer = |passes: &[Pass]| walker::judge(&encode(&declared_draft(&[1], &[], passes))).numbers();
    assert_eq!(answer(&[unmet.clone(), barred.clone()]), (15, 0, 0));
    assert_eq!(answer(&[barred, unmet]), (14, 0, 0));
}

/// The judge against a second one, on accepted plans and on each fault.
#[test]
fn judges_agree() {
    let mut rng = Rng::new(30);
    let mut counts: BTreeMap<u16, usize> = BTreeMap::new();
    let mut differs: BTreeMap<String, usize> = BTreeMap::new();
    let wrong = [
        Judge::WriteInOneArmMeetsW,
        Judge::WriteInLoopMeetsW,
        Judge::ReadUnderWIsDeclared,
        Judge::SideNotCompared,
        Judge::UnmetLast,
    ];
    for round in 0..12_000 {
        let draft = match round % 6 {
            0 => accepted_small(&mut rng),
            1 => {
                let shape = declared_shape(&mut rng);
                let bodies = rng.between(1, 32);
                accepted(&mut rng, &shape, bodies)
            }
            n => faulty(&mut rng, FAULTS[n - 2]),
        };
        let plan = plan_of(&draft);
        let answer = walker::judge(&encode(&draft));
        let again = Judge::Right.passes(&plan).map_or_else(Verdict::from, |()| Verdict::Accepted);
        assert_eq!(answer, again);
        *counts.entry(answer.numbers().0).or_default() += 1;
        for judge in wrong {
            let other = judge.passes(&plan).map_or_else(Verdict::from, |()| Verdict::Accepted);
            *differs.entry(format!("{judge:?}")).or_default() += usize::from(other != answer);
        }
    }
    println!("{counts:?}\n{differs:?}");
    for number in [0, 12, 13, 14, 15] {
        assert!(counts.get(&number).is_some_and(|&n| n > 300), "number {number} is too rare");
    }
    assert_eq!(differs.len(), wrong.len());
    assert!(differs.values().all(|&count| count > 0));
}

/// The writes of one way through a pass, stops aside.
fn written_on_a_way(plan: &Plan, body: usize, choices: &[u8]) -> Option<Vec<bool>> {
    let part = plan.bodies[body].steps();
    let flow = plan.flow(part.clone(), part.end);
    let mut choices = choices.iter();
    let mut written = vec![false; plan.cells()];
    let mut at = part.start;
    while at < part.end {
        let x = &plan.records[at];
        at = match x.kind {
            6 | 7 if *choices.next()? != 0 => flow.first(at),
            6 | 7 => flow.second(at),
            _ => {
                if x.kind == 2 {
                    plan.covered(x).into_iter().for_each(|cell| written[cell] = true);
                }
                flow.first(at)
            }
        };
    }
    Some(written)
}

/// The W rule by its words: every way writes every cell, else some way does not.
#[test]
fn every_way_writes_or_some_way_does_not() {
    let mut rng = Rng::new(31);
    let mut counts = [0, 0];
    while counts[0] < 300 || counts[1] < 300 {
        let arrays = lengths(&mut rng, 2, 4);
        let mut pass = pass(&mut rng, &arrays, 10, 3, 30);
        if rng.chance(60) {
            spoil(&mut rng, &arrays, &mut pass, Fault::Unmet);
        }
        let nests = flatten(&pass.steps).iter().filter(|x| x[0] == 6 || x[0] == 7).count();
        let declared: Vec<Raw> = pass.declarations.iter().copied().filter(|d| d[0] == 17).collect();
        // Each loop turned at most once needs two choices at most.
        if nests > 4 || declared.is_empty() {
            continue;
        }
        let plan = plan_of(&declared_draft(&arrays, &[], &[pass]));
        let answer = walker::judge(&plan.to_bytes());
        let ways = every_choices(10).filter_map(|choices| written_on_a_way(&plan, 1, &choices));
        let ways: Vec<Vec<bool>> = ways.collect();
        let unmet = declared.iter().position(|d| {
            let cells = plan.cells_of(d[2] as usize);
            ways.iter().any(|written| written[cells.clone()].contains(&false))
        });
        assert_eq!(answer == Verdict::Accepted, unmet.is_none(), "{plan:?}");
        counts[usize::from(unmet.is_some())] += 1;
    }
}
