//! Steps, request (c) of document 02: by hand, and against plans in which a record
//! of several cells is written out.

use crate::check::{answer_of, mended};
use crate::expand::{some_declared, written};
use crate::written_out::WrittenOut;
use cuplihang_tests::generate::*;
use cuplihang_tests::walker::check::{self, Stop};
use cuplihang_tests::walker::demand::demand_3;
use cuplihang_tests::walker::expand::expansion;
use cuplihang_tests::walker::near::{Checker, Judge, Stepping};
use cuplihang_tests::walker::{self, Memories, Plan, Refusal, RunEnd, Tally};

const HOST: u8 = 0;
const CARD: u8 = 1;

fn plan_of(length: u16, steps: &[Step]) -> Plan {
    walker::open(&encode(&Draft::plain(&[3, length], steps))).expect("a valid draft")
}

/// "0 and 1 mean each cell, k means P, P + k and so on below Q", counted from P.
#[test]
fn cells_of_a_step() {
    let cells = |step, p, q| {
        let plan = plan_of(10, &[every(step, read(HOST, 1, p, q))]);
        let covered = plan.covered(&plan.records[0]);
        let cells: Vec<usize> = covered.into_iter().collect();
        assert_eq!(cells.len(), covered.count());
        assert!((0..plan.cells()).all(|cell| covered.contains(cell) == cells.contains(&cell)));
        cells
    };
    assert_eq!(cells(0, 1, 5), [4, 5, 6, 7]);
    assert_eq!(cells(1, 1, 5), [4, 5, 6, 7]);
    assert_eq!(cells(2, 1, 5), [4, 6]);
    assert_eq!(cells(2, 1, 6), [4, 6, 8]);
    assert_eq!(cells(3, 0, 10), [3, 6, 9, 12]);
    // "below Q": the last step that would come to Q is not taken.
    assert_eq!(cells(3, 1, 10), [4, 7, 10]);
    assert_eq!(cells(4, 9, 10), [12]);
    assert_eq!(cells(255, 2, 10), [5]);
}

/// The lowest unmet cell is one of the stepped ones.
#[test]
fn stops_by_hand() {
    let stop = |steps: &[Step]| {
        let plan = plan_of(6, steps);
        let stop = check::summary(&plan);
        assert_eq!(stop, check::brute(&plan));
        assert_eq!(stop, answer_of(&plan.to_bytes()));
        stop.map(|stop| (stop.record, stop.cell))
    };
    let odd = every(2, write(CARD, 1, 1, 6));
    assert_eq!(stop(&[odd.clone(), every(2, read(HOST, 1, 0, 6))]), None);
    assert_eq!(stop(&[odd.clone(), read(HOST, 1, 0, 6)]), Some((1, 4)));
    assert_eq!(stop(&[odd.clone(), every(3, read(HOST, 1, 0, 6))]), Some((1, 6)));
    assert_eq!(stop(&[odd.clone(), every(2, copy(HOST, 1, 1, 6)), read(HOST, 1, 0, 6)]), None);
    assert_eq!(stop(&[odd.clone(), every(4, copy(HOST, 1, 1, 6)), read(HOST, 1, 0, 6)]), Some((2, 6)));
    assert_eq!(stop(&[odd, every(255, read(HOST, 1, 1, 6))]), Some((1, 4)));
}

/// Only the cells of a step are written, copied and counted.
#[test]
fn a_run_by_hand() {
    let steps = [
        every(3, write(CARD, 1, 0, 7)),
        every(3, copy(HOST, 1, 0, 7)),
        every(2, copy(CARD, 1, 1, 7)),
        every(2, read(CARD, 1, 1, 7)),
    ];
    let file = encode(&Draft::plain(&[3, 7], &steps));
    let [mut host, mut card, mut latest] = [(); 3].map(|()| vec![9; 10]);
    let mut memories = Memories { sides: [&mut host, &mut card], latest: &mut latest };
    let mut tally = Tally::default();
    assert!(matches!(walker::run(&file, &mut memories, &[], &mut tally), RunEnd::Done(_)));
    assert_eq!((tally.reads, tally.writes, tally.moved), (1, 1, 6));
    assert_eq!(latest, [0, 0, 0, 1, 0, 0, 1, 0, 0, 1]);
    assert_eq!(host, latest);
    const N: u64 = u64::MAX;
    assert_eq!(card, [N, N, N, 1, 0, N, 1, N, 0, 1]);
}

/// The check's answer is that of the plan with a record for each cell of a step.
#[test]
fn stops_are_those_with_each_cell_written_out() {
    let mut rng = Rng::new(422);
    let (mut accepted, mut stopped) = (0, 0);
    for round in 0..6000 {
        let draft = match round % 2 {
            0 => small_stepped(&mut rng),
            _ => {
                let shape = Shape::medium(&mut rng);
                let mut draft = plain(&mut rng, &shape);
                give_steps(&mut rng, &mut draft, 60, &STEPS);
                draft
            }
        };
        let plan = walker::open(&encode(&mended(&mut rng, draft, 40))).expect("a valid draft");
        let WrittenOut { plan: long, was } = WrittenOut::cells(&plan);
        if long.records.len() > 1024 {
            continue;
        }
        let answer = answer_of(&plan.to_bytes());
        let by_cells = answer_of(&long.to_bytes());
        assert_eq!(answer, by_cells.map(|stop| Stop { record: was[stop.record], ..stop }), "{plan:?}");
        *if answer.is_none() { &mut accepted } else { &mut stopped } += 1;
    }
    println!("accepted {accepted}, stopped {stopped}");
    assert!(accepted > 1000 && stopped > 1000);
}

/// Declared plans whose records are written out as layers: the judge's answer stays,
/// the library writes the expansion written out so, and demand 3 holds of it with the
/// same moves.
#[test]
fn declared_plans_in_layers() {
    let mut rng = Rng::new(423);
    let (mut refused, mut runs, mut finished, mut moves) = (0, 0, 0, 0);
    for round in 0..4000 {
        let draft = some_declared(&mut rng, round);
        let whole = walker::open(&encode(&draft)).expect("a valid draft");
        let WrittenOut { plan, was } = WrittenOut::layers(&whole);
        let in_layers = walker::judge::passes(&plan);
        let mapped = in_layers.map_err(|refused| Refusal { place: was[refused.place], ..refused });
        assert_eq!(walker::judge::passes(&whole), mapped, "{whole:?}");
        refused += usize::from(mapped.is_err());
        let Some(expanded) = written(&plan.to_bytes()) else { continue };
        assert_eq!(expanded, expansion(&plan));
        for _ in 0..3 {
            let (length, more) = (rng.between(0, 150), rng.between(10, 60));
            let list = choices(&mut rng, length, more);
            let shown = demand_3(&plan, &expanded, &list).unwrap_or_else(|b| panic!("{b:?} {plan:?}"));
            let by_whole = demand_3(&whole, &expansion(&whole), &list).unwrap();
            assert_eq!(shown.finished, by_whole.finished);
            assert_eq!((shown.moves, shown.moved_cells), (by_whole.moves, by_whole.moved_cells));
            assert_eq!((shown.passes, shown.intervals), (by_whole.passes, by_whole.intervals));
            runs += 1;
            finished += usize::from(shown.finished);
            moves += shown.moves;
        }
    }
    println!("refused {refused}, runs {runs}, finished {finished}, moves {moves}");
    assert!(refused > 300 && runs > 3000 && finished > 1000 && moves > 3000);
}

/// Checkers that have a step wrong differ, and the test says how often.
#[test]
fn each_near_checker_differs() {
    let mut rng = Rng::new(420);
    let acts = every_stepped_act(&[6], &[0, 2, 3, 4]);
    let plans: Vec<Plan> = (0..6000)
        .map(|_| {
            let steps: Vec<Step> = (0..rng.between(3, 8)).map(|_| Step::Act(rng.pick(&acts))).collect();
            let mut draft = Draft::plain(&[6], &steps);
            let times = rng.between(0, 8);
            mend(&mut rng, &mut draft, times, &|file| {
                check::summary(&walker::open(file).unwrap()).map(|stop| stop.record)
            });
            walker::open(&encode(&draft)).expect("a valid draft")
        })
        .collect();
    let right: Vec<_> = plans.iter().map(check::summary).collect();
    assert!(plans.iter().zip(&right).all(|(plan, right)| answer_of(&plan.to_bytes()) == *right));
    let wrong = |stepping| {
        let checker = Checker { stepping, ..Checker::default() };
        plans.iter().zip(&right).filter(|(plan, right)| checker.check(plan) != **right).count()
    };
    assert_eq!(wrong(Stepping::Exact), 0);
    for stepping in [Stepping::Each, Stepping::FromArray, Stepping::OnceMore, Stepping::FirstOnly] {
        let count = wrong(stepping);
        println!("{stepping:?}: differs on {count} of {}", plans.len());
        assert!(count > 0, "{stepping:?} never differs");
    }
}

/// A judge for which a stepped write fills its range differs, and the test says how
/// often.
#[test]
fn a_near_judge_differs() {
    let mut rng = Rng::new(421);
    let mut count = 0;
    for _ in 0..4000 {
        let mut draft = accepted_small(&mut rng);
        give_steps(&mut rng, &mut draft, 40, &[0, 1, 2, 3]);
        let plan = walker::open(&encode(&draft)).expect("a valid draft");
        let right = walker::judge::passes(&plan);
        assert_eq!(Judge::Right.passes(&plan), right, "{plan:?}");
        count += usize::from(Judge::StepNotSeen.passes(&plan) != right);
    }
    println!("differs on {count} of 4000");
    assert!(count > 0);
}
