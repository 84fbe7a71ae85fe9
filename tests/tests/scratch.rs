//! Scratch, request (f) of document 02: by hand, and the library against the walker.

use crate::check::{answer_of, match_brute, match_check, mended};
use crate::expand::{match_judge, match_rooms};
use crate::open::match_all;
use crate::run::{match_run, Lent};
use crate::written_out::WrittenOut;
use cuplihang_tests::archive;
use cuplihang_tests::generate::*;
use cuplihang_tests::walker::check::{self, Stop};
use cuplihang_tests::walker::demand::{demand_3, Breach};
use cuplihang_tests::walker::near::Checker;
use cuplihang_tests::walker::{self, Plan, Verdict};
use std::collections::BTreeMap;

const HOST: u8 = 0;
const CARD: u8 = 1;
const NEVER: u64 = u64::MAX;

type Counts = BTreeMap<u16, usize>;

fn plan_of(draft: &Draft) -> Plan {
    walker::open(&encode(draft)).expect("a valid draft")
}

fn assert_counted(counts: &Counts, numbers: &[u16], least: usize) {
    println!("{counts:?}");
    for number in numbers {
        assert!(counts.get(number).is_some_and(|&n| n >= least), "number {number} is too rare");
    }
}

/// "Number 4 reads the length without that bit."
#[test]
fn lengths_by_hand() {
    let number = |entries: &[u16]| {
        let file = encode(&Draft::plain(entries, &[]));
        let answer = archive::open(&file);
        let expected = walker::open(&file).map_or_else(|refusal| (refusal.number, refusal.place), |_| (0, 0));
        assert_eq!((answer.number, answer.place as usize), expected);
        expected
    };
    assert_eq!(number(&[SCRATCH]), (4, 0));
    assert_eq!(number(&[SCRATCH + 1]), (0, 0));
    assert_eq!(number(&[SCRATCH + 4096]), (0, 0));
    assert_eq!(number(&[SCRATCH + 4097]), (4, 0));
    assert_eq!(number(&[0xFFFF]), (4, 0));
    // Their total without the bits.
    assert_eq!(number(&[SCRATCH + 2048, 2048]), (0, 0));
    assert_eq!(number(&[2048, SCRATCH + 2049]), (4, 1));
    assert_eq!(number(&[SCRATCH + 2048, SCRATCH + 2048, SCRATCH + 1]), (4, 2));
    // P and Q go by it too: number 8.
    let read = |q| archive::open(&encode(&Draft::plain(&[SCRATCH + 4], &[read(HOST, 0, 0, q)]))).number;
    assert_eq!([read(4), read(5)], [0, 8]);
}

/// "both copies hold" never, "its flags are clear": the check, and a third decider.
#[test]
fn stops_by_hand() {
    let stop = |steps: &[Step]| {
        // The second array is scratch, its first cell is 3.
        let plan = plan_of(&Draft::plain(&[3, SCRATCH + 2], steps));
        let stop = check::summary(&plan);
        assert_eq!(stop, check::brute(&plan));
        assert_eq!(stop, Checker::default().check(&plan));
        assert_eq!(stop, answer_of(&plan.to_bytes()));
        stop.map(|stop| (stop.record, stop.cell))
    };
    let (fill, look) = (write(HOST, 1, 0, 2), read(CARD, 1, 0, 2));
    assert_eq!(stop(&[]), None);
    assert_eq!(stop(&[read(HOST, 0, 0, 3)]), None);
    assert_eq!(stop(&[read(HOST, 1, 0, 2)]), Some((0, 3)));
    assert_eq!(stop(&[read(HOST, 1, 1, 2)]), Some((0, 4)));
    assert_eq!(stop(&[copy(CARD, 1, 0, 2)]), Some((0, 3)));
    // A need with both flags clear copies from the other side.
    assert_eq!(stop(&[need(HOST, 1)]), Some((0, 3)));
    assert_eq!(stop(&[need(CARD, 1)]), Some((0, 3)));
    assert_eq!(stop(&[fill.clone(), need(HOST, 1)]), Some((1, 3)));
    assert_eq!(stop(&[fill.clone(), need(CARD, 1), look.clone()]), None);
    assert_eq!(stop(&[write(HOST, 1, 0, 1), need(CARD, 1), look.clone()]), Some((1, 4)));
    // And then sets both.
    assert_eq!(stop(&[fill.clone(), need(CARD, 1), fill.clone(), need(CARD, 1), look.clone()]), Some((4, 3)));
    assert_eq!(stop(&[mark(HOST, 1), fill.clone(), need(HOST, 1), need(CARD, 1), look]), None);
    // A first write that may be missing.
    let first = Step::Branch(vec![fill], vec![]);
    assert_eq!(stop(&[first, read(HOST, 1, 0, 2)]), Some((2, 3)));
}

/// The start in the memories, the flags and the counts at the end.
#[test]
fn a_run_by_hand() {
    let entries = [2, SCRATCH + 2, SCRATCH + 1, 1];
    let mut counts = Counts::new();
    let file = encode(&Draft::plain(&entries, &[]));
    let (answer, lent) = match_run(&file, &[], &Lent::beyond(&file, 0), &mut counts);
    assert_eq!(answer.number, 0);
    assert_eq!(lent.memories, [vec![0, 0, NEVER, NEVER, NEVER, 0], vec![NEVER; 6], vec![0; 6]]);
    assert_eq!(lent.end, [0, 0b1001, 0, 2, 0]);

    // A need with both flags clear sets both; a mark one.
    let steps = [write(CARD, 1, 0, 2), need(HOST, 1), mark(CARD, 2)];
    let file = encode(&Draft::plain(&entries, &steps));
    let (answer, lent) = match_run(&file, &[], &Lent::beyond(&file, 0), &mut counts);
    assert_eq!(answer.number, 0);
    assert_eq!(lent.memories[0], [0, 0, 1, 1, NEVER, 0]);
    assert_eq!(lent.end, [0, 0b1011, 0b0110, 3, 2]);
    assert_eq!(lent.tally, [0, 1, 2]);

    // Stopped at the first read, and what is left is the start.
    let file = encode(&Draft::plain(&entries, &[read(HOST, 2, 0, 1)]));
    let (answer, lent) = match_run(&file, &[], &Lent::beyond(&file, 0), &mut counts);
    assert_eq!((answer.number, answer.place, answer.cell), (21, 0, 4));
    assert_eq!(lent.memories[0], [0, 0, NEVER, NEVER, NEVER, 0]);
}

/// Opening and the body view.
#[test]
fn seeded_files() {
    let mut rng = Rng::new(500);
    let (mut counts, mut views) = (Counts::new(), Counts::new());
    for _ in 0..20_000 {
        match_all(&any_scratch_file(&mut rng), &mut counts, &mut views);
    }
    assert_counted(&counts, &[0, 4, 8], 100);
}

/// All plans of up to four records over one scratch cell, and of up to three over
/// scratch of two cells and beside an array that is filled.
#[test]
fn every_small_plan() {
    let mut counts = Counts::new();
    for (entries, records) in [(&[SCRATCH + 1][..], 4), (&[SCRATCH + 2][..], 3), (&[1, SCRATCH + 1][..], 3)] {
        for draft in every_scratch_plan(entries, records) {
            match_brute(&draft, &mut counts);
        }
    }
    assert_counted(&counts, &[0, 18], 10_000);
}

/// The lowest stop of the plan in which each turn and each cell is written out.
fn by_writing_out(plan: &Plan) -> Option<Stop> {
    let turns = WrittenOut::turns(plan);
    let cells = WrittenOut::cells(&turns.plan);
    let stops = Checker::default().stops(&cells.plan);
    stops.into_iter().map(|stop| Stop { record: turns.was[cells.was[stop.record]], ..stop }).min()
}

/// Plans of many shapes, mended so that they get far: the check.
#[test]
fn seeded_checks() {
    let mut rng = Rng::new(501);
    let mut counts = Counts::new();
    for round in 0..15_000 {
        let mut draft = match round % 5 {
            0 => small_scratch(&mut rng),
            1 => small_mixed(&mut rng),
            2 => turning(&mut rng),
            3 => many_classes(&mut rng),
            _ => {
                let shape = Shape::medium(&mut rng);
                plain(&mut rng, &shape)
            }
        };
        give_scratch(&mut rng, &mut draft, 40);
        let file = encode(&mended(&mut rng, draft, 40));
        match_check(&file, &mut counts);
        if round % 5 < 2 {
            let plan = walker::open(&file).unwrap();
            let stop = check::brute(&plan);
            assert_eq!(check::summary(&plan), stop, "{plan:?}");
            assert_eq!(Checker::default().check(&plan), stop, "{plan:?}");
            assert_eq!(by_writing_out(&plan), stop, "{plan:?}");
        }
        match_check(&any_scratch_file(&mut rng), &mut counts);
    }
    assert_counted(&counts, &[0, 4, 8, 11, 18], 100);
}

/// Checkers that take scratch for filled, or for flagged on the host, differ.
#[test]
fn near_checkers_differ() {
    let mut rng = Rng::new(502);
    let plans: Vec<Plan> = (0..2000).map(|_| plan_of(&small_scratch(&mut rng))).collect();
    let ours: Vec<Option<Stop>> = plans.iter().map(|plan| answer_of(&plan.to_bytes())).collect();
    let none = Checker::default();
    for wrong in [
        Checker { scratch_current: true, scratch_flagged: true, ..none },
        Checker { scratch_current: true, ..none },
        Checker { scratch_flagged: true, ..none },
    ] {
        let differs = plans.iter().zip(&ours).filter(|(plan, ours)| wrong.check(plan) != **ours).count();
        println!("{wrong:?}: differs on {differs}");
        assert!(differs > 0, "{wrong:?} never differs");
    }
}

/// Runs: the answer and all that was lent.
#[test]
fn seeded_runs() {
    let mut rng = Rng::new(503);
    let mut counts = Counts::new();
    for round in 0..12_000 {
        let mut draft = match round % 4 {
            0 => turning(&mut rng),
            1 => small_scratch(&mut rng),
            2 => small_mixed(&mut rng),
            _ => {
                let shape = Shape::any(&mut rng);
                plain(&mut rng, &shape)
            }
        };
        give_scratch(&mut rng, &mut draft, 40);
        let file = encode(&mended(&mut rng, draft, 30));
        let length = rng.between(0, 60);
        let list = choices(&mut rng, length, 40);
        let lent = Lent::beyond(&file, rng.pick(&[0, 1, 7]));
        match_run(&file, &list, &lent, &mut counts);
    }
    assert_counted(&counts, &[0, 21, 22], 100);
}

/// All runs of all plans of up to two records over scratch.
#[test]
fn every_run_of_every_small_plan() {
    let mut counts = Counts::new();
    for entries in [&[SCRATCH + 2][..], &[SCRATCH + 1, 1]] {
        for draft in (0..=2).flat_map(|records| every_scratch_plan(entries, records)) {
            let file = encode(&draft);
            for list in (0..=3).flat_map(every_choices) {
                match_run(&file, &list, &Lent::beyond(&file, 1), &mut counts);
            }
        }
    }
    assert_counted(&counts, &[0, 21, 22], 100);
}

/// The judge does not ask who has filled an array; the expansion keeps the bit.
#[test]
fn seeded_expansions() {
    let mut rng = Rng::new(504);
    let (mut judged, mut expanded, mut written) = (Counts::new(), Counts::new(), 0);
    for _ in 0..4000 {
        let draft = accepted_scratch(&mut rng, 50);
        let file = encode(&draft);
        match_judge(&file, &mut judged);
        let filled = encode(&Draft { arrays: draft.lengths(), ..draft.clone() });
        assert_eq!(walker::judge(&file), walker::judge(&filled));
        if let Some(expansion) = match_rooms(&file, &mut expanded) {
            assert_eq!(expansion[1..2], file[1..2]);
            let entries = 4..4 + 2 * draft.arrays.len();
            assert_eq!(expansion[entries.clone()], file[entries]);
            written += 1;
        }
    }
    assert!(written > 1000);
    assert_counted(&judged, &[0], 1000);
}

/// "Today a pass may read a scratch grid before its first write.": the judge accepts
/// the plan, the check refuses its expansion; with a pass that fills the grid first
/// both accept it.
#[test]
fn found_by_the_check_of_the_expansion() {
    let fill = Pass { declarations: vec![declare(17, 1, 0)], steps: vec![write(CARD, 0, 0, 2)] };
    let look = Pass { declarations: vec![declare(16, 0, 0)], steps: vec![read(HOST, 0, 0, 2)] };
    let answers = |script: &[Step], entry: u16| {
        let file = encode(&declared_draft(&[entry], script, &[fill.clone(), look.clone()]));
        assert_eq!(archive::judge(&file).number, 0);
        let expansion = match_rooms(&file, &mut Counts::new()).expect("an expansion");
        let plan = walker::open(&file).unwrap();
        let shown = demand_3(&plan, &walker::expand::expansion(&plan), &[0]).unwrap();
        (archive::check(&expansion).number, shown.stopped)
    };
    assert_eq!(answers(&[call(2), call(1)], SCRATCH + 2), (18, true));
    assert_eq!(answers(&[call(1), call(2)], SCRATCH + 2), (0, false));
    assert_eq!(answers(&[call(2), call(1)], 2), (0, false));
    // Filled on one way only: this run passes by it, another does not.
    assert_eq!(answers(&[Step::Branch(vec![call(2)], vec![call(1)]), call(2)], SCRATCH + 2), (18, false));
}

/// Demand 3 with scratch, clause by clause; where the expansion passes the check no
/// run stops, and the library's runs of the written file agree.
#[test]
fn demand_3_clause_by_clause() {
    let mut rng = Rng::new(505);
    let (mut stopped, mut finished, mut free, mut moves) = (0, 0, 0, 0);
    for round in 0..6000 {
        let mut plan = plan_of(&accepted_scratch(&mut rng, [20, 50, 100][round % 3]));
        if round % 4 == 0 {
            plan = WrittenOut::layers(&plan).plan;
        }
        if walker::judge(&plan.to_bytes()) != Verdict::Accepted {
            continue;
        }
        let expansion = walker::expand::expansion(&plan);
        let passes = check::summary(&expansion).is_none();
        for _ in 0..4 {
            let length = rng.between(0, 120);
            let list = choices(&mut rng, length, 40);
            let shown =
                demand_3(&plan, &expansion, &list).unwrap_or_else(|b| panic!("{b:?} {plan:?} {list:?}"));
            assert!(!(passes && shown.stopped));
            stopped += usize::from(shown.stopped);
            finished += usize::from(shown.finished);
            free += usize::from(shown.finished && plan.has_scratch());
            moves += shown.moves;
        }
    }
    println!("stopped {stopped}, finished {finished}, with scratch {free}, moves {moves}");
    assert!(stopped > 1000 && finished > 2000 && free > 1000 && moves > 2000);
}

/// Its clauses can fail: an expansion whose arrays are filled moves them before the
/// first mark.
#[test]
fn demand_3_fails_on_another_plan() {
    let mut rng = Rng::new(506);
    let mut broken = 0;
    for _ in 0..2000 {
        let draft = accepted_scratch(&mut rng, 100);
        let plan = plan_of(&draft);
        let filled = plan_of(&Draft { arrays: draft.lengths(), ..draft });
        let expansion = walker::expand::expansion(&filled);
        let list = choices(&mut rng, 60, 40);
        broken += usize::from(matches!(demand_3(&plan, &expansion, &list), Err(Breach::Moves { .. })));
    }
    assert!(broken > 0);
}
