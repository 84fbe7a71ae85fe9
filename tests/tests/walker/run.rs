//! The run and the memory view.

use super::*;
use cuplihang_tests::walker::demand::demand_3;
use cuplihang_tests::walker::near::Runner;
use cuplihang_tests::walker::run::{Done, NEVER};

#[test]
fn run_refusals_change_nothing() {
    let file = encode(&Draft::plain(&[2, 3], &[write(CARD, 1, 0, 3)]));
    let refused = |number| RunEnd::Refused { number, place: 0 };
    let unchanged = |file: &[u8], lent: Lent, choices: &[u8], number| {
        let (end, after) = lent.clone().run_file(file, choices);
        assert_eq!(end, refused(number));
        assert_eq!(after, lent);
    };
    unchanged(&[2, 1], Lent::new(5), &[], 1);
    unchanged(&encode(&declared_draft(&[1], &[], &[])), Lent::new(5), &[], 11);
    for memory in 0..3 {
        let mut lent = Lent::new(5);
        [&mut lent.host, &mut lent.card, &mut lent.latest][memory].truncate(4);
        unchanged(&file, lent.clone(), &[], 19);
        // 19 comes before 20.
        unchanged(&file, lent, &vec![0; MAX_CHOICES + 1], 19);
    }
    unchanged(&file, Lent::new(5), &vec![0; MAX_CHOICES + 1], 20);
    let (end, _) = Lent::new(5).run_file(&file, &vec![0; MAX_CHOICES]);
    assert!(matches!(end, RunEnd::Done(_)));
}

/// Two arrays; the state just before the named record at 21 and 22.
#[test]
fn run_by_hand() {
    let steps = [
        write(CARD, 0, 0, 1),
        need(CARD, 1),
        Step::Loop(vec![write(HOST, 1, 1, 3), copy(CARD, 1, 0, 3)]),
        read(CARD, 0, 0, 2),
    ];
    let plan = plan_of(&Draft::plain(&[2, 3], &steps));
    let start = Lent::new(7);
    let behind = |memory: &[u64], old: &[u64]| memory[5..] == old[5..];
    // No choice: the loop's test is record 2.
    let (end, lent) = start.clone().run(&plan, &[]);
    assert_eq!(end, RunEnd::Spent { record: 2 });
    assert_eq!(lent.host[..5], [0, 0, 0, 0, 0]);
    assert_eq!(lent.card[..5], [1, NEVER, 0, 0, 0]);
    assert_eq!(lent.latest[..5], [1, 0, 0, 0, 0]);
    assert_eq!(lent.tally, Tally { reads: 0, writes: 1, moved: 3 });
    assert!(behind(&lent.host, &start.host) && behind(&lent.card, &start.card));
    // Two turns, then the read stops at cell 1: "never" is not current.
    let (end, lent) = start.clone().run(&plan, &[1, 7, 0]);
    assert_eq!(end, RunEnd::Stopped { record: 5, cell: 1 });
    assert_eq!(lent.host[..5], [0, 0, 0, 3, 3]);
    assert_eq!(lent.card[..5], [1, NEVER, 0, 3, 3]);
    assert_eq!(lent.latest[..5], [1, 0, 0, 3, 3]);
    assert_eq!(lent.tally, Tally { reads: 0, writes: 3, moved: 9 });
    assert!(behind(&lent.latest, &start.latest));
}

#[test]
fn run_to_the_end_by_hand() {
    let steps = [need(CARD, 1), mark(CARD, 2), read(CARD, 1, 0, 1), Step::Branch(vec![], vec![])];
    let plan = plan_of(&Draft::plain(&[1, 1, 1], &steps));
    let (end, lent) = Lent::new(3).run(&plan, &[0, 1, 1]);
    let done = Done { choices_used: 1, flags: [0b011, 0b110], arrays_current: [2, 2] };
    assert_eq!(end, RunEnd::Done(done));
    assert_eq!(lent.tally, Tally { reads: 1, writes: 0, moved: 1 });
    // A copy whose other side is stale in its second cell moves no cell.
    let plan =
        plan_of(&Draft::plain(&[2], &[copy(CARD, 0, 0, 1), write(CARD, 0, 0, 1), copy(HOST, 0, 0, 2)]));
    let (end, lent) = Lent::new(2).run(&plan, &[]);
    assert_eq!(end, RunEnd::Stopped { record: 2, cell: 1 });
    assert_eq!(lent.host, [0, 0]);
    assert_eq!(lent.tally, Tally { reads: 0, writes: 1, moved: 1 });
    // All 32 flags.
    let plan = plan_of(&Draft::plain(&[1; 32], &[need(CARD, 31)]));
    let done = Done { choices_used: 0, flags: [u32::MAX, 1 << 31], arrays_current: [32, 1] };
    assert_eq!(Lent::new(32).run(&plan, &[]).0, RunEnd::Done(done));
}

/// Runs of accepted plans never answer 21; the runner's tally is demand 3's.
#[test]
fn runs_of_expansions() {
    let mut rng = Rng::new(50);
    let mut ends = [0, 0];
    for _ in 0..3000 {
        let plan = plan_of(&accepted_small(&mut rng));
        let expansion = walker::expand::expansion(&plan);
        let length = rng.between(0, 60);
        let list = choices(&mut rng, length, 40);
        let (end, lent) = Lent::new(expansion.cells() + 3).run(&expansion, &list);
        let shown = demand_3(&plan, &expansion, &list).unwrap();
        assert!(!matches!(end, RunEnd::Stopped { .. }));
        assert_eq!(matches!(end, RunEnd::Done(_)), shown.finished);
        let tally = [shown.reads, shown.writes, shown.moved_cells].map(|n| n as u64);
        assert_eq!([lent.tally.reads, lent.tally.writes, lent.tally.moved], tally);
        ends[usize::from(shown.finished)] += 1;
    }
    assert!(ends[0] > 100 && ends[1] > 100);
}

#[test]
fn each_near_runner_differs() {
    let mut rng = Rng::new(51);
    let mut differs: BTreeMap<String, usize> = BTreeMap::new();
    for _ in 0..3000 {
        let shape = Shape::small(&mut rng);
        let plan = plan_of(&plain(&mut rng, &shape));
        let length = rng.between(0, 6);
        let list = choices(&mut rng, length, 40);
        let right = Lent::new(plan.cells()).run(&plan, &list);
        for runner in Runner::ALL {
            let mut lent = Lent::new(plan.cells());
            let sides = [&mut lent.host[..], &mut lent.card[..]];
            let mut memories = Memories { sides, latest: &mut lent.latest };
            let end = runner.run(&plan, &mut memories, &list, &mut lent.tally);
            *differs.entry(format!("{runner:?}")).or_default() += usize::from((end, lent) != right);
        }
    }
    println!("{differs:?}");
    assert_eq!(differs.len(), Runner::ALL.len());
    assert!(differs.values().all(|&count| count > 0));
}

#[test]
fn memory_views_by_hand() {
    let (host, card, latest) = ([1, 2, 3, 4], [9, 2, 3, 9, 9], [1, 2, 3, 5, 9]);
    let view = |first, end| walker::memory_view(&host, &card, &latest, first, end);
    assert_eq!(view(0, 3), Ok(0));
    assert_eq!(view(1, 3), Ok(0));
    assert_eq!(view(0, 4), Err(24));
    assert_eq!(view(3, 4), Err(24));
    assert_eq!(view(2, 2), Err(23));
    assert_eq!(view(3, 1), Err(23));
    assert_eq!(view(4, 5), Err(23));
    assert_eq!(view(0, u64::MAX), Err(23));
    assert_eq!(walker::memory_view(&[0, 0], &[7, 8], &[7, 8], 0, 2), Ok(1));
    assert_eq!(walker::memory_view(&[7, 0], &[0, 8], &[7, 8], 0, 2), Err(24));
    assert_eq!(walker::memory_view(&[], &[], &[], 0, 0), Err(23));
}
