//! Demand 3, clause by clause.

use super::*;
use cuplihang_tests::walker::demand::{calls_reached, demand_3, Breach};
use cuplihang_tests::walker::near::{Expander, Judge};

fn clause(breach: &Breach) -> &'static str {
    match breach {
        Breach::Stuck { .. } => "stuck",
        Breach::ReadGetsOther { .. } => "read",
        Breach::NowhereCurrent { .. } => "nowhere",
        Breach::OtherDeclarations => "declarations",
        Breach::Moves { .. } => "moves",
    }
}

/// A plan by hand: write on the card, read on the host twice, read on the card.
#[test]
fn demand_3_by_hand() {
    let on_card = Pass { declarations: vec![declare(17, 1, 0)], steps: vec![write(CARD, 0, 0, 1)] };
    let on_host = Pass { declarations: vec![declare(16, 0, 0)], steps: vec![read(HOST, 0, 0, 1)] };
    let again = Pass { declarations: vec![declare(18, 0, 0)], steps: vec![write(HOST, 0, 0, 1)] };
    let script = [call(1), Step::Loop(vec![call(2)]), call(3), call(2)];
    let plan = plan_of(&declared_draft(&[1], &script, &[on_card, on_host, again]));
    let expansion = walker::expand::expansion(&plan);
    for (choices, calls, moves) in [(&[0][..], 3, 1), (&[1, 1, 1, 0], 6, 1)] {
        assert_eq!(calls_reached(&plan, choices).len(), calls);
        let shown = demand_3(&plan, &expansion, choices).unwrap();
        assert!(shown.finished);
        // Three intervals: from the start, from the W, from the RW.
        assert_eq!((shown.passes, shown.moves, shown.intervals), (calls, moves, 3));
    }
    assert!(!demand_3(&plan, &expansion, &[1, 1]).unwrap().finished);
}

/// Accepted plans and random choices: every clause on every run.
#[test]
fn demand_3_clause_by_clause() {
    let mut rng = Rng::new(40);
    let (mut finished, mut moves, mut runs, mut reads) = (0, 0, 0, 0);
    for round in 0..6000 {
        let draft = match round % 20 {
            0 => deep_declared(&mut rng, 8),
            1 => {
                let target = rng.between(200, 2000);
                sized(&mut rng, target)
            }
            _ => accepted_small(&mut rng),
        };
        let plan = plan_of(&draft);
        if walker::judge(&encode(&draft)) != Verdict::Accepted {
            continue;
        }
        let expansion = walker::expand::expansion(&plan);
        for _ in 0..6 {
            let length = rng.between(0, 200);
            let more = rng.between(10, 60);
            let list = choices(&mut rng, length, more);
            let shown =
                demand_3(&plan, &expansion, &list).unwrap_or_else(|b| panic!("{b:?} {plan:?} {list:?}"));
            runs += 1;
            finished += usize::from(shown.finished);
            moves += shown.moves;
            reads += shown.reads;
        }
    }
    println!("runs {runs}, finished {finished}, moves {moves}, reads {reads}");
    assert!(runs > 30_000 && finished > 15_000 && moves > 20_000 && reads > 20_000);
}

/// "also where its size keeps it from a file", and lists of more than 65,536.
#[test]
fn demand_3_beyond_the_limits() {
    let mut rng = Rng::new(41);
    for calls in [300, 511] {
        let plan = plan_of(&overflowing(&mut rng, calls));
        let expansion = walker::expand::expansion(&plan);
        assert!(expansion.records.len() > 65_536);
        let shown = demand_3(&plan, &expansion, &[1, 1, 0]).unwrap();
        assert!(shown.finished);
        assert_eq!(shown.passes, 2 * calls);
    }
    let pass = Pass { declarations: vec![declare(18, 1, 0)], steps: vec![write(CARD, 0, 0, 1)] };
    let back = Pass { declarations: vec![declare(16, 0, 0)], steps: vec![] };
    let plan = plan_of(&declared_draft(&[1], &[Step::Loop(vec![call(1), call(2)])], &[pass, back]));
    let mut list = vec![1; MAX_CHOICES + 1000];
    list.push(0);
    let shown = demand_3(&plan, &walker::expand::expansion(&plan), &list).unwrap();
    assert!(shown.finished);
    // The first RW on the card moves in, then each turn moves to the host.
    assert_eq!(shown.moves, 1 + MAX_CHOICES + 1000);
}

/// A wrong expander breaks a clause on some accepted plan.
#[test]
fn near_expanders_break_demand_3() {
    let mut rng = Rng::new(42);
    let wrong = [
        Expander::InsertsNothing,
        Expander::MarkBeforeNeed,
        Expander::NeedOfRwMissing,
        Expander::ArmsNotGrown,
    ];
    let mut broken: BTreeMap<String, usize> = BTreeMap::new();
    for _ in 0..2000 {
        let draft = accepted_small(&mut rng);
        let plan = plan_of(&draft);
        if walker::expand::size(&plan, 0..plan.bodies[0].count) > 1024 {
            continue;
        }
        let list = choices(&mut rng, 60, 40);
        for expander in wrong {
            let expansion = expander.expansion(&plan);
            // Arms that do not fit are no plan at all.
            if expander == Expander::ArmsNotGrown && walker::open(&expansion.to_bytes()).is_err() {
                *broken.entry("ArmsNotGrown does not open".into()).or_default() += 1;
                continue;
            }
            let Err(breach) = demand_3(&plan, &expansion, &list) else { continue };
            *broken.entry(format!("{expander:?} {}", clause(&breach))).or_default() += 1;
        }
    }
    println!("{broken:?}");
    for expander in wrong {
        let name = format!("{expander:?}");
        assert!(broken.keys().any(|key| key.starts_with(&name)), "{name} is never caught");
    }
    // "An expander that inserts nothing: … its runs stop against demand 3."
    assert!(broken.contains_key("InsertsNothing stuck"));
}

/// "An expander that says 16 each time: the table's condition."
#[test]
fn an_expander_that_always_says_16_differs() {
    let file = encode(&declared_draft(&[1], &[], &[]));
    let plan = walker::open(&file).unwrap();
    assert_ne!(walker::expand(&file, &mut [0; 100]), Expander::always_16(&plan).into());
}

/// The demand itself can fail: a pass that the judge would refuse breaks it.
#[test]
fn demand_3_fails_where_the_judge_refuses() {
    let mut rng = Rng::new(43);
    let mut broken: BTreeMap<&str, usize> = BTreeMap::new();
    for _ in 0..4000 {
        let fault = rng.pick(&FAULTS);
        let shape = Shape::new(2, 4, 20, 3, 30);
        let arrays = lengths(&mut rng, shape.arrays, shape.cells);
        let mut passes: Vec<Pass> = (0..3).map(|_| pass(&mut rng, &arrays, 8, 2, 30)).collect();
        spoil(&mut rng, &arrays, &mut passes[0], fault);
        let script = script(&mut rng, 8, 2, 30, 3);
        let plan = plan_of(&declared_draft(&arrays, &script, &passes));
        let list = choices(&mut rng, 60, 40);
        match demand_3(&plan, &walker::expand::expansion(&plan), &list) {
            Ok(_) => {}
            Err(breach) => {
                assert!(Judge::Right.passes(&plan).is_err(), "{breach:?} {plan:?}");
                *broken.entry(clause(&breach)).or_default() += 1;
            }
        }
    }
    println!("{broken:?}");
    assert!(["stuck", "declarations", "moves"].iter().all(|clause| broken.contains_key(clause)));
}
