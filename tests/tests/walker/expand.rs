//! The expander.

use super::*;

/// A call in a loop: RW gives need and mark, the arm grows to fit.
#[test]
fn expansion_by_hand() {
    let pass = Pass {
        declarations: vec![declare(18, 1, 0), declare(16, 0, 1), declare(17, 1, 2)],
        steps: vec![Step::Branch(vec![read(CARD, 0, 0, 1)], vec![]), write(CARD, 2, 0, 1)],
    };
    let script = [Step::Loop(vec![call(1), call(2)]), call(2)];
    let file = encode(&declared_draft(&[1, 1, 1], &script, &[pass, Pass::default()]));
    let steps = [Step::Loop(vec![
        need(CARD, 0),
        mark(CARD, 0),
        need(HOST, 1),
        mark(CARD, 2),
        Step::Branch(vec![read(CARD, 0, 0, 1)], vec![]),
        write(CARD, 2, 0, 1),
    ])];
    let expected = encode(&Draft::plain(&[1, 1, 1], &steps));
    let mut out = vec![0xA5; expected.len() + 9];
    assert_eq!(walker::expand(&file, &mut out), Verdict::Accepted);
    assert_eq!(out[..expected.len()], expected);
    assert_eq!(out[expected.len()..], [0xA5; 9]);
    // One byte short: 17, nothing written. Exact: accepted.
    let mut short = vec![0xA5; expected.len() - 1];
    assert_eq!(walker::expand(&file, &mut short), Verdict::Refused { number: 17, place: 0 });
    assert!(short.iter().all(|&byte| byte == 0xA5));
    assert_eq!(walker::expand(&file, &mut vec![0; expected.len()]), Verdict::Accepted);
}

#[test]
fn expansion_sizes() {
    let mut rng = Rng::new(32);
    for _ in 0..200 {
        for (target, expected) in [(1023, 0), (1024, 0), (1025, 16)] {
            let file = encode(&sized(&mut rng, target));
            let mut out = vec![7; 10_000];
            assert_eq!(walker::expand(&file, &mut out).numbers(), (expected, 0, 0));
            if expected == 0 {
                assert_eq!(u16::from_le_bytes([out[10], out[11]]) as usize, target);
            } else {
                assert!(out.iter().all(|&byte| byte == 7));
            }
        }
    }
    // More records than 16 bits can count.
    for calls in [64, 128, 511, 512] {
        let plan = plan_of(&overflowing(&mut rng, calls));
        let size = walker::expand::size(&plan, 0..plan.bodies[0].count);
        assert_eq!(walker::expand::expansion(&plan).records.len(), size);
        assert_eq!(
            walker::expand(&plan.to_bytes(), &mut [0; 10_000]),
            Verdict::Refused { number: 16, place: 0 }
        );
    }
    let plan = plan_of(&overflowing(&mut rng, 511));
    assert!(walker::expand::size(&plan, 0..plan.bodies[0].count) > 1 << 17);
}

/// Every expansion reopens as a plain plan, the check accepts it, and its
/// records are those of the expansion held as records.
#[test]
fn expansions_reopen_and_check() {
    let mut rng = Rng::new(33);
    let mut written = 0;
    for round in 0..6000 {
        let draft = match round % 10 {
            0 => {
                let target = rng.between(900, 1024);
                sized(&mut rng, target)
            }
            1 => deep_declared(&mut rng, 8),
            _ => accepted_small(&mut rng),
        };
        let plan = plan_of(&draft);
        let mut out = vec![0; 9000];
        match walker::expand(&encode(&draft), &mut out) {
            Verdict::Accepted => {}
            other => {
                assert_eq!(other, Verdict::Refused { number: 16, place: 0 });
                continue;
            }
        }
        let expansion = walker::expand::expansion(&plan);
        let file = expansion.to_bytes();
        assert_eq!(out[..file.len()], file);
        assert!(out[file.len()..].iter().all(|&byte| byte == 0));
        assert_eq!(walker::open(&file).as_ref(), Ok(&expansion));
        assert_eq!(walker::check(&file), Verdict::Accepted);
        written += 1;
    }
    assert!(written > 5000);
}
