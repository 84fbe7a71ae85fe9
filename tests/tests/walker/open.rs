//! Opening: numbers 1 to 10 and 26, and the body view.

use super::*;
use cuplihang_tests::walker::{FileKind, Refusal};

/// "the whole output is the line `2 18 0 0`"
#[test]
fn case_3_byte_for_byte() {
    assert_eq!(encode(&one_cell(&[read(CARD, 0, 0, 1)])), CASE_3);
    let plan = walker::open(&CASE_3).unwrap();
    assert_eq!(plan.to_bytes(), CASE_3);
    assert_eq!(plan.kind, FileKind::Plain);
    assert_eq!(walker::check(&CASE_3).numbers(), (18, 0, 0));
}

/// The lines that `plancheck` prints.
#[test]
fn plancheck_by_hand() {
    use cuplihang_tests::walker::plancheck::line;
    assert_eq!(line(&CASE_3), "2 18 0 0\n");
    assert_eq!(line(&[]), "0 1 0 0\n");
    assert_eq!(line(&CASE_3[..19]), "0 6 0 0\n");
    let unmet = Pass { declarations: vec![declare(17, 1, 0)], steps: vec![] };
    assert_eq!(line(&encode(&declared_draft(&[1], &[call(1)], &[unmet]))), "1 15 1 0\n");
    assert_eq!(line(&encode(&declared_draft(&[1], &[], &[]))), "1 0 0 0\n");
    assert_eq!(line(&encode(&one_cell(&[]))), "2 0 0 0\n");
}

/// Each number where the table puts it, written out by hand.
#[test]
fn refusals_by_hand() {
    let refused = |file: &[u8]| walker::open(file).err().map(|r| (r.number, r.place));
    assert_eq!(refused(&[]), Some((1, 0)));
    assert_eq!(refused(&[2, 1, 1]), Some((1, 0)));
    assert_eq!(refused(&[2, 1, 1, 0]), Some((3, 0)));
    for header in [[0, 1, 1, 0], [3, 1, 1, 0], [2, 0, 1, 0], [2, 33, 1, 0], [2, 1, 2, 0], [1, 1, 33, 0]] {
        assert_eq!(refused(&header), Some((2, 0)));
    }
    assert_eq!(refused(&[1, 1, 0, 0]), Some((2, 0)));
    assert_eq!(refused(&[2, 1, 1, 1]), Some((2, 0)));
    assert_eq!(refused(&[2, 1, 1, 0, 0, 0, 0, 0, 0]), Some((3, 0)));
    // The contents end here: a zero length is 4, good contents are 6.
    assert_eq!(refused(&[2, 1, 1, 0, 0, 0, 0, 0, 0, 0]), Some((4, 0)));
    assert_eq!(refused(&[2, 1, 1, 0, 1, 0, 0, 0, 0, 0]), Some((6, 0)));
    // A total past 4,096 at array 1 comes before a zero length at array 2.
    assert_eq!(refused(&[2, 3, 1, 0, 0, 16, 1, 0, 0, 0, 0, 0, 0, 0]), Some((4, 1)));
    assert_eq!(refused(&[2, 2, 1, 0, 0, 16, 0, 0, 0, 0, 1, 0]), Some((4, 1)));
    // Body entries: fourth byte, declarations in body 0, too many, the total.
    assert_eq!(refused(&[2, 1, 1, 0, 1, 0, 0, 0, 0, 9]), Some((5, 0)));
    assert_eq!(refused(&[2, 1, 1, 0, 1, 0, 2, 0, 1, 0]), Some((5, 0)));
    assert_eq!(refused(&[1, 1, 2, 0, 1, 0, 0, 0, 0, 0, 1, 0, 2, 0]), Some((5, 1)));
    assert_eq!(refused(&[1, 1, 2, 0, 1, 0, 0, 4, 0, 0, 1, 0, 0, 0]), Some((5, 1)));
    assert_eq!(refused(&[1, 1, 2, 0, 1, 0, 0, 4, 0, 0, 0, 0, 0, 0]), Some((6, 0)));
    // An empty plan: sums of 02 01 01 00 01 00 00 00 00 00 are 5 and 2+2+3+5.
    assert_eq!(refused(&[2, 1, 1, 0, 1, 0, 0, 0, 0, 0, 5, 12]), None);
    assert_eq!(refused(&[2, 1, 1, 0, 1, 0, 0, 0, 0, 0, 5, 13]), Some((7, 0)));
    // The same remainder plus 251 does not fit.
    assert_eq!(refused(&[2, 1, 1, 0, 1, 0, 0, 0, 0, 0, 5 + 250, 12]), Some((7, 0)));
}

/// One record after a good one, each with its number.
#[test]
fn records_by_hand() {
    let number = |record: Raw| {
        let draft = Draft::plain(&[2, 3], &[read(HOST, 1, 0, 3), Step::Act(record)]);
        walker::open(&encode(&draft)).map_or_else(|r| (r.number, r.place), |_| (0, 0))
    };
    let refused = |n| (n, 1);
    assert_eq!(number(raw(1, 0, 1, 2, 3)), (0, 0));
    assert_eq!(number(raw(1, 0, 1, 2, 4)), refused(8));
    assert_eq!(number(raw(1, 0, 0, 2, 3)), refused(8));
    assert_eq!(number(raw(1, 0, 1, 2, 2)), refused(8));
    assert_eq!(number(raw(1, 2, 1, 0, 1)), refused(8));
    assert_eq!(number(raw(3, 1, 2, 0, 1)), refused(8));
    // "Byte 3 of kinds 1 to 3 becomes a step"; elsewhere it is zero.
    for step in [1, 2, 255] {
        for kind in 1..=3 {
            assert_eq!(number([kind, 0, 1, step, 0, 0, 1, 0]), (0, 0));
        }
        for kind in [4, 5, 16, 17, 18] {
            assert_eq!(number([kind, 0, 1, step, 0, 0, 0, 0]), refused(8));
        }
        for (kind, turns) in [(6, 0), (7, 0), (9, 1)] {
            assert_eq!(number([kind, 0, 0, step, 0, 0, turns, 0]), refused(8));
        }
    }
    assert_eq!(number(raw(4, 1, 1, 0, 0)), (0, 0));
    assert_eq!(number(raw(5, 1, 1, 0, 1)), refused(8));
    assert_eq!(number(raw(4, 1, 1, 1, 0)), refused(8));
    assert_eq!(number(raw(6, 0, 0, 0, 0)), (0, 0));
    assert_eq!(number(raw(6, 0, 0, 0, 1)), refused(10));
    assert_eq!(number(raw(6, 0, 0, 65535, 1)), refused(10));
    assert_eq!(number(raw(6, 1, 0, 0, 1)), refused(8));
    assert_eq!(number(raw(7, 0, 0, 0, 0)), (0, 0));
    assert_eq!(number(raw(7, 0, 0, 0, 1)), refused(8));
    assert_eq!(number(raw(7, 0, 0, 1, 0)), refused(10));
    // A call in a plain plan: "1 to the last" is empty.
    assert_eq!(number(raw(8, 0, 0, 0, 0)), refused(8));
    assert_eq!(number(raw(8, 0, 0, 1, 0)), refused(8));
    // A declaration in a plain plan: 8 with a bad field, else 9.
    assert_eq!(number(raw(16, 0, 1, 0, 0)), refused(9));
    assert_eq!(number(raw(16, 0, 2, 0, 0)), refused(8));
    for kind in [0, 10, 15, 19, 255] {
        assert_eq!(number([kind, 9, 9, 9, 9, 9, 9, 9]), refused(9));
    }
    // A fixed loop: "P records, Q turns from 1 to 4,096".
    assert_eq!(number(raw(9, 0, 0, 0, 1)), (0, 0));
    assert_eq!(number(raw(9, 0, 0, 0, 4096)), (0, 0));
    assert_eq!(number(raw(9, 0, 0, 0, 0)), refused(8));
    assert_eq!(number(raw(9, 0, 0, 0, 4097)), refused(8));
    assert_eq!(number(raw(9, 0, 0, 0, 65535)), refused(8));
    assert_eq!(number(raw(9, 1, 0, 0, 1)), refused(8));
    assert_eq!(number(raw(9, 0, 1, 0, 1)), refused(8));
    assert_eq!(number([9, 0, 0, 1, 0, 0, 1, 0]), refused(8));
    assert_eq!(number(raw(9, 0, 0, 1, 1)), refused(10));
    assert_eq!(number(raw(9, 0, 0, 65535, 4096)), refused(10));
    assert_eq!(number([9, 9, 9, 9, 9, 9, 9, 9]), refused(8));
}

/// 15 and 7 others at most, an arm never past its holder.
#[test]
fn nesting_by_hand() {
    let nested = |levels| (0..levels).fold(vec![], |inside, _| vec![Step::Loop(inside)]);
    let opened = |draft: &Draft| walker::open(&encode(draft)).map(|_| ());
    assert_eq!(opened(&one_cell(&nested(16))), Ok(()));
    assert_eq!(opened(&one_cell(&nested(17))), Err(Refusal { number: 10, place: 16 }));
    let declared = |a, b| declared_draft(&[1], &nested(a), &[Pass { steps: nested(b), ..Pass::default() }]);
    assert_eq!(opened(&declared(8, 8)), Ok(()));
    assert_eq!(opened(&declared(9, 8)), Err(Refusal { number: 10, place: 8 }));
    assert_eq!(opened(&declared(8, 9)), Err(Refusal { number: 10, place: 16 }));
    // The loop in the first arm reaches into the second.
    let mut reaching = one_cell(&[Step::Branch(vec![Step::Loop(vec![])], vec![need(HOST, 0)])]);
    assert_eq!(opened(&reaching), Ok(()));
    reaching.bodies[0].records[1] = raw(7, 0, 0, 1, 0);
    assert_eq!(opened(&reaching), Err(Refusal { number: 10, place: 1 }));
}

/// The generator's drafts open as what they are, and its damage hits.
#[test]
fn generated_files() {
    let mut rng = Rng::new(1);
    for _ in 0..3000 {
        let file = encode(&valid(&mut rng));
        let plan = walker::open(&file).expect("valid");
        assert_eq!(plan.to_bytes(), file);
    }
    for number in 1..=10 {
        let hits = (0..1000).filter(|_| {
            let file = breach(&mut rng, number);
            walker::open(&file).is_err_and(|r| r.number == number)
        });
        assert!(hits.count() > 500, "number {number} is missed too often");
    }
}

#[test]
fn body_views_by_hand() {
    let pass = Pass { declarations: vec![declare(16, 0, 0)], steps: vec![read(HOST, 0, 0, 1)] };
    let file = encode(&declared_draft(&[1], &[call(1)], &[pass, Pass::default()]));
    // 4 header bytes, 2 of the array, 3 times 4 of the bodies.
    assert_eq!(walker::body_view(&file, 0), Ok(18..26));
    assert_eq!(walker::body_view(&file, 1), Ok(26..42));
    assert_eq!(walker::body_view(&file, 2), Ok(42..42));
    assert_eq!(walker::body_view(&file, 3), Err(25));
    assert_eq!(walker::body_view(&file, u64::MAX), Err(25));
    assert_eq!(walker::body_view(&file[1..], 0), Err(2));
}
