//! Opening and body view of the library against the walker.

use cuplihang_tests::archive;
use cuplihang_tests::generate::{self, Draft, Pass, Rng, Step, CASE_3};
use cuplihang_tests::walker;
use std::collections::BTreeMap;

/// How often each number occurred, 0 for accepted.
type Counts = BTreeMap<u16, usize>;

fn match_open(file: &[u8], counts: &mut Counts) {
    let ours = archive::open(file);
    let expected = match walker::open(file) {
        Ok(plan) => archive::Answer { number: 0, place: 0, cell: 0, kind: plan.kind.number() },
        Err(refusal) => {
            archive::Answer { number: refusal.number, place: refusal.place as u16, cell: 0, kind: 0 }
        }
    };
    assert_eq!(ours, expected, "open of {} bytes: {}", file.len(), hex(file));
    *counts.entry(expected.number).or_default() += 1;
}

fn match_view(file: &[u8], body: u64, counts: &mut Counts) {
    let expected = walker::body_view(file, body);
    assert_eq!(archive::body_view(file, body), expected, "body {body} of {}", hex(file));
    *counts.entry(expected.err().unwrap_or(0)).or_default() += 1;
}

fn hex(file: &[u8]) -> String {
    file.iter().take(400).map(|byte| format!("{byte:02X} ")).collect()
}

pub fn match_all(file: &[u8], counts: &mut Counts, views: &mut Counts) {
    match_open(file, counts);
    let bodies = file.get(2).map_or(0, |&n| u64::from(n));
    for body in [0, 1, bodies.saturating_sub(1), bodies, bodies + 1] {
        match_view(file, body, views);
    }
}

/// Files with fixed loops, products past 4,096 among them.
#[test]
fn seeded_fixed_loops() {
    let mut rng = Rng::new(8);
    let (mut counts, mut views) = (Counts::new(), Counts::new());
    for _ in 0..20_000 {
        match_all(&generate::any_fixed_file(&mut rng), &mut counts, &mut views);
    }
    println!("open: {counts:?}");
    println!("body view: {views:?}");
    for number in [0, 8, 9, 10, 26] {
        assert!(counts.get(&number).is_some_and(|&n| n >= 100), "open: number {number} is too rare");
        assert!(views.get(&number).is_some_and(|&n| n >= 100), "view: number {number} is too rare");
    }
}

/// Steps, in their places and elsewhere.
#[test]
fn seeded_steps() {
    let mut rng = Rng::new(9);
    let (mut counts, mut views) = (Counts::new(), Counts::new());
    for _ in 0..10_000 {
        match_all(&generate::any_stepped_file(&mut rng), &mut counts, &mut views);
    }
    println!("open: {counts:?}");
    assert!([0, 8].iter().all(|number| counts.get(number).is_some_and(|&n| n >= 500)));
}

#[test]
fn seeded_files() {
    let mut rng = Rng::new(3);
    let (mut counts, mut views) = (Counts::new(), Counts::new());
    for _ in 0..40_000 {
        match_all(&generate::any_file(&mut rng), &mut counts, &mut views);
    }
    println!("open: {counts:?}");
    println!("body view: {views:?}");
    for number in 0..=10 {
        assert!(counts.get(&number).is_some_and(|&n| n >= 100), "open: number {number} is too rare");
        assert!(views.get(&number).is_some_and(|&n| n >= 100), "view: number {number} is too rare");
    }
    assert!(views[&25] >= 1000);
}

/// Each number at several places.
#[test]
fn places() {
    let mut rng = Rng::new(4);
    let mut places: BTreeMap<(u16, usize), usize> = BTreeMap::new();
    for number in 4..=10 {
        for _ in 0..1500 {
            let file = generate::breach(&mut rng, number);
            match_open(&file, &mut Counts::new());
            if let Err(refusal) = walker::open(&file) {
                *places.entry((refusal.number, refusal.place)).or_default() += 1;
            }
        }
    }
    for number in [4, 5, 8, 9, 10] {
        let different = places.keys().filter(|(n, _)| *n == number).count();
        assert!(different >= 10, "number {number} at {different} places only");
    }
}

/// Case 3 byte for byte opens as a plain plan.
#[test]
fn case_3() {
    let mut counts = Counts::new();
    match_open(&CASE_3, &mut counts);
    assert_eq!(counts, Counts::from([(0, 1)]));
}

/// Every edit of one byte of a few small files, repaired or not.
#[test]
fn every_edit() {
    let nested =
        [Step::Branch(vec![Step::Loop(vec![generate::read(0, 1, 1, 2)])], vec![generate::need(1, 0)])];
    let pass = Pass {
        declarations: vec![generate::declare(18, 1, 1), generate::declare(17, 0, 0)],
        steps: vec![generate::write(0, 0, 0, 1), Step::Loop(vec![generate::read(1, 1, 0, 2)])],
    };
    let script = [Step::Loop(vec![generate::call(2)]), generate::call(1)];
    let files = [
        CASE_3.to_vec(),
        generate::encode(&Draft::plain(&[1, 2], &nested)),
        generate::encode(&generate::declared_draft(&[1, 2], &script, &[pass, Pass::default()])),
    ];
    let (mut counts, mut views) = (Counts::new(), Counts::new());
    for file in files {
        for at in 0..file.len() {
            for byte in 0..=255 {
                let mut edited = file.clone();
                edited[at] = byte;
                match_open(&edited, &mut counts);
                generate::repair(&mut edited);
                match_all(&edited, &mut counts, &mut views);
            }
        }
    }
    for number in 2..=10 {
        assert!(counts.contains_key(&number), "number {number} does not occur");
    }
}

/// Every beginning of a file, and every file with more behind it.
#[test]
fn lengths() {
    let mut rng = Rng::new(5);
    let mut counts = Counts::new();
    for _ in 0..40 {
        let shape = generate::declared_shape(&mut rng);
        let shape = generate::Shape { records: shape.records.min(40), ..shape };
        let file = generate::encode(&generate::accepted(&mut rng, &shape, 3));
        for end in 0..file.len() {
            match_open(&file[..end], &mut counts);
            let mut short = file[..end].to_vec();
            generate::repair(&mut short);
            match_open(&short, &mut counts);
        }
        for more in 1..20 {
            let mut long = file.clone();
            long.resize(file.len() + more, 0);
            match_open(&long, &mut counts);
        }
    }
    match_open(&[], &mut counts);
    for number in [1, 3, 6] {
        assert!(counts.contains_key(&number), "number {number} does not occur");
    }
}

#[test]
fn a_hundred_thousand_random_bytes() {
    let mut rng = Rng::new(6);
    let mut counts = Counts::new();
    for _ in 0..20 {
        let mut file: Vec<u8> = (0..100_000).map(|_| rng.draw() as u8).collect();
        match_open(&file, &mut counts);
        file[..12].copy_from_slice(&[2, 1, 1, 0, 1, 0, 1, 0, 0, 0, 1, 0]);
        match_open(&file, &mut counts);
    }
    assert!(counts.contains_key(&2) && counts.contains_key(&6));
}

/// A view is the caller's own bytes; body numbers far beyond the last are 25.
#[test]
fn views() {
    let mut rng = Rng::new(7);
    let mut counts = Counts::new();
    for _ in 0..500 {
        let file = generate::encode(&generate::valid(&mut rng));
        for body in (0..34).chain([255, 256, 1 << 16, 1 << 32, u64::MAX]) {
            match_view(&file, body, &mut counts);
        }
    }
    assert!(counts[&0] > 500 && counts[&25] > 500);
}
