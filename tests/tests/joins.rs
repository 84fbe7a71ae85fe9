//! The check sums of a front and a back: the library's against the walker's and
//! against the sums of the whole, for every cut.

use crate::sums::random;
use cuplihang_tests::archive::{back_sums, joined_sums, packed};
use cuplihang_tests::generate::*;
use cuplihang_tests::plain_sums::{BAND, ROW, STRETCH};
use cuplihang_tests::walker;

/// The back first, then the front.
fn back_first(bytes: &[u8], cut: usize) -> [u8; 2] {
    let (front, back) = bytes.split_at(cut);
    let sums = back_sums(back);
    assert_eq!(walker::joined(front, sums), walker::sums(bytes), "cut at {cut} of {}", bytes.len());
    joined_sums(front, packed(sums))
}

/// Small files of all shapes, plain and declared in turn.
fn files(rng: &mut Rng, count: usize) -> Vec<Vec<u8>> {
    let mut file = |n| {
        let shape = Shape::small(rng);
        encode(&if n % 2 == 0 { plain(rng, &shape) } else { accepted_small(rng) })
    };
    (0..count).map(&mut file).collect()
}

/// "For every cut of a file into a front and a back, both orders give the same
/// two bytes": those of the file.
#[test]
fn every_cut_of_files() {
    let mut rng = Rng::new(301);
    for file in files(&mut rng, 600) {
        let (bytes, check) = file.split_at(file.len() - 2);
        for cut in 0..=bytes.len() {
            assert_eq!(back_first(bytes, cut), check, "cut at {cut} of {file:?}");
        }
    }
}

#[test]
fn random_cuts_of_large_files() {
    let mut rng = Rng::new(302);
    let large = [encode(&whole_arrays(128)), encode(&deep_loops(16, 1024)), encode(&all_told_apart())];
    for file in large {
        let (bytes, check) = file.split_at(file.len() - 2);
        for _ in 0..300 {
            assert_eq!(back_first(bytes, rng.below(bytes.len() + 1)), check);
        }
    }
}

/// One byte before each boundary of the front or of the back, at it and after it.
#[test]
fn cuts_around_boundaries() {
    let mut rng = Rng::new(303);
    let bytes = random(&mut rng, 2 * STRETCH + BAND + ROW + 5);
    let whole = back_sums(&bytes);
    for (step, count) in [(ROW, 50), (BAND, 129), (STRETCH, 2)] {
        for cut in (0..=count).flat_map(|n| [n * step, n * step + 1, (n * step).max(1) - 1]) {
            assert_eq!(back_first(&bytes, cut), whole);
            assert_eq!(back_first(&bytes, bytes.len() - cut), whole);
        }
    }
}

#[test]
fn random_cuts_of_a_mebibyte() {
    let mut rng = Rng::new(304);
    let bytes = random(&mut rng, 1 << 20);
    let whole = walker::sums(&bytes);
    for _ in 0..20 {
        assert_eq!(back_first(&bytes, rng.below(bytes.len() + 1)), whole);
    }
}

/// Three parts, two by two in either order.
#[test]
fn three_parts() {
    let mut rng = Rng::new(305);
    for _ in 0..2000 {
        let length = rng.below(3 * BAND);
        let bytes = random(&mut rng, length);
        let second = rng.below(length + 1);
        let first = rng.below(second + 1);
        let (front, middle, back) = (&bytes[..first], &bytes[first..second], &bytes[second..]);
        let sums = packed(back_sums(back));
        let behind = joined_sums(middle, sums);
        assert_eq!(joined_sums(front, packed(behind)), joined_sums(&bytes[..second], sums));
        assert_eq!(joined_sums(front, packed(behind)), walker::sums(&bytes));
    }
}

/// A number of any value may be lent: each field counts modulo 251, and bits
/// from 32 on for nothing.
#[test]
fn any_number() {
    let mut rng = Rng::new(306);
    let edges = [0, 1, 250, 251, 252, 255, 256, 501, 502, 65_534, 65_535];
    let mut numbers: Vec<u64> =
        edges.iter().flat_map(|&plain| edges.map(|weighted| plain | weighted << 16)).collect();
    numbers.extend((0..2000).map(|_| rng.draw()));
    numbers.extend([u64::MAX, 1 << 32, 1 << 63]);
    for number in numbers {
        let length = rng.pick(&[0, 1, 31, 32, 33, 127, 128, 129, 250, 251, 252, 700, 8388]);
        let front = random(&mut rng, length);
        let lent = [number as u16 % 251, (number >> 16) as u16 % 251].map(|field| field as u8);
        let expected = walker::joined(&front, lent);
        assert_eq!(joined_sums(&front, number), expected, "{number:#x} behind {length} bytes");
        assert_eq!(joined_sums(&front, number ^ 0xABCD_EF01 << 32), expected);
    }
}
