//! The library's check sums against the walker's, which take a remainder after
//! each byte. Lengths of any size, and around the places where the library
//! ends a row, a band or a stretch.

use cuplihang_tests::archive::back_sums;
use cuplihang_tests::generate::*;
use cuplihang_tests::plain_sums::{self, BAND, ROW, STRETCH};
use cuplihang_tests::walker;

pub fn random(rng: &mut Rng, length: usize) -> Vec<u8> {
    (0..length).map(|_| rng.draw() as u8).collect()
}

fn matched(bytes: &[u8]) {
    assert_eq!(back_sums(bytes), walker::sums(bytes), "{} bytes", bytes.len());
}

/// Bytes at random, all 0, all 255, and those that come to sums just below and
/// above a multiple of 251.
fn contents(rng: &mut Rng, length: usize) -> Vec<Vec<u8>> {
    let mut list = vec![random(rng, length)];
    list.extend([0, 1, 250, 251, 255].map(|byte| vec![byte; length]));
    list
}

#[test]
fn every_length() {
    let mut rng = Rng::new(201);
    for bytes in contents(&mut rng, 4000) {
        for length in 0..=bytes.len() {
            matched(&bytes[..length]);
        }
    }
}

#[test]
fn every_start() {
    let mut rng = Rng::new(202);
    let bytes = random(&mut rng, 3 * BAND);
    for start in 0..=bytes.len() {
        matched(&bytes[start..]);
    }
}

/// One byte before each boundary, at it and after it.
#[test]
fn around_boundaries() {
    let mut rng = Rng::new(203);
    let steps = [(ROW, 300), (BAND, 140), (STRETCH, 4)];
    for bytes in contents(&mut rng, 4 * STRETCH + 1) {
        for (step, count) in steps {
            for end in (1..=count).map(|n| n * step) {
                for length in [end - 1, end, end + 1] {
                    matched(&bytes[..length]);
                    // The same bytes with other rows, bands and stretches.
                    matched(&bytes[bytes.len() - length..]);
                }
            }
        }
    }
}

/// A single byte that is not 0 gives its own number.
#[test]
fn one_byte() {
    for length in [1, ROW, ROW + 1, BAND - 1, BAND, 2 * BAND + 1, STRETCH, STRETCH + ROW + 3] {
        let mut bytes = vec![0; length];
        for at in (0..length).step_by(1 + length / 500) {
            for byte in [1, 2, 250, 251, 255u8] {
                bytes[at] = byte;
                let weighted = (at as u64 + 1) * u64::from(byte) % 251;
                assert_eq!(back_sums(&bytes), [byte % 251, weighted as u8], "{byte} at {at} of {length}");
            }
            bytes[at] = 0;
        }
    }
}

#[test]
fn some_mebibytes() {
    let mut rng = Rng::new(204);
    for bytes in contents(&mut rng, 3 << 20) {
        matched(&bytes);
        matched(&bytes[..bytes.len() - 13]);
    }
}

#[test]
fn check_bytes_of_files() {
    let mut rng = Rng::new(205);
    for _ in 0..500 {
        let shape = Shape::small(&mut rng);
        let file = encode(&plain(&mut rng, &shape));
        let (bytes, check) = file.split_at(file.len() - 2);
        assert_eq!(back_sums(bytes), check);
    }
    for file in [encode(&whole_arrays(128)), encode(&deep_loops(16, 1024))] {
        let (bytes, check) = file.split_at(file.len() - 2);
        assert_eq!(back_sums(bytes), check);
    }
}

/// What the benchmark compares gives the same sums, and so does the walker
/// where it opens a file.
#[test]
fn plain_forms() {
    let mut rng = Rng::new(206);
    for bytes in contents(&mut rng, 2 * STRETCH + 77) {
        for length in (0..bytes.len()).step_by(997).chain([bytes.len()]) {
            let expected = walker::sums(&bytes[..length]);
            assert_eq!(walker::plan::check_bytes(&bytes[..length]), expected);
            assert_eq!(plain_sums::by_bytes(&bytes[..length]), expected);
            assert_eq!(plain_sums::by_columns(&bytes[..length]), expected);
        }
    }
}
