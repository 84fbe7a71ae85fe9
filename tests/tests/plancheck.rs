//! The program `plancheck` against the walker.

use cuplihang_tests::generate::*;
use cuplihang_tests::programs::text;
use cuplihang_tests::walker::plancheck::line;

fn match_line(file: &[u8]) {
    assert_eq!(text("plancheck", file), line(file), "{:02X?}", &file[..file.len().min(400)]);
}

#[test]
fn case_3_and_the_other_cases() {
    assert_eq!(text("plancheck", &CASE_3), "2 18 0 0\n");
    for (draft, _) in twelve_cases() {
        match_line(&encode(&draft));
    }
}

#[test]
fn seeded_files() {
    let mut rng = Rng::new(100);
    for _ in 0..500 {
        match_line(&any_file(&mut rng));
    }
}

/// Loops whose statuses repeat every second turn: an odd count for an even one
/// gives another answer.
#[test]
fn fixed_loops_of_period_two() {
    let mut rng = Rng::new(101);
    for _ in 0..300 {
        match_line(&encode(&period_two_fixed(&mut rng)));
        match_line(&any_fixed_file(&mut rng));
    }
}

/// "reads a file from standard input", whatever its length.
#[test]
fn inputs_of_any_length() {
    match_line(&[]);
    for length in [1, 3, 4, 10, 4096, 8388, 8389, 8390, 8391, 8392, 65_536, 1_000_000, 20_000_000] {
        let mut file = vec![0; length];
        match_line(&file);
        for (byte, good) in file.iter_mut().zip([2, 1, 1, 0, 1, 0, 0, 0, 0, 0]) {
            *byte = good;
        }
        match_line(&file);
    }
}
