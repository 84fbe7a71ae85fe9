//! The library's run and memory view against the walker.

use cuplihang_tests::archive::{self, Answer};
use cuplihang_tests::generate::*;
use cuplihang_tests::walker::near::Runner;
use cuplihang_tests::walker::plan::{BRANCH, COPY, LOOP, MARK, MAX_CHOICES, MAX_RECORDS, NEED, READ, WRITE};
use cuplihang_tests::walker::{self, Memories, RunEnd, Tally};
use std::array::from_fn;
use std::collections::{BTreeMap, BTreeSet};

/// How often each number occurred, 0 for done.
type Counts = BTreeMap<u16, usize>;

/// What a run is lent: host, card and latest, the tally, the figures of its end.
#[derive(Clone, Debug, PartialEq, Eq)]
pub struct Lent {
    pub memories: [Vec<u64>; 3],
    pub tally: [u64; 3],
    pub end: [u64; 5],
}

impl Lent {
    /// Memories of these lengths. No two numbers are the same, none is a run's.
    fn new(lengths: [usize; 3]) -> Lent {
        let mut pattern = 0xA5A5_0000_0000_0000..;
        let mut next = || pattern.next().unwrap();
        Lent {
            memories: lengths.map(|length| (0..length).map(|_| next()).collect()),
            tally: from_fn(|_| next()),
            end: from_fn(|_| next()),
        }
    }

    /// Memories that are longer than the plan's cells by `more`.
    pub fn beyond(file: &[u8], more: usize) -> Lent {
        Lent::new([cells_of(file) + more; 3])
    }

    fn library(&mut self, file: &[u8], choices: &[u8]) -> Answer {
        let [host, card, latest] = &mut self.memories;
        archive::run(file, [host, card, latest], choices, &mut self.tally, &mut self.end)
    }

    fn walker(&mut self, file: &[u8], choices: &[u8]) -> Answer {
        self.walk(file, |memories, tally| walker::run(file, memories, choices, tally))
    }

    /// A run in Rust; its answer and figures as the library gives them.
    fn walk(&mut self, file: &[u8], run: impl FnOnce(&mut Memories, &mut Tally) -> RunEnd) -> Answer {
        let [host, card, latest] = &mut self.memories;
        let [reads, writes, moved] = self.tally;
        let mut tally = Tally { reads, writes, moved };
        let end = run(&mut Memories { sides: [host, card], latest }, &mut tally);
        self.tally = [tally.reads, tally.writes, tally.moved];
        let (number, place, cell) = match end {
            RunEnd::Refused { number, place } => (number, place, 0),
            RunEnd::Stopped { record, cell } => (21, record, cell),
            RunEnd::Spent { record } => (22, record, 0),
            RunEnd::Done(done) => {
                let ([host, card], [on_host, on_card]) = (done.flags, done.arrays_current);
                self.end = [done.choices_used as u32, host, card, on_host, on_card].map(u64::from);
                (0, 0, 0)
            }
        };
        let kind = walker::open(file).map_or(0, |plan| plan.kind.number());
        Answer { number, place: place as u16, cell: cell as u16, kind }
    }
}

fn cells_of(file: &[u8]) -> usize {
    walker::open(file).map_or(0, |plan| plan.cells())
}

/// The same run by both: the answer and all that was lent, whole, are compared
/// and given.
pub fn match_run(file: &[u8], choices: &[u8], lent: &Lent, counts: &mut Counts) -> (Answer, Lent) {
    let (mut ours, mut theirs) = (lent.clone(), lent.clone());
    let expected = theirs.walker(file, choices);
    let answer = ours.library(file, choices);
    let shown = || {
        let some = &choices[..choices.len().min(100)];
        format!("{answer:?}, {} choices {some:?}, {:02X?}", choices.len(), &file[..file.len().min(400)])
    };
    assert_eq!(answer, expected, "{}", shown());
    assert_eq!((ours.tally, ours.end), (theirs.tally, theirs.end), "{}", shown());
    assert!(ours.memories == theirs.memories, "the memories differ: {}", shown());
    assert!(matches!(answer.number, 0 | 21 | 22) || ours == *lent, "not as it was: {}", shown());
    *counts.entry(answer.number).or_default() += 1;
    (answer, ours)
}

fn assert_counted(counts: &Counts, numbers: impl IntoIterator<Item = u16>, least: usize) {
    println!("{counts:?}");
    for number in numbers {
        assert!(counts.get(&number).is_some_and(|&n| n >= least), "number {number} is too rare");
    }
}

/// The record at which the walker's run stops.
fn stop(file: &[u8], choices: &[u8]) -> Option<usize> {
    let answer = Lent::beyond(file, 0).walker(file, choices);
    (answer.number == 21).then_some(answer.place as usize)
}

/// A plain plan of any shape, and choices. Some of the records at which its run
/// stops are replaced, so that it gets far; then one record is, so that it stops
/// late.
fn some_run(rng: &mut Rng) -> (Vec<u8>, Vec<u8>) {
    let length = rng.pick(&[2, 20, 80]);
    let (length, more) = (rng.between(0, length), rng.between(10, 70));
    let list = choices(rng, length, more);
    let mut draft = match rng.below(4) {
        0 => turning(rng),
        1 => {
            let levels = rng.between(1, 16);
            deep(rng, levels)
        }
        n => {
            let shape = if n == 2 { Shape::any(rng) } else { Shape::new(2, 12, 30, 3, 20) };
            plain(rng, &shape)
        }
    };
    let times = rng.pick(&[0, 2, 20, 200]);
    mend(rng, &mut draft, times, &|file| stop(file, &list));
    let at = rng.below(draft.records() + 1);
    if let Some(record @ [READ..=MARK, ..]) = draft.bodies[0].records.get_mut(at) {
        *record = any_act(rng, &draft.arrays);
    }
    (encode(&draft), list)
}

/// Plain plans of every shape, and files that are damaged or declared. The
/// memories are mostly longer than the cells, now and then too short.
#[test]
fn seeded_runs() {
    let mut rng = Rng::new(80);
    let mut counts = Counts::new();
    // By the kind of the record at which a run ends, where it stands and the cell.
    let mut ends: BTreeMap<u8, Vec<(u16, u16)>> = BTreeMap::new();
    let mut within = 0;
    for round in 0..40_000 {
        let (mut file, mut list) = some_run(&mut rng);
        if round % 3 == 0 {
            file = any_file(&mut rng);
        }
        if rng.chance(1) {
            list.resize(MAX_CHOICES + rng.below(3), 0);
        }
        let cells = cells_of(&file);
        let lengths = from_fn(|_| match rng.below(100) {
            0..=1 => rng.below(cells + 1),
            2..=30 => cells,
            _ => cells + rng.between(1, 40),
        });
        let (answer, _) = match_run(&file, &list, &Lent::new(lengths), &mut counts);
        if matches!(answer.number, 21 | 22) {
            let plan = walker::open(&file).unwrap();
            let x = &plan.records[answer.place as usize];
            ends.entry(x.kind).or_default().push((answer.place, answer.cell));
            within += usize::from(x.kind != READ && plan.covered(x).from < answer.cell as usize);
        }
    }
    assert_counted(&counts, (0..=11).chain(19..=22), 100);
    assert!(within > 100, "{within} copies only stop behind their first cell");
    assert_eq!(ends.keys().copied().collect::<Vec<_>>(), [READ, COPY, NEED, BRANCH, LOOP]);
    for (kind, places) in ends {
        println!("ends at records of kind {kind}: {}", places.len());
        let different = places.iter().collect::<BTreeSet<_>>().len();
        assert!(places.len() > 200 && different > 50, "kind {kind} at {different} places only");
    }
}

/// Plans at the limits whose runs do not stop.
#[test]
fn seeded_runs_of_large_plans() {
    let mut rng = Rng::new(81);
    let mut counts = Counts::new();
    let mut on_card = 0;
    for _ in 0..60 {
        let mut list = choices(&mut rng, 1000, 50);
        list.resize(1000 + MAX_RECORDS, 0);
        let shape = Shape::large(&mut rng);
        let mut draft = plain(&mut rng, &shape);
        mend(&mut rng, &mut draft, 5000, &|file| stop(file, &list));
        let file = encode(&draft);
        for end in [0, 100, list.len()] {
            let (answer, left) = match_run(&file, &list[..end], &Lent::beyond(&file, 7), &mut counts);
            if answer.number == 0 {
                on_card |= left.end[2];
            }
        }
    }
    assert_counted(&counts, [0, 22], 50);
    assert_eq!(on_card, u64::from(u32::MAX), "some flag is never set");
}

/// All plans of up to four records over one cell, up to three over two cells, in
/// one array and in two, on all lists of up to four choices.
#[test]
fn every_run_of_every_small_plan() {
    let mut counts = Counts::new();
    for (arrays, records) in [(&[1][..], 4), (&[2][..], 3), (&[1, 1][..], 3)] {
        for draft in every_plan(arrays, records) {
            let file = encode(&draft);
            let lent = Lent::beyond(&file, 1);
            for list in (0..=4).flat_map(every_choices) {
                match_run(&file, &list, &lent, &mut counts);
            }
        }
    }
    assert_counted(&counts, [0, 21, 22], 200_000);
}

/// The same with fixed loops of one to three turns, up to three records over one
/// cell, on all lists of up to three choices.
#[test]
fn every_run_of_every_small_plan_with_fixed_loops() {
    let mut counts = Counts::new();
    for draft in every_plan_fixed(&[1], &[1, 2, 3], 3) {
        if !has_fixed(&draft.bodies[0].records) {
            continue;
        }
        let file = encode(&draft);
        let lent = Lent::beyond(&file, 1);
        for list in (0..=3).flat_map(every_choices) {
            match_run(&file, &list, &lent, &mut counts);
        }
    }
    assert_counted(&counts, [0, 21, 22], 5000);
}

/// All plans of up to two records over three cells with steps, on all lists of up
/// to two choices.
#[test]
fn every_run_of_every_small_plan_with_steps() {
    let mut counts = Counts::new();
    for records in 0..=2 {
        for draft in every_stepped_plan(&[3], &[0, 2, 3], records) {
            let file = encode(&draft);
            let lent = Lent::beyond(&file, 1);
            for list in (0..=2).flat_map(every_choices) {
                match_run(&file, &list, &lent, &mut counts);
            }
        }
    }
    assert_counted(&counts, [0, 21, 22], 1000);
}

/// Steps of every size in runs that get far.
#[test]
fn seeded_runs_of_steps() {
    let mut rng = Rng::new(89);
    let mut counts = Counts::new();
    for _ in 0..10_000 {
        let (length, more) = (rng.between(0, 40), rng.between(10, 70));
        let list = choices(&mut rng, length, more);
        let shape = Shape::any(&mut rng);
        let mut draft = plain(&mut rng, &shape);
        give_steps(&mut rng, &mut draft, 70, &STEPS);
        let times = rng.pick(&[0, 2, 20, 200]);
        mend(&mut rng, &mut draft, times, &|file| stop(file, &list));
        let file = encode(&draft);
        match_run(&file, &list, &Lent::beyond(&file, 3), &mut counts);
    }
    assert_counted(&counts, [0, 21, 22], 500);
}

/// Fixed loops of any shape whose runs get far, and files of which none runs.
#[test]
fn seeded_runs_of_fixed_loops() {
    let mut rng = Rng::new(87);
    let mut counts = Counts::new();
    for round in 0..12_000 {
        let (length, more) = (rng.between(0, 40), rng.between(10, 70));
        let list = choices(&mut rng, length, more);
        let mut draft = match round % 4 {
            0 => turning_fixed(&mut rng),
            1 => small_fixed(&mut rng),
            2 => {
                let (product, parts) = (rng.pick(&[12, 60, 64]), rng.between(1, 12));
                product_plain(&mut rng, product, parts)
            }
            _ => {
                let shape = Shape::any(&mut rng);
                let mut draft = plain(&mut rng, &shape);
                fix_loops(&mut rng, &mut draft, 70, &[1, 2, 3, 20], 40);
                draft
            }
        };
        let times = rng.pick(&[0, 2, 20, 200]);
        mend(&mut rng, &mut draft, times, &|file| stop(file, &list));
        let file = if rng.chance(10) { any_fixed_file(&mut rng) } else { encode(&draft) };
        match_run(&file, &list, &Lent::beyond(&file, 3), &mut counts);
    }
    assert_counted(&counts, [0, 11, 21, 22, 26], 50);
}

/// 16 levels of records that never stop, on choices that lead to the innermost
/// arm and out again.
#[test]
fn the_deepest_nesting() {
    let mut rng = Rng::new(86);
    let mut counts = Counts::new();
    let mut reached = 0;
    for _ in 0..300 {
        let kept = [raw(READ, 0, 0, 0, 1), raw(WRITE, 0, 0, 0, 1), raw(COPY, 1, 0, 0, 1)];
        let steps = nest(&mut rng, 16, 3, &mut |rng| rng.pick(&kept));
        let file = encode(&Draft::plain(&[1], &steps));
        let plan = walker::open(&file).unwrap();
        let innermost = plan.records.iter().rposition(|x| matches!(x.kind, BRANCH | LOOP));
        let (mut list, mut inwards) = (vec![], 97);
        while list.len() < 200 {
            let (answer, _) = match_run(&file, &list, &Lent::new([2; 3]), &mut counts);
            if answer.number == 0 {
                break;
            }
            let record = answer.place as usize;
            if Some(record) == innermost && inwards == 97 {
                (reached, inwards) = (reached + 1, 30);
            }
            let (first, second) = plan.arms(record);
            list.push(u8::from((first.len() > second.len()) == rng.chance(inwards)));
        }
    }
    println!("reached: {reached}");
    assert_counted(&counts, [0, 22], 200);
    assert!(reached > 150);
}

/// Choices: none, too few by some and by one, exactly enough, and left over.
#[test]
fn short_exact_and_long_choices() {
    let mut rng = Rng::new(82);
    let mut counts = Counts::new();
    for _ in 0..4000 {
        let (file, mut list) = some_run(&mut rng);
        // Zeros end every loop.
        list.resize(list.len() + MAX_RECORDS + 1, 0);
        let lent = Lent::beyond(&file, 5);
        let lengths: Vec<usize> = (0..list.len()).collect();
        let exact = lengths.partition_point(|&n| lent.clone().walker(&file, &list[..n]).number == 22);
        if exact == 0 {
            continue;
        }
        for few in [0, exact / 2, exact - 1] {
            let (answer, _) = match_run(&file, &list[..few], &lent, &mut counts);
            assert_eq!(answer.number, 22);
        }
        let whole = match_run(&file, &list[..exact], &lent, &mut counts);
        for more in [exact + 1, list.len()] {
            assert_eq!(match_run(&file, &list[..more], &lent, &mut Counts::new()), whole);
        }
        assert_eq!(whole.0.number == 0, whole.1.end[0] == exact as u64);
    }
    assert_counted(&counts, [0, 21, 22], 500);
}

/// 65,536 choices are allowed, used or not; one more and far more are 20.
#[test]
fn the_bound_of_choices() {
    let turning = encode(&Draft::plain(&[2], &[Step::Loop(vec![write(0, 0, 0, 1)]), read(0, 0, 0, 2)]));
    let straight = encode(&Draft::plain(&[2], &[write(1, 0, 0, 2)]));
    let mut list = vec![1; MAX_CHOICES];
    let run = |file: &[u8], list: &[u8]| match_run(file, list, &Lent::new([3; 3]), &mut Counts::new());
    let (answer, left) = run(&turning, &list);
    assert_eq!((answer.number, answer.place, left.tally[1]), (22, 0, 65_536));
    list[MAX_CHOICES - 1] = 0;
    let (answer, left) = run(&turning, &list);
    assert_eq!((answer.number, left.tally[1], left.end[0]), (0, 65_535, 65_536));
    let (answer, left) = run(&straight, &list);
    assert_eq!((answer.number, left.end[0]), (0, 0));
    for length in [MAX_CHOICES + 1, 2 * MAX_CHOICES, 2 * MAX_CHOICES + 1, 1 << 20] {
        list.resize(length, 0);
        assert_eq!(run(&turning, &list).0.number, 20);
        assert_eq!(run(&straight, &list).0.number, 20);
    }
}

/// Each memory empty, too short by one, exact, and longer than 16 bits count;
/// 11 comes before 19, and 19 before 20.
#[test]
fn lengths_of_memories() {
    let many = vec![0; MAX_CHOICES + 1];
    let number =
        |file: &[u8], list: &[u8], lent: &Lent| match_run(file, list, lent, &mut Counts::new()).0.number;
    for arrays in [&[1][..], &[2, 3], &[4096], &[4095, 1], &[128; 32]] {
        let (last, length) = (arrays.len() as u8 - 1, arrays[arrays.len() - 1]);
        let steps = [need(1, last), write(1, last, 0, length), copy(0, last, 0, length), mark(1, 0)];
        let file = encode(&Draft::plain(arrays, &steps));
        let cells = cells_of(&file);
        let tried = [(0, 19), (cells - 1, 19), (cells, 0), (1 << 16, 0), ((1 << 16) + cells - 1, 0)];
        for (memory, others) in (0..3).flat_map(|memory| [(memory, cells), (memory, cells + 9)]) {
            for (length, expected) in tried {
                let lent = Lent::new(from_fn(|i| if i == memory { length } else { others }));
                assert_eq!(number(&file, &[], &lent), expected);
                assert_eq!(number(&file, &many, &lent), if expected == 0 { 20 } else { 19 });
            }
        }
    }
    let declared = encode(&declared_draft(&[1], &[], &[]));
    assert_eq!(number(&declared, &many, &Lent::new([0; 3])), 11);
}

/// A loop with this arm, 65,535 turns.
fn longest(arm: Vec<Step>, length: u16) -> Lent {
    let file = encode(&Draft::plain(&[length], &[Step::Loop(arm)]));
    let mut list = vec![1; MAX_CHOICES];
    list[MAX_CHOICES - 1] = 0;
    let (answer, left) = match_run(&file, &list, &Lent::beyond(&file, 3), &mut Counts::new());
    assert_eq!((answer.number, left.end[0]), (0, 65_536));
    left
}

/// 4,096 turns of 1,023 records, in one fixed loop and in twelve of two turns, on
/// no choice at all; and 64 turns at each turn of the longest run.
#[test]
fn the_most_turns() {
    let arm = [write(0, 0, 0, 1), copy(1, 0, 0, 1), read(1, 0, 0, 1)];
    let run = |steps: &[Step], list: &[u8]| {
        let file = encode(&Draft::plain(&[1], steps));
        match_run(&file, list, &Lent::beyond(&file, 3), &mut Counts::new())
    };
    let (answer, left) = run(&[Step::Fixed(4096, vec![arm.clone(); 341].concat())], &[]);
    assert_eq!((answer.number, left.tally, left.end[0]), (0, [4096 * 341; 3], 0));
    let nested = (0..12).fold(vec![arm.clone(); 337].concat(), |steps, _| vec![Step::Fixed(2, steps)]);
    let (answer, left) = run(&nested, &[]);
    assert_eq!((answer.number, left.tally, left.end[0]), (0, [4096 * 337; 3], 0));
    assert_eq!(longest(vec![Step::Fixed(64, arm.to_vec())], 1).tally, [65_535 * 64; 3]);
}

#[test]
fn moved_cells_past_32_bits() {
    let there = [copy(1, 0, 0, 4096), mark(0, 0), need(1, 0)];
    let back = [copy(0, 0, 0, 4096), mark(1, 0), need(0, 0)];
    let tally = longest(vec![[there, back].concat(); 5].concat(), 4096).tally;
    assert_eq!(tally, [0, 0, 65_535 * 20 * 4096]);
    assert!(tally[2] > 1 << 32);
}

#[test]
fn the_most_records() {
    let arm = [write(0, 0, 0, 1), copy(1, 0, 0, 1), read(1, 0, 0, 1)];
    let left = longest(vec![arm; 341].concat(), 1);
    assert_eq!(left.tally, [65_535 * 341; 3]);
    assert_eq!(left.memories.each_ref().map(|memory| memory[0]), [65_535 * 341; 3]);
}

/// The runs of what the library's expander writes never stop, and their tally
/// is that of demand 3.
#[test]
fn runs_of_expansions() {
    let mut rng = Rng::new(83);
    let mut counts = Counts::new();
    let mut with_moves = 0;
    for round in 0..6000 {
        let draft = if round % 10 == 0 { sized(&mut rng, 1000) } else { accepted_small(&mut rng) };
        let (file, mut out) = (encode(&draft), vec![0; 9000]);
        if archive::expand(&file, &mut out).number != 0 {
            continue;
        }
        let declared = walker::open(&file).unwrap();
        let expansion = walker::expand::expansion(&declared);
        out.truncate(expansion.to_bytes().len());
        for _ in 0..3 {
            let (length, more) = (rng.between(0, 150), rng.between(10, 60));
            let list = choices(&mut rng, length, more);
            let (answer, left) = match_run(&out, &list, &Lent::beyond(&out, 3), &mut counts);
            let shown = walker::demand::demand_3(&declared, &expansion, &list).unwrap();
            assert_eq!(answer.number, if shown.finished { 0 } else { 22 });
            assert_eq!(left.tally, [shown.reads, shown.writes, shown.moved_cells].map(|n| n as u64));
            with_moves += usize::from(shown.finished && shown.moves > 0);
        }
    }
    println!("done with moves: {with_moves}");
    assert_counted(&counts, [0, 22], 2000);
    assert!(with_moves > 2000);
}

/// The deepest and largest plans in a thread with a stack of 256 KiB.
#[test]
fn a_small_stack() {
    let work = || {
        for draft in [deep_loops(16, 16), deep_loops(16, 1024), whole_arrays(128), all_told_apart()] {
            let file = encode(&draft);
            match_run(&file, &[1; 1000], &Lent::beyond(&file, 1), &mut Counts::new());
        }
    };
    let thread = std::thread::Builder::new().stack_size(256 * 1024).spawn(work).unwrap();
    thread.join().expect("the run fits into a small stack");
}

/// Each wrong runner differs from the library on some run.
#[test]
fn near_runners_differ() {
    let mut rng = Rng::new(84);
    let mut differs: BTreeMap<String, usize> = BTreeMap::new();
    for _ in 0..3000 {
        let (file, list) = some_run(&mut rng);
        let plan = walker::open(&file).unwrap();
        let lent = Lent::beyond(&file, 0);
        let (answer, ours) = match_run(&file, &list, &lent, &mut Counts::new());
        for runner in Runner::ALL {
            let mut theirs = lent.clone();
            let other = theirs.walk(&file, |memories, tally| runner.run(&plan, memories, &list, tally));
            *differs.entry(format!("{runner:?}")).or_default() +=
                usize::from(other != answer || theirs != ours);
        }
    }
    println!("{differs:?}");
    assert!(differs.len() == Runner::ALL.len() && differs.values().all(|&count| count > 0));
}

// ---- The memory view ----

/// How often each answer occurred: a side or a number.
type Views = BTreeMap<Result<usize, u16>, usize>;

fn match_view(memories: &[Vec<u64>; 3], first: u64, end: u64, views: &mut Views) -> Result<usize, u16> {
    let [host, card, latest] = memories;
    let view = archive::memory_view(host, card, latest, first, end);
    let lengths = memories.each_ref().map(Vec::len);
    let expected = walker::memory_view(host, card, latest, first, end);
    assert_eq!(view, expected, "cells {first} to {end} of {lengths:?}");
    *views.entry(view).or_default() += 1;
    view
}

/// Memories that differ in a few cells and in their lengths, or that a run left.
fn some_memories(rng: &mut Rng) -> [Vec<u64>; 3] {
    if rng.chance(20) {
        let (file, list) = some_run(rng);
        let mut lent = Lent::beyond(&file, 3);
        lent.library(&file, &list);
        return lent.memories;
    }
    let stamps = [0, 1, 2, 1 << 32, u64::MAX];
    let common: Vec<u64> = (0..12).map(|_| rng.pick(&stamps)).collect();
    [4, 3, 2].map(|stale| {
        let mut memory = common.clone();
        for _ in 0..rng.below(stale) {
            memory[rng.below(12)] = rng.pick(&stamps);
        }
        memory.truncate(if rng.chance(3) { 0 } else { rng.between(6, 12) });
        memory
    })
}

#[test]
fn seeded_views() {
    let mut rng = Rng::new(85);
    let mut views = Views::new();
    for _ in 0..20_000 {
        let memories = some_memories(&mut rng);
        let lengths = memories.each_ref().map(Vec::len);
        let shortest = lengths.into_iter().min().unwrap();
        for _ in 0..8 {
            let mut bound = || match rng.below(20) {
                0 => u64::MAX,
                1 => rng.pick(&[1 << 16, 1 << 32, 1 << 63]) + rng.below(shortest + 1) as u64,
                2..=6 => (rng.pick(&lengths) + rng.below(3)).saturating_sub(1) as u64,
                _ => rng.below(shortest + 1) as u64,
            };
            let (one, two) = (bound(), bound());
            let (first, end) = if rng.chance(80) { (one.min(two), one.max(two)) } else { (one, two) };
            let _ = match_view(&memories, first, end, &mut views);
        }
    }
    println!("{views:?}");
    assert_eq!(views.keys().copied().collect::<Vec<_>>(), [Ok(0), Ok(1), Err(23), Err(24)]);
    assert!(views.values().all(|&count| count > 5000));
}

/// The host is current up to a cut, the card from there on; then both are, and
/// each memory in turn ends before the others.
#[test]
fn views_by_hand() {
    let mut views = Views::new();
    for (length, cut) in [(2, 1), (5, 4), (4096, 2048), (70_000, 1), (70_000, 69_999)] {
        let host = (0..length).map(|cell| if cell < cut { cell } else { u64::MAX });
        let card = (0..length).map(|cell| if cell < cut { u64::MAX } else { cell });
        let mut memories = [host.collect(), card.collect(), (0..length).collect()];
        let mut view = |memories: &_, first, end| match_view(memories, first, end, &mut views);
        assert_eq!(view(&memories, 0, cut), Ok(0));
        assert_eq!(view(&memories, cut, length), Ok(1));
        assert_eq!(view(&memories, 0, length), Err(24));
        assert_eq!(view(&memories, cut - 1, cut + 1), Err(24));
        for (first, end) in [(cut, cut), (cut, cut - 1), (0, length + 1), (length, u64::MAX), (u64::MAX, 0)] {
            assert_eq!(view(&memories, first, end), Err(23));
        }
        memories = from_fn(|_| memories[2].clone());
        assert_eq!(view(&memories, 0, length), Ok(0));
        for memory in 0..3 {
            let mut shorter = memories.clone();
            shorter[memory].pop();
            assert_eq!(view(&shorter, cut, length), Err(23));
            assert_eq!(view(&shorter, 0, length - 1), Ok(0));
        }
    }
    for (first, end) in [(0, 0), (0, 1), (0, u64::MAX)] {
        assert_eq!(match_view(&from_fn(|_| vec![]), first, end, &mut views), Err(23));
    }
}
