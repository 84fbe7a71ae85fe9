//! The files of `examples/`.

use crate::generate::*;
use crate::walker::expand::expand;
use crate::walker::log::{log_bytes, log_of};
use crate::walker::open;

const HOST: u8 = 0;
const CARD: u8 = 1;
const R: u8 = 16;
const W: u8 = 17;
const RW: u8 = 18;

/// The grids of the small router: obstacles, costs, tracks.
const OBSTACLES: u8 = 0;
const COSTS: u8 = 1;
const TRACKS: u8 = 2;
const GRIDS: [u16; 3] = [8, 8, 4];

/// A declared plan of a small router: the host loads the obstacles, the card
/// computes costs and spreads them wave by wave; after each wave either the
/// host traces tracks or it rips some up.
pub fn router() -> Draft {
    let load =
        Pass { declarations: vec![declare(W, HOST, OBSTACLES)], steps: vec![write(HOST, OBSTACLES, 0, 8)] };
    let price = Pass {
        declarations: vec![declare(R, CARD, OBSTACLES), declare(W, CARD, COSTS)],
        steps: vec![read(CARD, OBSTACLES, 0, 8), write(CARD, COSTS, 0, 8)],
    };
    let wave = Pass {
        declarations: vec![declare(RW, CARD, COSTS), declare(R, CARD, OBSTACLES)],
        steps: vec![
            read(CARD, OBSTACLES, 0, 8),
            Step::Loop(vec![read(CARD, COSTS, 0, 8), write(CARD, COSTS, 2, 6)]),
        ],
    };
    let trace = Pass {
        declarations: vec![declare(R, HOST, COSTS), declare(RW, HOST, TRACKS)],
        steps: vec![read(HOST, COSTS, 0, 8), read(HOST, TRACKS, 0, 4), write(HOST, TRACKS, 0, 2)],
    };
    let rip_up = Pass {
        declarations: vec![declare(RW, HOST, TRACKS), declare(RW, HOST, OBSTACLES)],
        steps: vec![
            read(HOST, TRACKS, 0, 4),
            Step::Branch(vec![write(HOST, TRACKS, 0, 4), write(HOST, OBSTACLES, 3, 4)], vec![]),
        ],
    };
    let script =
        [call(1), call(2), Step::Loop(vec![call(3), Step::Branch(vec![call(4)], vec![call(5)])]), call(4)];
    declared_draft(&GRIDS, &script, &[load, price, wave, trace, rip_up])
}

/// Two turns of the router's loop: a wave of one turn and a trace, a wave of
/// none and a ripping up.
pub const ROUTER_CHOICES: [u8; 9] = [1, 1, 0, 1, 1, 0, 0, 1, 0];

/// The entries of a run's log.
fn entries(file: &[u8], choices: &[u8]) -> Vec<u16> {
    log_of(&open(file).expect("a plan"), choices, usize::MAX)
}

/// The router's log without its first wave, the records 7 to 14: the trace ran out
/// of turn.
fn early_trace(mut entries: Vec<u16>) -> Vec<u16> {
    let wave = entries.iter().position(|&entry| entry == 7).expect("a wave");
    let trace = entries.iter().position(|&entry| entry == 15).expect("a trace");
    entries.drain(wave..trace);
    entries
}

/// A plan that stops, though no run with each loop turned twice and each branch
/// kept to one arm does.
pub fn old_way() -> Vec<Step> {
    let (rip_up, look) = (write(HOST, 0, 0, 1), read(CARD, 0, 0, 1));
    vec![copy(CARD, 0, 0, 1), Step::Loop(vec![Step::Branch(vec![rip_up], vec![look])])]
}

/// Choices on which `old_way` stops: a turn that writes on the host, then one
/// that reads on the card.
pub const OLD_WAY_CHOICES: [u8; 4] = [1, 1, 1, 0];

/// A declared plan of one grid of eight cells: the card clears it in so many turns
/// of a fixed loop, or in a free one, and the host reads it.
pub fn fill(turns: Option<u16>) -> Draft {
    let layers = vec![write(CARD, 0, 0, 4), write(CARD, 0, 4, 8)];
    let cleared = turns.map_or(Step::Loop(layers.clone()), |turns| Step::Fixed(turns, layers));
    let clear = Pass { declarations: vec![declare(W, CARD, 0)], steps: vec![cleared] };
    let look = Pass { declarations: vec![declare(R, HOST, 0)], steps: vec![read(HOST, 0, 0, 8)] };
    declared_draft(&[8], &[Step::Fixed(2, vec![call(1), call(2)])], &[clear, look])
}

/// Two layers interleaved in one grid of eight cells: the card writes the even
/// cells while the host reads the odd ones; then the even ones go to the host.
pub fn layers() -> Vec<Step> {
    vec![
        every(2, write(CARD, 0, 0, 8)),
        every(2, read(HOST, 0, 1, 8)),
        every(2, copy(HOST, 0, 0, 8)),
        read(HOST, 0, 0, 8),
    ]
}

/// The same with a read of both layers too early.
pub fn layers_early() -> Vec<Step> {
    let mut steps = layers();
    steps[1] = read(HOST, 0, 1, 8);
    steps
}

/// A declared plan of two grids of four cells, costs and labels, and nobody has filled
/// the labels: the card computes them from the costs, the host reads them. In each
/// turn the host's pass comes last or, too early, first.
pub fn labels(early: bool) -> Draft {
    let spread = Pass {
        declarations: vec![declare(R, CARD, 0), declare(W, CARD, 1)],
        steps: vec![read(CARD, 0, 0, 4), write(CARD, 1, 0, 4)],
    };
    let look = Pass { declarations: vec![declare(R, HOST, 1)], steps: vec![read(HOST, 1, 0, 4)] };
    let turn = if early { vec![call(2), call(1)] } else { vec![call(1), call(2)] };
    declared_draft(&[4, SCRATCH + 4], &[Step::Loop(turn)], &[spread, look])
}

/// Two turns of it.
pub const LABELS_CHOICES: [u8; 3] = [1, 1, 0];

/// Each file of `examples/` by its name.
pub fn examples() -> Vec<(String, Vec<u8>)> {
    let router = encode(&router());
    let mut expanded = vec![0; 8266];
    expand(&router, &mut expanded);
    let records = u16::from_le_bytes([expanded[10], expanded[11]]) as usize;
    expanded.truncate(4 + 2 * GRIDS.len() + 4 + 8 * records + 2);
    let mut files: Vec<(String, Vec<u8>)> = (1..)
        .zip(twelve_cases())
        .map(|(number, (draft, _))| (format!("case-{number:02}.plan"), encode(&draft)))
        .collect();
    let log = entries(&expanded, &ROUTER_CHOICES);
    files.push(("router.log".into(), log_bytes(&log)));
    files.push(("router-early.log".into(), log_bytes(&early_trace(log))));
    files.push(("router.plan".into(), router));
    files.push(("router-expanded.plan".into(), expanded));
    files.push(("router.choices".into(), ROUTER_CHOICES.into()));
    files.push(("router-short.choices".into(), ROUTER_CHOICES[..3].into()));
    files.push(("fill.plan".into(), encode(&fill(Some(3)))));
    files.push(("fill-free.plan".into(), encode(&fill(None))));
    files.push(("layers.plan".into(), encode(&Draft::plain(&[8], &layers()))));
    files.push(("layers-early.plan".into(), encode(&Draft::plain(&[8], &layers_early()))));
    files.push(("labels.plan".into(), encode(&labels(false))));
    files.push(("labels-early.plan".into(), encode(&labels(true))));
    files.push(("labels.choices".into(), LABELS_CHOICES.into()));
    files.push(("none.choices".into(), vec![]));
    let old_way = encode(&Draft::plain(&[1], &old_way()));
    files.push(("old-way.log".into(), log_bytes(&entries(&old_way, &OLD_WAY_CHOICES))));
    files.push(("old-way.plan".into(), old_way));
    files.push(("old-way.choices".into(), OLD_WAY_CHOICES.into()));
    files
}
