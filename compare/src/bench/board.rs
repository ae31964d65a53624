//! The tie's rows: places about their own corners, among others. The Rust has
//! no such call, so beside it stands its rule in a plain loop.

use super::times::Times;
use super::{in_turn, ratio, timed};
use crate::port;
use oracle::random::Random;
use oracle::types::{Board, Triple};
use oracle::{calls, rules};

const FIELD: [f32; 2] = [640.0, 480.0];
const LIMIT: f32 = 25.0;

/// Boards of each row, called one after the other.
const BOARDS: usize = 8;

pub struct Row {
    name: &'static str,
    rows: u64,
    columns: u64,
    corners: usize,
    /// The corners of the places stand behind the others.
    last: bool,
    /// Calls in one timing.
    at_once: usize,
}

struct Scene {
    places: Vec<f32>,
    corners: Vec<f32>,
}

/// Each corner within half a pixel of where the board has it, its place within
/// two, so that no two places share one; the other corners over the field.
fn scene(random: &mut Random, r: &Row) -> Scene {
    let mut places = Vec::new();
    let mut own: Vec<Triple> = Vec::new();
    let [across, down] = [r.columns, r.rows].map(|side| side as usize);
    for k in 0..(across - 1) * (down - 1) {
        let (x, y) = (k % (across - 1) + 1, k / (across - 1) + 1);
        let at = [
            FIELD[0] * x as f32 / across as f32,
            FIELD[1] * y as f32 / down as f32,
        ];
        places.extend(at.map(|v| v + 4.0 * (random.unit() - 0.5)));
        let [x, y] = at.map(|v| v + random.unit() - 0.5);
        own.push([x, y, random.unit()]);
    }
    let mut list: Vec<Triple> = Vec::new();
    for _ in own.len()..r.corners {
        let [x, y] = FIELD.map(|f| f * random.unit());
        list.push([x, y, random.unit()]);
    }
    for corner in own {
        let among = random.below(list.len() + 1);
        list.insert(if r.last { list.len() } else { among }, corner);
    }
    Scene {
        places,
        corners: list.concat(),
    }
}

/// The rule in a plain loop, of a board that is not refused as a whole.
fn in_a_loop(board: Board<'_>, corners: &[f32], answers: &mut [u16]) -> u32 {
    for (k, place) in board.places.chunks_exact(2).enumerate() {
        let mut best = f32::INFINITY;
        let mut nearest = 0;
        for (i, corner) in corners.chunks_exact(3).enumerate() {
            let (dx, dy) = (place[0] - corner[0], place[1] - corner[1]);
            let d = dx * dx + dy * dy;
            if d < best {
                best = d;
                nearest = i as u16;
            }
        }
        if best > board.limit {
            return rules::NO_CORNER;
        }
        if answers[..k].contains(&nearest) {
            return rules::USED_TWICE;
        }
        answers[k] = nearest;
    }
    0
}

/// The times of ours and of the loop, and whether they answer alike.
pub fn times(r: &Row) -> (Vec<Times>, bool) {
    let mut random = Random::of(5, r.name);
    let scenes: Vec<Scene> = (0..BOARDS).map(|_| scene(&mut random, r)).collect();
    let board = |k: usize| Board {
        rows: r.rows,
        columns: r.columns,
        places: &scenes[k].places,
        limit: LIMIT,
    };
    let inner = scenes[0].places.len() / 2;
    let call = |k: usize, answers: &mut [u16]| {
        let k = k % BOARDS;
        port::tie(board(k), &scenes[k].corners, answers, &mut 0)
    };
    let in_loop = |k: usize, answers: &mut [u16]| {
        let k = k % BOARDS;
        in_a_loop(board(k), &scenes[k].corners, answers)
    };
    let (mut ours, mut theirs) = (vec![1; inner], vec![1; inner]);
    let (mut turn, mut loop_turn) = (0, 0);
    let mut by_port = || {
        turn += 1;
        timed(|| (0..r.at_once).all(|k| call(turn + k, &mut ours) == 0)).0
    };
    let mut by_loop = || {
        loop_turn += 1;
        timed(|| (0..r.at_once).all(|k| in_loop(loop_turn + k, &mut theirs) == 0)).0
    };
    let t = in_turn(&mut [&mut by_port, &mut by_loop], 20 * BOARDS);
    let same = (0..BOARDS).all(|k| {
        let (decision, _, tied) = calls::tie(&board(k), &scenes[k].corners, inner);
        let numbers = [decision.number, call(k, &mut ours), in_loop(k, &mut theirs)];
        numbers == [0; 3] && ours == tied && theirs == tied
    });
    (t, same)
}

fn row(r: &Row) -> bool {
    let (t, same) = times(r);
    let inner = ((r.rows - 1) * (r.columns - 1)) as usize;
    println!(
        "| tie {}: {inner} places, {} corners | {} | {} | {} | {} | {} |",
        r.name,
        r.corners,
        t[0].told(),
        t[1].told(),
        ratio(&t[0], &t[1]),
        t[0].each(r.at_once * inner),
        t[1].each(r.at_once * inner),
    );
    same
}

/// The largest board, and every corner is looked at for each place.
pub const WORST: Row = Row {
    name: "scattered, the nearest last",
    rows: 32,
    columns: 32,
    corners: 4096,
    last: true,
    at_once: 1,
};

const ROWS: [Row; 3] = [
    Row {
        name: "scattered",
        last: false,
        ..WORST
    },
    WORST,
    Row {
        name: "of a small board, 64 calls",
        rows: 8,
        columns: 10,
        corners: 80,
        last: false,
        at_once: 64,
    },
];

pub fn table() -> bool {
    println!(
        "| call | ours | a plain loop in Rust | ours / loop | ours, ns a place | the loop's |"
    );
    println!("|---|---|---|---|---|---|");
    let mut same = true;
    for r in &ROWS {
        same &= row(r);
    }
    same
}
