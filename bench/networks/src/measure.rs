//! That all networks answer alike, and how long each takes.
use crate::rows::Row;
use crate::script::{Call, mixed, script};
use crate::sides::{Side, plain_list, plain_square, verified_list, verified_square};
use std::hint::black_box;
use std::time::Instant;

/// How often each side is timed; the shortest time counts.
const TRIALS: usize = 15;

/// What one timing should take at least, in nanoseconds.
const LEAST_TIME: f64 = 2e6;

/// A verified network and its twin in plain Rust.
pub struct Pair {
    pub name: &'static str,
    verified: Side,
    plain: Side,
}

impl Pair {
    /// The two kinds of networks.
    pub const BOTH: [Pair; 2] = [
        Pair { name: "list", verified: verified_list, plain: plain_list },
        Pair { name: "square", verified: verified_square, plain: plain_square },
    ];
}

/// The nanoseconds that a call takes on each side.
#[derive(Clone, Copy, Debug)]
pub struct Times {
    pub verified: f64,
    pub plain: f64,
}

impl Times {
    /// How many times as long the verified network takes.
    pub fn ratio(&self) -> f64 {
        self.verified / self.plain
    }
}

/// The calls, with questions for the earliest minute of every event after each, and for one event that is not there.
fn asking(calls: &[Call], events: usize) -> Vec<Call> {
    let questions = |&call| [call].into_iter().chain((0..=events).map(|event| Call::Earliest { event }));
    calls.iter().flat_map(questions).collect()
}

/// How often a script is run to compare answers.
const CHECK_REPEATS: u32 = 3;

/// Stops unless all four networks give the same answers to the row's calls, and tell the same minutes after each, and
/// the answers are those that the row is about.
pub fn check(row: &Row) {
    for (setup, calls) in
        [(asking(&row.setup, row.events), asking(&row.script, row.events)), (row.setup.clone(), row.script.clone())]
    {
        let (setup, calls) = (script(&setup), script(&calls));
        let told = Pair::BOTH.map(|pair| [pair.verified, pair.plain].map(|side| side(&setup, &calls, CHECK_REPEATS)));
        let all_alike = told.as_flattened().iter().all(|sum| *sum == told[0][0]);
        assert!(all_alike, "{} at {} events, {} limits: {told:?}", row.name, row.events, row.limits);
    }
    if let Some(answer) = row.answer {
        let calls = CHECK_REPEATS as usize * row.script.len();
        let expected = (0..calls).fold(0, |sum, _| mixed(sum, answer));
        let told = plain_list(&script(&row.setup), &script(&row.script), CHECK_REPEATS);
        assert!(told == expected, "{} at {} events, {} limits", row.name, row.events, row.limits);
    }
}

/// The nanoseconds that a side takes for so many runs of the script.
fn time(side: Side, setup: &[u8], calls: &[u8], repeats: u32) -> f64 {
    let start = Instant::now();
    black_box(side(black_box(setup), black_box(calls), repeats));
    start.elapsed().as_nanos() as f64
}

/// Times both sides on the row, in turns.
pub fn measure(pair: &Pair, row: &Row) -> Times {
    let (setup, calls) = (script(&row.setup), script(&row.script));
    let mut repeats = 16;
    while time(pair.plain, &setup, &calls, repeats) < LEAST_TIME {
        repeats *= 2;
    }
    let mut best = Times { verified: f64::INFINITY, plain: f64::INFINITY };
    for _ in 0..TRIALS {
        best.verified = best.verified.min(time(pair.verified, &setup, &calls, repeats));
        best.plain = best.plain.min(time(pair.plain, &setup, &calls, repeats));
    }
    let made = f64::from(repeats) * row.script.len() as f64;
    Times { verified: best.verified / made, plain: best.plain / made }
}
