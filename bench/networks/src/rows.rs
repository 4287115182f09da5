//! The rows of the benchmark: which calls are set up, and which are timed.
use crate::network::{Limit, MAX_EVENTS, MAX_LIMITS, MAX_MINUTES, Refusal};
use crate::random::Random;
use crate::script::Call;

const HORIZON: u32 = MAX_MINUTES as u32;

/// A script that is run over and over, and what is run once before it. The script leaves the network as it found it.
pub struct Row {
    pub name: &'static str,
    pub events: usize,
    pub limits: usize,
    pub setup: Vec<Call>,
    pub script: Vec<Call>,
    /// What each call of the script answers, where all answer the same.
    pub answer: Option<u32>,
}

const DONE: Option<u32> = Some(0);
const CLASH: Option<u32> = Some(Refusal::Clash as u32);

/// Limits that one hidden timetable meets, with up to an hour to spare.
fn random_limits(events: usize, count: usize) -> Vec<Limit> {
    let mut random = Random::new((events * 100 + count) as u64);
    let mut minutes = [0; MAX_EVENTS];
    for minute in &mut minutes[1..events] {
        *minute = random.below(HORIZON as usize + 1) as i32;
    }
    let limit = |_| {
        let x = random.below(events);
        let y = (x + 1 + random.below(events - 1)) % events;
        let spare = random.below(61) as i32;
        Limit { x, y, bound: (minutes[x] - minutes[y] + spare).min(MAX_MINUTES) }
    };
    (0..count).map(limit).collect()
}

/// Each event 10 minutes after the one before it, over and over with a minute more each time.
fn chained_limits(events: usize, count: usize) -> Vec<Limit> {
    let limit = |k: usize| {
        let (turn, x) = (k / (events - 1), k % (events - 1));
        Limit { x, y: x + 1, bound: -10 - turn as i32 }
    };
    (0..count).map(limit).collect()
}

/// A ring over all events but event 0 with total -1, its closing limit last; before it come limits that hold anyway.
fn ring_limits(events: usize, count: usize) -> Vec<Limit> {
    let steps = events - 2;
    let spare = |k: usize| Limit { x: 1 + k % steps, y: 0, bound: MAX_MINUTES };
    let step = |k: usize| Limit { x: 1 + k, y: 2 + k, bound: -1 };
    let closing = Limit { x: events - 1, y: 1, bound: steps as i32 - 1 };
    let spares = (0..count - steps - 1).map(spare);
    spares.chain((0..steps).map(step)).chain([closing]).collect()
}

/// The same limits in the other order, but for the last.
fn turned(mut limits: Vec<Limit>) -> Vec<Limit> {
    let last = limits.len() - 1;
    limits[..last].reverse();
    limits
}

/// The day, with the limits pushed.
fn opening(events: usize, limits: &[Limit]) -> Vec<Call> {
    let reset = Call::Reset { events, horizon: HORIZON };
    [reset].into_iter().chain(limits.iter().copied().map(Call::Push)).collect()
}

/// All limits are pushed, then all popped.
fn up_and_down(name: &'static str, events: usize, limits: Vec<Limit>) -> Row {
    let pushes = limits.iter().copied().map(Call::Push);
    let script = pushes.chain(limits.iter().map(|_| Call::Pop)).collect();
    let setup = opening(events, &[]);
    Row { name, events, limits: limits.len(), setup, script, answer: DONE }
}

/// The last limit is pushed over and over onto the others, and clashes each time.
fn last_clashes(name: &'static str, events: usize, limits: Vec<Limit>) -> Row {
    let (last, others) = limits.split_last().expect("a limit");
    let script = vec![Call::Push(*last); 16];
    let setup = opening(events, others);
    Row { name, events, limits: limits.len(), setup, script, answer: CLASH }
}

/// Pushes of limits that may clash and pops, in an order without a pattern.
fn wandering(name: &'static str, events: usize, count: usize) -> Row {
    let mut random = Random::new(events as u64);
    let mut script = Vec::new();
    for limit in random_limits(events, 512) {
        let bound = limit.bound - random.below(90) as i32;
        script.push(Call::Push(Limit { bound: bound.max(-MAX_MINUTES), ..limit }));
        if random.below(3) == 0 {
            script.push(Call::Pop);
        }
        if random.below(count / 2) == 0 {
            script.extend([Call::Pop; MAX_LIMITS / 4]);
        }
    }
    script.extend([Call::Pop; MAX_LIMITS]);
    let setup = opening(events, &[]);
    Row { name, events, limits: count, setup, script, answer: None }
}

/// One call over and over, on chained limits.
fn one_call(name: &'static str, events: usize, count: usize, call: Call) -> Row {
    let setup = opening(events, &chained_limits(events, count));
    Row { name, events, limits: count, setup, script: vec![call; 16], answer: None }
}

/// The rows of a day of so many events.
fn rows_of(events: usize) -> Vec<Row> {
    let before_start = Limit { x: 1, y: 0, bound: -1 };
    let mut rows = Vec::new();
    for count in [1, 8, 32, 64] {
        rows.push(up_and_down("random", events, random_limits(events, count)));
        rows.push(up_and_down("chain", events, chained_limits(events, count)));
        rows.push(up_and_down("chain turned", events, turned(chained_limits(events, count))));
        let at_once = [random_limits(events, count - 1), vec![before_start]].concat();
        rows.push(last_clashes("clash at once", events, at_once));
    }
    for count in [events - 1, MAX_LIMITS] {
        rows.push(last_clashes("ring clash", events, ring_limits(events, count)));
        rows.push(last_clashes("ring clash turned", events, turned(ring_limits(events, count))));
    }
    rows.push(wandering("wandering", events, MAX_LIMITS));
    rows.push(one_call("earliest", events, 8, Call::Earliest { event: events - 1 }));
    rows.push(one_call("reset", events, 0, Call::Reset { events, horizon: HORIZON }));
    rows
}

/// All rows.
pub fn rows() -> Vec<Row> {
    [4, 16, 32].into_iter().flat_map(rows_of).collect()
}
