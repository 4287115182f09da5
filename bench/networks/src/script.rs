//! Scripts of calls: records of five bytes, and how a network in plain Rust runs them.
use crate::network::{Limit, Network, Refusal};

const RECORD_SIZE: usize = 5;

// above every refusal's number, so that minutes and refusals differ
const FIRST_MINUTE: u32 = 100;

/// A call on a network.
#[derive(Clone, Copy, Debug)]
pub enum Call {
    Reset { events: usize, horizon: u32 },
    Push(Limit),
    Pop,
    Earliest { event: usize },
}

/// The record of a call: which, two events, and a number of two bytes, the low one first.
fn encode(call: Call) -> [u8; RECORD_SIZE] {
    let (code, x, y, number) = match call {
        Call::Reset { events, horizon } => (0, events, 0, horizon as i32),
        Call::Push(limit) => (1, limit.x, limit.y, limit.bound),
        Call::Pop => (2, 0, 0, 0),
        Call::Earliest { event } => (3, event, 0, 0),
    };
    let [low, high] = (number as i16).to_le_bytes();
    [code, x as u8, y as u8, low, high]
}

/// The records of calls, one after the other.
pub fn script(calls: &[Call]) -> Vec<u8> {
    calls.iter().flat_map(|&call| encode(call)).collect()
}

/// The call that a record states.
fn decode(record: &[u8; RECORD_SIZE]) -> Call {
    let [code, x, y, low, high] = *record;
    match code {
        0 => Call::Reset { events: usize::from(x), horizon: u32::from(u16::from_le_bytes([low, high])) },
        1 => Call::Push(Limit {
            x: usize::from(x),
            y: usize::from(y),
            bound: i32::from(i16::from_le_bytes([low, high])),
        }),
        2 => Call::Pop,
        _ => Call::Earliest { event: usize::from(x) },
    }
}

/// The answer to a call that tells nothing, as a number.
fn outcome(result: Result<(), Refusal>) -> u32 {
    match result {
        Ok(()) => 0,
        Err(refusal) => refusal as u32,
    }
}

/// Makes the call, and tells its answer as a number.
fn answer(network: &mut impl Network, call: Call) -> u32 {
    match call {
        Call::Reset { events, horizon } => outcome(network.reset(events, horizon)),
        Call::Push(limit) => outcome(network.push(limit)),
        Call::Pop => outcome(network.pop()),
        Call::Earliest { event } => match network.earliest(event) {
            Ok(minute) => minute + FIRST_MINUTE,
            Err(refusal) => refusal as u32,
        },
    }
}

/// The checksum with one answer more.
pub fn mixed(checksum: u64, answer: u32) -> u64 {
    checksum.wrapping_mul(31).wrapping_add(u64::from(answer))
}

/// Makes the calls of a script, and takes their answers into the checksum.
fn run_once(network: &mut impl Network, script: &[[u8; RECORD_SIZE]], checksum: u64) -> u64 {
    let mut checksum = checksum;
    for record in script {
        checksum = mixed(checksum, answer(network, decode(record)));
    }
    checksum
}

/// Makes the calls of `setup` once and those of `script` so many times: the checksum of all answers.
pub fn run(mut network: impl Network, setup: &[u8], script: &[u8], repeats: u32) -> u64 {
    let (first, _) = setup.as_chunks::<RECORD_SIZE>();
    let (records, _) = script.as_chunks::<RECORD_SIZE>();
    let mut checksum = run_once(&mut network, first, 0);
    for _ in 0..repeats {
        checksum = run_once(&mut network, records, checksum);
    }
    checksum
}
