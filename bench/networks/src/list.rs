//! The list network in plain Rust: Bellman-Ford rounds from the smallest minutes of the list so far.
use crate::network::{Day, Limit, MAX_EVENTS, MAX_LIMITS, Network, Refusal};

/// The minute of each event.
type Minutes = [u16; MAX_EVENTS];

/// A stack of limits, and one of the smallest minutes for each beginning of the list.
pub struct ListNetwork {
    day: Day,
    limits: Vec<Limit>,
    times: Vec<Minutes>,
}

/// What relaxing a limit did.
enum Outcome {
    Rest,
    Raised,
    Stuck,
}

/// Raises the minute of the limit's `y` to the least that the limit leaves to it. A rise past the horizon, of event 0 or
/// of the newest limit's own `x` can come to no rest.
fn relax(times: &mut Minutes, limit: Limit, newest: Limit, day: Day) -> Outcome {
    let least = i32::from(times[limit.x]) - limit.bound;
    if least <= i32::from(times[limit.y]) {
        return Outcome::Rest;
    }
    if limit.y == 0 || limit.y == newest.x || least > day.horizon as i32 {
        return Outcome::Stuck;
    }
    times[limit.y] = least as u16;
    Outcome::Raised
}

/// Relaxes each limit once.
fn round(times: &mut Minutes, limits: &[Limit], newest: Limit, day: Day) -> Outcome {
    let mut outcome = Outcome::Rest;
    for &limit in limits {
        match relax(times, limit, newest, day) {
            Outcome::Rest => {}
            Outcome::Raised => outcome = Outcome::Raised,
            Outcome::Stuck => return Outcome::Stuck,
        }
    }
    outcome
}

/// Relaxes the limits, round after round, until the minutes keep them all: whether they can.
fn settle(times: &mut Minutes, limits: &[Limit], newest: Limit, day: Day) -> bool {
    loop {
        match round(times, limits, newest, day) {
            Outcome::Rest => return true,
            Outcome::Raised => {}
            Outcome::Stuck => return false,
        }
    }
}

impl ListNetwork {
    /// The network of one event at minute 0, with no limits.
    pub fn new() -> ListNetwork {
        let mut times = Vec::with_capacity(MAX_LIMITS + 1);
        times.push([0; MAX_EVENTS]);
        ListNetwork { day: Day { events: 1, horizon: 0 }, limits: Vec::with_capacity(MAX_LIMITS), times }
    }
}

impl Network for ListNetwork {
    fn reset(&mut self, events: usize, horizon: u32) -> Result<(), Refusal> {
        self.day = Day::new(events, horizon)?;
        self.limits.clear();
        self.times.clear();
        self.times.push([0; MAX_EVENTS]);
        Ok(())
    }

    fn push(&mut self, limit: Limit) -> Result<(), Refusal> {
        self.day.check(self.limits.len(), limit)?;
        let mut times = self.times[self.limits.len()];
        self.limits.push(limit);
        if !settle(&mut times, &self.limits, limit, self.day) {
            self.limits.pop();
            return Err(Refusal::Clash);
        }
        self.times.push(times);
        Ok(())
    }

    fn pop(&mut self) -> Result<(), Refusal> {
        if self.limits.pop().is_none() {
            return Err(Refusal::NoLimit);
        }
        self.times.pop();
        Ok(())
    }

    fn earliest(&self, event: usize) -> Result<u32, Refusal> {
        if event >= self.day.events {
            return Err(Refusal::NoSuchEvent);
        }
        Ok(u32::from(self.times[self.limits.len()][event]))
    }
}
