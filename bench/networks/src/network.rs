//! What both networks in plain Rust share: the four calls, limits, days and refusals.

/// The most events of a day.
pub const MAX_EVENTS: usize = 32;
/// The latest horizon, and the largest bound, in minutes.
pub const MAX_MINUTES: i32 = 10_080;
/// The most limits of a network.
pub const MAX_LIMITS: usize = 64;

/// Event `x` comes at most `bound` minutes after event `y`.
#[derive(Clone, Copy, Debug)]
pub struct Limit {
    pub x: usize,
    pub y: usize,
    pub bound: i32,
}

/// Why a call is refused, by number.
#[derive(Clone, Copy, Debug, PartialEq, Eq)]
pub enum Refusal {
    EventCount = 1,
    HorizonRange = 2,
    EventPair = 6,
    BoundRange = 7,
    NoSuchEvent = 12,
    LimitCount = 13,
    Clash = 14,
    NoLimit = 15,
}

/// So many events, and the last minute.
#[derive(Clone, Copy, Debug)]
pub struct Day {
    pub events: usize,
    pub horizon: u32,
}

impl Day {
    /// The day, if its events and its horizon are in range.
    pub fn new(events: usize, horizon: u32) -> Result<Day, Refusal> {
        if !(1..=MAX_EVENTS).contains(&events) {
            return Err(Refusal::EventCount);
        }
        if horizon > MAX_MINUTES as u32 {
            return Err(Refusal::HorizonRange);
        }
        Ok(Day { events, horizon })
    }

    /// Whether a network that holds `count` limits may take another.
    pub fn check(&self, count: usize, limit: Limit) -> Result<(), Refusal> {
        if limit.x >= self.events || limit.y >= self.events || limit.x == limit.y {
            return Err(Refusal::EventPair);
        }
        if !(-MAX_MINUTES..=MAX_MINUTES).contains(&limit.bound) {
            return Err(Refusal::BoundRange);
        }
        if count >= MAX_LIMITS {
            return Err(Refusal::LimitCount);
        }
        Ok(())
    }
}

/// The four calls on a network.
pub trait Network {
    /// Takes the day, with no limits.
    fn reset(&mut self, events: usize, horizon: u32) -> Result<(), Refusal>;
    /// Puts the limit on, unless no timetable meets the longer list.
    fn push(&mut self, limit: Limit) -> Result<(), Refusal>;
    /// Takes the newest limit off.
    fn pop(&mut self) -> Result<(), Refusal>;
    /// The smallest minute of the event over all timetables that meet the list.
    fn earliest(&self, event: usize) -> Result<u32, Refusal>;
}
