//! The square network in plain Rust: the closure of all distances, brought up to date by each limit.
use crate::network::{Day, Limit, MAX_EVENTS, MAX_LIMITS, Network, Refusal};

/// At row `i` and column `j`: the most minutes that event `i` may come after event `j`.
type Table = [[i16; MAX_EVENTS]; MAX_EVENTS];

/// A table of shortest distances for each beginning of the list of limits; the newest in use is at `count`.
pub struct SquareNetwork {
    day: Day,
    count: usize,
    tables: Vec<Table>,
}

/// The distances while there are no limits.
fn open(table: &mut Table, day: Day) {
    for (i, row) in table.iter_mut().enumerate().take(day.events) {
        row.fill(if i == 0 { 0 } else { day.horizon as i16 });
        row[i] = 0;
    }
}

/// Writes the distances once the limit is put on: each the shorter of itself and the way through the limit. Bounds and
/// distances are at most 10,080 minutes either way, so three of them fit into 16 bits. It goes over whole rows, which is
/// faster than to stop at the last event; the columns past that mean nothing and may wrap.
fn shorten(table: &Table, short: &mut Table, day: Day, limit: Limit) {
    let beyond = &table[limit.y];
    for (row, short) in table.iter().zip(short).take(day.events) {
        let to_limit = row[limit.x] + limit.bound as i16;
        for ((short, &direct), &beyond) in short.iter_mut().zip(row).zip(beyond) {
            *short = direct.min(to_limit.wrapping_add(beyond));
        }
    }
}

impl SquareNetwork {
    /// The network of one event at minute 0, with no limits.
    pub fn new() -> SquareNetwork {
        SquareNetwork {
            day: Day { events: 1, horizon: 0 },
            count: 0,
            tables: vec![[[0; MAX_EVENTS]; MAX_EVENTS]; MAX_LIMITS + 1],
        }
    }
}

impl Network for SquareNetwork {
    fn reset(&mut self, events: usize, horizon: u32) -> Result<(), Refusal> {
        self.day = Day::new(events, horizon)?;
        self.count = 0;
        open(&mut self.tables[0], self.day);
        Ok(())
    }

    fn push(&mut self, limit: Limit) -> Result<(), Refusal> {
        self.day.check(self.count, limit)?;
        let (held, free) = self.tables.split_at_mut(self.count + 1);
        let table = &held[self.count];
        if i32::from(table[limit.y][limit.x]) + limit.bound < 0 {
            return Err(Refusal::Clash);
        }
        shorten(table, &mut free[0], self.day, limit);
        self.count += 1;
        Ok(())
    }

    fn pop(&mut self) -> Result<(), Refusal> {
        if self.count == 0 {
            return Err(Refusal::NoLimit);
        }
        self.count -= 1;
        Ok(())
    }

    fn earliest(&self, event: usize) -> Result<u32, Refusal> {
        if event >= self.day.events {
            return Err(Refusal::NoSuchEvent);
        }
        Ok(-i32::from(self.tables[self.count][0][event]) as u32)
    }
}
