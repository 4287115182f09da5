//! Times the verified networks against networks in plain Rust, row by row.
mod list;
mod measure;
mod network;
mod random;
mod rows;
mod script;
mod sides;
mod square;

use measure::{Pair, Times, check, measure};
use rows::{Row, rows};

/// The ratio that no row should pass.
const TARGET: f64 = 1.5;

/// Prints one row of one network.
fn report(network: &str, row: &Row, times: Times) {
    println!(
        "{network:<7} {:<18} {:>6} {:>6} {:>10.1} {:>10.1} {:>6.2}{}",
        row.name,
        row.events,
        row.limits,
        times.verified,
        times.plain,
        times.ratio(),
        if times.ratio() > TARGET { "  over" } else { "" },
    );
}

/// Measures all rows of one network, and tells its worst ratio.
fn measure_all(rows: &[Row], pair: &Pair) -> f64 {
    let mut worst: f64 = 0.0;
    for row in rows {
        let times = measure(pair, row);
        report(pair.name, row, times);
        worst = worst.max(times.ratio());
    }
    worst
}

fn main() {
    let rows = rows();
    for row in &rows {
        check(row);
    }
    println!("all four networks give the same answers on all {} rows", rows.len());
    println!("network row                events limits   verified      plain  ratio");
    let worst = Pair::BOTH.map(|pair| (pair.name, measure_all(&rows, &pair)));
    for (name, ratio) in worst {
        println!("worst ratio of the {name} network: {ratio:.2} (target {TARGET})");
    }
}
