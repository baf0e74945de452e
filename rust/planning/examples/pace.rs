//! Nanoseconds a row of planning alone, on each named column.
use planning::{columns::columns, planner::plan, runs::Run};
use std::time::Instant;

fn main() {
    let times = std::env::args().nth(1).map_or(40, |times| times.parse().expect("a number"));
    let only = std::env::args().nth(2).unwrap_or_default();
    let mut worst: f64 = 0.0;
    for column in columns(5_000).into_iter().filter(|column| column.name.contains(&only)) {
        let mut segments = vec![Run::WIDEST.segment(0, 0); column.rows.len()];
        let mut least = f64::MAX;
        for _ in 0..times {
            let start = Instant::now();
            std::hint::black_box(plan(&column.rows, column.signed, &mut segments));
            least = least.min(start.elapsed().as_nanos() as f64 / column.rows.len() as f64);
        }
        println!("{:6.1} {}", least, column.name);
        worst = worst.max(least);
    }
    println!("{worst:6.1} the slowest");
}
