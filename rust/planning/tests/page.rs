//! docs/PLANNER.md is what this build makes, and what it shows meets the bars of request 10.
use planning::page::{figures, sums, text};

const PAGE: &str = include_str!("../../../docs/PLANNER.md");

#[test]
fn the_page() {
    let figures = figures();
    assert!(figures.len() >= 20, "at least twenty named columns");
    for column in &figures {
        let [planner, direct, _, apache] = column.all;
        assert!(planner <= apache, "{}: {planner} bytes, the Apache model {apache}", column.name);
        assert!(planner <= direct, "{}: {planner} bytes, direct runs {direct}", column.name);
    }
    let (all, few) = sums(&figures);
    assert!(all[0] < all[3], "below the Apache model on the sum");
    assert!(100 * few[0] <= 115 * few[2], "at most 1.15 times the optimum on the first rows");
    assert_eq!(text(&figures), PAGE, "stale: cargo run --release --offline -p planning");
}
