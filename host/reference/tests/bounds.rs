//! The tables of what load bounds cost have the rows that the second program counts.
use reference::bounds;
use std::fs;
use std::path::Path;

#[test]
fn the_rows_stand_in_the_texts() {
    let rows = bounds::rows();
    assert_eq!(rows.len(), 6);
    let root = Path::new(env!("CARGO_MANIFEST_DIR")).join("../..");
    for text in ["host/bench/README.md", "docs/BOUNDS.md"] {
        let read = fs::read_to_string(root.join(text)).unwrap_or_else(|error| panic!("{text}: {error}"));
        for row in &rows {
            assert!(read.lines().any(|line| line == row), "{text} has no row {row}");
        }
    }
}
