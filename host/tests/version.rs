//! The header and this crate have one version.
use std::fs;
use std::path::Path;

/// The number in include/reader.h.
fn of_header() -> u32 {
    let path = Path::new(env!("CARGO_MANIFEST_DIR")).join("../include/reader.h");
    let text = fs::read_to_string(&path).unwrap_or_else(|error| panic!("{}: {error}", path.display()));
    let number = text.lines().find_map(|line| line.strip_prefix("#define READER_VERSION "));
    number.expect("the version").parse().expect("a number")
}

/// 1000 is 1.0.0. The last part is 0, since a version rises only where the interface does.
#[test]
fn the_crate_has_the_version_of_the_header() {
    let number = of_header();
    assert_eq!(env!("CARGO_PKG_VERSION"), format!("{}.{}.0", number / 1000, number % 1000));
}
