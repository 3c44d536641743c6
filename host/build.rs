//! Links target/staticlib/libcard_store.a, which `tools/staticlib card_store` writes. The archive is x86-64 code, so this
//! crate is built for x86-64 alone; docs/RUST.md says how that is done on an Arm machine. The archive becomes a part of the
//! built library, so that programs, tests and examples in the documentation have it without more.
use std::{env, path::Path};

fn main() {
    let arch = env::var("CARGO_CFG_TARGET_ARCH").unwrap();
    assert_eq!(arch, "x86_64", "libcard_store.a links only into x86-64 programs: see docs/RUST.md for the cross build");

    let folder = Path::new(&env::var("CARGO_MANIFEST_DIR").unwrap()).join("../target/staticlib");
    let archive = folder.join("libcard_store.a");
    assert!(archive.exists(), "there is no {}: run `tools/staticlib card_store` first", archive.display());

    println!("cargo:rerun-if-changed={}", archive.display());
    println!("cargo:rustc-link-search=native={}", folder.display());
    println!("cargo:rustc-link-lib=static=card_store");
}
