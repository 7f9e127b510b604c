//! Names the Rust source for `main.rs`: in the folder that LFO_SOURCE names, or in ../shared/docs/src as seen from the repository's top.
use std::path::Path;
use std::{env, fs};

fn main() {
    let here = env::var("CARGO_MANIFEST_DIR").unwrap();
    let source = env::var("LFO_SOURCE").unwrap_or(format!("{here}/../../../shared/docs/src"));
    let lfo = fs::canonicalize(Path::new(&source).join("crates/dsp/src/lfo/mod.rs"))
        .expect("the Rust source: set LFO_SOURCE to its folder");
    let out = env::var("OUT_DIR").unwrap();
    fs::write(Path::new(&out).join("source.rs"), format!("#[path = {lfo:?}]\npub mod lfo;\n")).unwrap();
    println!("cargo:rerun-if-env-changed=LFO_SOURCE");
}
