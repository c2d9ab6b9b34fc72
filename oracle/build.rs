//! Writes inter.rs, with the one edit that makes the pad an argument, where lib.rs takes it in.

use std::path::Path;
use std::{env, fs};

const PUBLISHED: &str = "\
pub fn build_hpel_planes(reference: &[u8], cw: usize, ch: usize) -> HpelPlanes {
    let _g = crate::prof::scope(crate::prof::Stage::MeHpelBuild);
    let pad = hpel_pad();
";

const EDITED: &str = "\
pub fn build_hpel_planes(reference: &[u8], cw: usize, ch: usize, pad: usize) -> HpelPlanes {
    let _g = crate::prof::scope(crate::prof::Stage::MeHpelBuild);
";

// An out-of-line module, because `include!` refuses the text's leading `//!` lines.
const MODULE: &str = "\
#[allow(dead_code, clippy::all)]
pub mod inter;
";

fn main() {
    println!("cargo::rerun-if-changed=build.rs");
    println!("cargo::rerun-if-changed=inter.rs");
    println!("cargo::rustc-check-cfg=cfg(accel)");
    println!("cargo::rustc-check-cfg=cfg(feature, values(\"knobs\", \"profile\"))");

    let text = fs::read_to_string("inter.rs").expect("inter.rs is read");
    let found = text.matches(PUBLISHED).count();
    assert!(
        found == 1,
        "inter.rs: the head of build_hpel_planes must stand there exactly once as published, \
         and was found {found} times"
    );

    let out = env::var("OUT_DIR").expect("cargo sets OUT_DIR");
    let out = Path::new(&out);
    fs::write(out.join("inter.rs"), text.replace(PUBLISHED, EDITED)).expect("inter.rs is written");
    fs::write(out.join("module.rs"), MODULE).expect("module.rs is written");
}
