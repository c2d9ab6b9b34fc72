//! Makes the proved archive where it is missing or out of date, and links a copy of it.

use std::io::Write;
use std::path::{Path, PathBuf};
use std::process::Command;
use std::time::{Instant, SystemTime};
use std::{env, fs};

fn main() {
    let host =
        PathBuf::from(env::var("CARGO_MANIFEST_DIR").expect("cargo sets CARGO_MANIFEST_DIR"));
    let root = host.parent().expect("host/ stands in the repository");
    let sources = sources(root);
    println!("cargo::rerun-if-changed=build.rs");
    for path in &sources {
        println!("cargo::rerun-if-changed={}", path.display());
    }

    let archive = root.join("target/staticlib/libinter.a");
    let made = fs::metadata(&archive).and_then(|meta| meta.modified()).ok();
    if made < sources.iter().filter_map(|path| newest(path)).max() {
        make(root);
    }

    // A copy, because cargo would not notice if target/ were removed.
    let out = PathBuf::from(env::var("OUT_DIR").expect("cargo sets OUT_DIR"));
    fs::copy(&archive, out.join("libinter.a"))
        .unwrap_or_else(|error| panic!("{} is not to be read: {error}", archive.display()));
    println!("cargo::rustc-link-search=native={}", out.display());
    println!("cargo::rustc-link-lib=static=inter");
}

/// What the archive is made from: the crates' texts and proofs, but neither their must-fail edits
/// nor what `rt` keeps in out/.
fn sources(root: &Path) -> Vec<PathBuf> {
    let crates = fs::read_dir(root.join("crates")).expect("crates/ is read");
    let parts = crates
        .flatten()
        .flat_map(|entry| ["src", "specs", "proofs"].map(|part| entry.path().join(part)));
    let parts = parts.filter(|part| part.is_dir());
    [root.join("crates.txt"), root.join("tools/archive")].into_iter().chain(parts).collect()
}

/// The latest change of the file, or of any file under the folder.
fn newest(path: &Path) -> Option<SystemTime> {
    let meta = fs::metadata(path).ok()?;
    if !meta.is_dir() {
        return meta.modified().ok();
    }
    let entries = fs::read_dir(path).ok()?;
    entries.flatten().filter_map(|entry| newest(&entry.path())).max()
}

/// Says it at once where a person watches: cargo shows what a build script writes only at its end.
fn tell(text: &str) {
    if let Ok(mut terminal) = fs::OpenOptions::new().write(true).open("/dev/tty") {
        let _ = writeln!(terminal, "{text}");
    }
}

/// Proves the exports, the Rattle crate `inter_c`, and makes their archive.
fn make(root: &Path) {
    tell("Proving the library and making its archive (`tools/archive`): some minutes from nothing, less after a change.");
    let begun = Instant::now();
    let run = match Command::new(root.join("tools/archive")).output() {
        Ok(run) => run,
        Err(error) => panic!("`tools/archive` did not start: {error}"),
    };
    assert!(
        run.status.success(),
        "`tools/archive` ended with {}:\n{}{}",
        run.status,
        String::from_utf8_lossy(&run.stdout),
        String::from_utf8_lossy(&run.stderr)
    );
    println!(
        "cargo::warning=the archive was proved and made anew by `tools/archive`, in {} s",
        begun.elapsed().as_secs()
    );
}
