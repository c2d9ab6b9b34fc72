//! A C host: the header compiles alone, and the example links the archive and prints its block.

mod common;

use std::io::ErrorKind;
use std::path::Path;
use std::process::{Command, Output};

use common::say;

const ROOT: &str = concat!(env!("CARGO_MANIFEST_DIR"), "/..");
const STRICT: [&str; 4] = ["-Wall", "-Wextra", "-Werror", "-pedantic"];

// Document 01's row and the same backwards; the half samples are worked by hand.
const PRINTED: &str = "\
picture:
  10  20  30  40  50  60
  60  50  40  30  20  10
12 of 12 bytes lent: 0, done
half a sample to the right:
  14  25  35  45  56  61
  56  45  35  25  14   9
11 of 12 bytes lent: 2, the picture is shorter than its sides say
still:
  14  25  35  45  56  61
  56  45  35  25  14   9
";

/// Runs a program that must succeed; none where it is not installed.
fn run(program: &Path, args: &[&str]) -> Option<Output> {
    let output = match Command::new(program).args(args).current_dir(ROOT).output() {
        Err(error) if error.kind() == ErrorKind::NotFound => {
            say(&format!("left out: {} was not found", program.display()));
            return None;
        }
        started => started.expect("the program starts"),
    };
    let said = String::from_utf8_lossy(&output.stderr);
    assert!(output.status.success(), "{} {args:?}: {}\n{said}", program.display(), output.status);
    Some(output)
}

#[test]
fn the_header_is_c99_and_cpp() {
    for (compiler, standard, language) in [("cc", "-std=c99", "c"), ("c++", "-std=c++11", "c++")] {
        let header = [standard, "-fsyntax-only", "-x", language, "include/inter.h"];
        run(Path::new(compiler), &[&STRICT[..], &header].concat());
    }
}

#[test]
fn the_example_predicts_its_block() {
    let program = Path::new(env!("CARGO_TARGET_TMPDIR")).join("predict");
    let archive = concat!(env!("OUT_DIR"), "/libinter.a");
    let text = ["-std=c99", "-Iinclude", "examples/predict.c", archive, "-o"];
    let out = [program.to_str().expect("a path of letters")];
    if run(Path::new("cc"), &[&STRICT[..], &text, &out].concat()).is_some() {
        let output = run(&program, &[]).expect("the example was built");
        assert_eq!(String::from_utf8_lossy(&output.stdout), PRINTED);
    }
}
