//! What a guider does all night, shown on a drawn star field. The script `demo` runs it.
//!
//! Without an argument the field is moved by each phase through the three luma routes, the guide star
//! is measured, and pictures are written. `sums` shows document 01's worked sums instead.

mod centroid;
mod exact;
mod field;
mod font;
mod guide;
mod png;
mod routes;
mod sheet;
mod short;
mod sums;
mod table;

use std::path::Path;
use std::process::ExitCode;
use std::{env, fs, io};

use guide::Night;

const ROOT: &str = concat!(env!("CARGO_MANIFEST_DIR"), "/..");
/// Under the root.
const FOLDER: &str = "target/demo";

const ABOUT: &str = "\
A drawn star field, moved by each phase through mc_luma, mc_luma_padded and hpel_block (hpel_ref
at (0,0), which hpel_block refuses), and the guide star's centroid. Shifts are in samples. d is
what a byte has over the exact mean of its two neighbours, in 2048ths of a grey level: the least
and the most of all bytes, and the ends that are proved.
";

const FILES: &str = "\
To look at, in target/demo:
  sheet.png         the guide star at each phase, and the short plane
  sheet_small.png   the same, as the README shows it
  reference.pgm     the star field; moved_X_Y.pgm by phase
  todays_short.pgm  what today's Rust makes of the short plane";

fn main() -> ExitCode {
    let args: Vec<String> = env::args().skip(1).collect();
    let right = match args.iter().map(String::as_str).collect::<Vec<_>>()[..] {
        [] => guided(),
        ["sums"] => sums::shown(),
        _ => {
            eprintln!("demo takes nothing, or the word sums");
            false
        }
    };
    if right {
        ExitCode::SUCCESS
    } else {
        ExitCode::FAILURE
    }
}

/// Shows the night, and tells whether all was as promised.
fn guided() -> bool {
    let night = match Night::observed() {
        Ok(night) => night,
        Err(refusal) => {
            println!("WRONG: a block was refused: {refusal}");
            return false;
        }
    };
    println!("{ABOUT}");
    println!("{}{}", table::phases(&night), table::summary(&night));
    println!("The same star, not moved, when the plane lent is one row short:\n");
    println!("{}", table::short(&night));
    if let Err(error) = written(&night) {
        println!("WRONG: {FOLDER} is not to be written: {error}");
        return false;
    }
    println!("{FILES}");
    let wrong = night.wrong();
    wrong.iter().for_each(|line| println!("WRONG: {line}"));
    wrong.is_empty()
}

fn written(night: &Night) -> io::Result<()> {
    let folder = Path::new(ROOT).join(FOLDER);
    fs::create_dir_all(&folder)?;
    let write = |name: &str, bytes: Vec<u8>| fs::write(folder.join(name), bytes);
    write("reference.pgm", night.reference.pgm())?;
    for moved in &night.moved {
        let (fx, fy) = moved.phase;
        write(&format!("moved_{fx}_{fy}.pgm"), moved.picture.pgm())?;
    }
    write("todays_short.pgm", night.moved[0].todays.pgm())?;
    write("sheet.png", sheet::png(night, 3))?;
    write("sheet_small.png", sheet::png(night, 1))
}
