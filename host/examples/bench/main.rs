//! The same calls in each library: instructions by callgrind, and time. The script `bench` runs it.
//!
//! `count` makes the calls for callgrind. `report [FILE]` takes the time, and prints the tables with
//! the instructions that callgrind wrote to FILE.

mod count;
mod items;
mod report;
mod time;

use std::{env, fs};

use items::Item;

fn main() {
    let items = items::all();
    items.iter().for_each(Item::check);
    let args: Vec<String> = env::args().skip(1).collect();
    match args.iter().map(String::as_str).collect::<Vec<_>>()[..] {
        ["count"] => count::make_calls(&items),
        ["report"] => print!("{}", report::page(&items, None, &time::per_call(&items))),
        ["report", file] => {
            let text = fs::read_to_string(file).expect("callgrind's file is read");
            let counts = count::per_call(&text, &items);
            print!("{}", report::page(&items, Some(&counts), &time::per_call(&items)));
        }
        _ => panic!("count or report [FILE]"),
    }
}
