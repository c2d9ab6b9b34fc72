//! Writes the list of answers that the Rattle program `replay` replays:
//! `cargo run --manifest-path oracle/Cargo.toml --release --offline --example replay_list`.

mod calls;
mod list;
mod rng;

fn main() {
    std::fs::write(list::PATH, list::made()).expect("the list can be written");
}
