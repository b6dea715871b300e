//! Prints what was left out of the listed Rust and what was edited.

fn main() {
    print!("{}", oracle::TAKEN);
}
