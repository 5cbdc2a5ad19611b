//! The search for the fewest batches in plain Rust, by the algorithm of the proved one; its policy is told at
//! the head of `promised.rs` and `free.rs`. Without words it prints the benchmark `search`; `trial` tries the searches against a brute force and a separate checker;
//! `nodes` prints how many nodes the trees of many kinds of rounds have; `adversary` looks for hard rounds;
//! `certificates` writes rounds with their certificates.

mod adversary;
mod brute;
mod checker;
mod choosing;
mod comparing;
#[allow(dead_code)]
mod families;
mod free;
mod judging;
mod promised;
#[allow(dead_code)]
#[path = "../random.rs"]
mod random;
mod slots;
mod timing;
mod touring;
mod tree;
mod trial;

fn main() {
    let words: Vec<String> = std::env::args().skip(1).collect();
    match words.first().map(String::as_str) {
        None => timing::run(),
        Some("trial") => trial::run(),
        Some("nodes") => trial::print_nodes(&words[1..]),
        Some("adversary") => adversary::run(&words[1..]),
        Some("certificates") => comparing::run(&words[1..]),
        Some(word) => panic!("no such word: {word}"),
    }
}
