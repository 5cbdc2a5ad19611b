//! Times the calls of the C library beside plain Rust that does the same, in one process. Without words it times all of
//! them; `plan`, `check`, `decode` and `hear` name one.

#[allow(dead_code)]
#[path = "../codewords.rs"]
mod codewords;
#[path = "../random.rs"]
mod random;

mod checking;
mod decoding;
mod hearing;
mod library;
mod listing;
mod plans;
mod timing;

#[path = "../plan/planning.rs"]
mod planning;
#[path = "../plan/reading.rs"]
mod reading;

#[allow(dead_code)]
#[path = "../search/choosing.rs"]
mod choosing;
#[allow(dead_code)]
#[path = "../search/families.rs"]
mod families;
#[allow(dead_code)]
#[path = "../search/free.rs"]
mod free;
#[allow(dead_code)]
#[path = "../search/judging.rs"]
mod judging;
#[allow(dead_code)]
#[path = "../search/promised.rs"]
mod promised;
#[allow(dead_code)]
#[path = "../search/slots.rs"]
mod slots;
#[allow(dead_code)]
#[path = "../search/touring.rs"]
mod touring;
#[allow(dead_code)]
#[path = "../search/tree.rs"]
mod tree;

const PARTS: [(&str, fn()); 4] = [("plan", plans::run), ("check", checking::run), ("decode", decoding::run), ("hear", hearing::run)];

fn main() {
    let words: Vec<String> = std::env::args().skip(1).collect();
    for (name, run) in PARTS {
        if words.is_empty() || words.iter().any(|word| word == name) {
            run();
        }
    }
}
