//! `pocsag plan PAGES TX CERT` in plain Rust: the same checks, search and outputs, without proofs.

#[allow(dead_code)]
#[path = "../search/choosing.rs"]
mod choosing;
#[allow(dead_code)]
#[path = "../codewords.rs"]
mod codewords;
#[allow(dead_code)]
#[path = "../search/free.rs"]
mod free;
#[path = "../search/judging.rs"]
mod judging;
mod planning;
#[allow(dead_code)]
#[path = "../search/promised.rs"]
mod promised;
mod reading;
#[allow(dead_code)]
#[path = "../search/slots.rs"]
mod slots;
#[path = "../search/touring.rs"]
mod touring;
#[allow(dead_code)]
#[path = "../search/tree.rs"]
mod tree;

use planning::{classes_of, write};
use promised::{SearchLimit, search};
use reading::pages_of;
use slots::End;
use std::fs::{self, File};
use std::io;
use std::process::ExitCode;

const NODE_LIMIT: u32 = 100_000;

fn main() -> io::Result<ExitCode> {
    let paths: Vec<String> = std::env::args().skip(1).collect();
    let bytes = fs::read(&paths[0])?;
    let (tx, mut cert) = (File::create(&paths[1])?, File::create(&paths[2])?);
    let pages = pages_of(&bytes);
    drop(bytes);
    let found = match search(&classes_of(&pages), NODE_LIMIT, End::Open) {
        Ok(found) => found,
        Err(SearchLimit { least, found, .. }) => {
            eprintln!("search limit reached: at least {least} batches, {found} would do");
            return Ok(ExitCode::FAILURE);
        }
    };
    write(&pages, &found, tx, &mut cert)?;
    println!("pages {}\nbatches {}", pages.len(), found.batches);
    Ok(ExitCode::SUCCESS)
}
