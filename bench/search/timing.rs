//! The benchmark `search`: for each part its name, the seconds that it took, and a sum of its answers.

use std::hint::black_box;
use std::time::Instant;

use crate::families::{HARD, hard, mixed, round};
use crate::free::search_freely;
use crate::promised::search;
use crate::random::Random;
use crate::slots::{End, classes_of};

const PAGES: u32 = 20_000;
const ROUNDS: u32 = 100;
const REPEATS: u32 = 200;
const NODE_LIMIT: u32 = 1_000_000;
const DEFAULT_LIMIT: u32 = 100_000;

pub fn run() {
    time_mixed();
    time_limit();
    time_hard();
}

fn time(name: &str, call: impl FnOnce() -> u64) {
    let start = Instant::now();
    let sum = call();
    let time = start.elapsed();
    println!("{name} {}.{:09} {sum}", time.as_secs(), time.subsec_nanos());
}

/// Rounds of 20,000 mixed pages: the search with its tour.
fn time_mixed() {
    let mut random = Random::new();
    let classes = classes_of(&round(&mut random, PAGES, mixed), End::Open);
    time("mixed-search", || {
        (0..ROUNDS).map(|_| search(black_box(&classes), DEFAULT_LIMIT, End::Open).map_or(0, |found| found.steps.len() as u64)).sum()
    });
    time("mixed-freely", || {
        let freely = || search_freely(black_box(&classes), DEFAULT_LIMIT, End::Open).0;
        (0..ROUNDS).map(|_| freely().map_or(0, |found| found.steps.len() as u64)).sum()
    });
}

/// A round whose promised tree runs into the greatest limit: nodes of the tree.
fn time_limit() {
    let (_, pages) = HARD[1];
    let classes = classes_of(&hard(pages), End::Open);
    time("limit-search", || {
        let tree = match search(black_box(&classes), NODE_LIMIT, End::Open) {
            Ok(found) => found.tree,
            Err(limit) => limit.tree,
        };
        u64::from(tree.nodes())
    });
}

/// The hard rounds by the free search: nodes of the trees.
fn time_hard() {
    for (name, pages) in HARD {
        let classes = classes_of(&hard(pages), End::Open);
        time(&format!("{}-freely", name.replace(' ', "_")), || {
            let freely = || search_freely(black_box(&classes), DEFAULT_LIMIT, End::Open).0;
            (0..REPEATS).map(|_| freely().map_or(0, |found| u64::from(found.tree.nodes()))).sum()
        });
    }
}
