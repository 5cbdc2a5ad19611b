//! Hard rounds by climbing: random edits are kept while the number of nodes does not fall.

use crate::free::search_freely;
use crate::promised::search;
use crate::random::Random;
use crate::slots::{End, Page, classes_of, end_of};

/// The words after `adversary`: `promised` or `free`, the end, how many pages, how many edits, how many
/// random numbers are thrown away first, and at how many nodes it stops.
pub fn run(words: &[String]) {
    let [kind, end, pages, edits, skipped, enough] = words else { panic!("six words") };
    let number = |word: &String| word.parse::<u32>().expect("a number");
    let end = end_of(end);
    let mut random = Random::new();
    for _ in 0..number(skipped) {
        random.below(2);
    }
    let mut best: Vec<Page> = (0..number(pages)).map(|_| random_page(&mut random)).collect();
    let enough = number(enough);
    let mut most = cost(kind, &best, end, enough);
    for _ in 0..number(edits) {
        let mut other = best.clone();
        for _ in 0..1 + random.below(2) {
            let place = random.below(other.len() as u32) as usize;
            other[place] = random_page(&mut random);
        }
        let nodes = cost(kind, &other, end, enough);
        if nodes >= most {
            best = other;
            most = nodes;
        }
        if most >= enough {
            break;
        }
    }
    let text: Vec<String> = best.iter().map(|page| format!("({}, {})", page.frame, page.length)).collect();
    println!("{most} nodes: [{}]", text.join(", "));
}

fn random_page(random: &mut Random) -> Page {
    Page { frame: random.below(8), length: 1 + random.below(32) }
}

fn cost(kind: &str, pages: &[Page], end: End, enough: u32) -> u32 {
    let classes = classes_of(pages, end);
    if kind == "free" {
        return search_freely(&classes, enough, end).1;
    }
    match search(&classes, enough, end) {
        Ok(found) => found.tree.nodes(),
        Err(limit) => limit.tree.nodes(),
    }
}
