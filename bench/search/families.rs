//! Rounds of many kinds, each made from a number.

use crate::random::Random;
use crate::slots::Page;

/// The kinds of rounds, in the order of the tables.
pub const FAMILIES: [(&str, fn(&mut Random) -> Vec<Page>); 20] = [
    ("mixed", |random| messages(random, mixed)),
    ("alpha", |random| messages(random, alpha)),
    ("long", |random| messages(random, long)),
    ("tones", |random| messages(random, |_| 1)),
    ("rest 0 loops", rest_none),
    ("loops", loops),
    ("pairs", |random| pairs(random, 2, 4)),
    ("many pairs", |random| pairs(random, 6, 9)),
    ("closed tours", |random| tours(random, 2, 5, 15)),
    ("closed tours, long", |random| tours(random, 2, 4, 40)),
    ("big tours", |random| tours(random, 4, 8, 30)),
    ("slack", slack),
    ("multiples of 2", |random| multiples(random, 2)),
    ("multiples of 4", |random| multiples(random, 4)),
    ("multiples of 8", |random| multiples(random, 8)),
    ("multiples of 16", |random| multiples(random, 16)),
    ("odd rests", odd),
    ("small", small),
    ("two kinds", two_kinds),
    ("tight hundreds", tight),
];

fn between(random: &mut Random, least: u32, most: u32) -> u32 {
    least + random.below(most - least + 1)
}

fn page(random: &mut Random, length: u32) -> Page {
    Page { frame: random.below(8), length }
}

fn messages(random: &mut Random, length: fn(&mut Random) -> u32) -> Vec<Page> {
    let count = between(random, 2, 16);
    round(random, count, length)
}

/// Half tones, a quarter numbers of 1 to 40 digits, a quarter texts of 1 to 120 characters.
pub fn mixed(random: &mut Random) -> u32 {
    match random.below(4) {
        0 | 1 => 1,
        2 => 1 + between(random, 1, 40).div_ceil(5),
        _ => 1 + (7 * between(random, 1, 120)).div_ceil(20),
    }
}

/// Texts of 20 to 80 characters.
pub fn alpha(random: &mut Random) -> u32 {
    1 + (7 * between(random, 20, 80)).div_ceil(20)
}

/// Numbers of 3 to 12 digits.
pub fn numeric(random: &mut Random) -> u32 {
    1 + between(random, 3, 12).div_ceil(5)
}

pub fn long(random: &mut Random) -> u32 {
    between(random, 1, 1401)
}

/// Whole turns in any frame, and a few other pages.
fn rest_none(random: &mut Random) -> Vec<Page> {
    let loops = between(random, 1, 5);
    let others = random.below(5);
    let mut pages: Vec<Page> = (0..loops).map(|_| page(random, 16)).collect();
    for _ in 0..others {
        let length = between(random, 1, 31);
        pages.push(page(random, length));
    }
    pages
}

/// Whole turns alone.
fn loops(random: &mut Random) -> Vec<Page> {
    let count = between(random, 1, 8);
    (0..count)
        .map(|_| {
            let turns = between(random, 1, 2);
            page(random, 16 * turns)
        })
        .collect()
}

/// Pairs of pages that close a turn together from the start of a frame, without idles.
fn pairs(random: &mut Random, least: u32, most: u32) -> Vec<Page> {
    let count = between(random, least, most);
    let mut pages = Vec::new();
    for _ in 0..count {
        let (frame, half) = (random.below(8), between(random, 1, 7));
        pages.push(Page { frame, length: 2 * half });
        pages.push(Page { frame: (frame + half) % 8, length: 16 - 2 * half });
    }
    pages
}

/// Some closed walks from any boundaries, of pages of at most so many codewords, without idles.
fn tours(random: &mut Random, least: u32, most: u32, longest: u32) -> Vec<Page> {
    let walks = between(random, least, most);
    let mut pages = Vec::new();
    for _ in 0..walks {
        let home = random.below(16);
        let mut at = home;
        for _ in 0..between(random, 1, 3) {
            let length = between(random, 1, longest);
            pages.push(Page { frame: at / 2, length });
            at = (at + length) % 16;
        }
        if at != home {
            pages.push(Page { frame: at / 2, length: (16 + home - at) % 16 });
        }
    }
    pages
}

/// Closed walks less one to four codewords.
fn slack(random: &mut Random) -> Vec<Page> {
    let mut pages = tours(random, 2, 5, 15);
    for _ in 0..between(random, 1, 4) {
        let place = random.below(pages.len() as u32) as usize;
        pages[place].length = pages[place].length.max(2) - 1;
    }
    pages
}

fn multiples(random: &mut Random, step: u32) -> Vec<Page> {
    let count = between(random, 2, 16);
    (0..count)
        .map(|_| {
            let steps = between(random, 1, 48 / step);
            page(random, step * steps)
        })
        .collect()
}

/// Pages of odd lengths that lead from one to the next round about.
fn odd(random: &mut Random) -> Vec<Page> {
    let mut pages = Vec::new();
    for _ in 0..between(random, 1, 3) {
        let mut at = random.below(16);
        for _ in 0..between(random, 2, 4) {
            let length = 2 * random.below(16) + 1;
            pages.push(Page { frame: at / 2, length });
            at = (at + length) % 16;
        }
    }
    pages
}

/// One to seven pages, as the brute force takes them.
pub fn small(random: &mut Random) -> Vec<Page> {
    let longest = [4, 12, 20, 33][random.below(4) as usize];
    let count = between(random, 1, 7);
    (0..count)
        .map(|_| {
            let length = between(random, 1, longest);
            page(random, length)
        })
        .collect()
}

/// Many pages of two lengths and two frames.
fn two_kinds(random: &mut Random) -> Vec<Page> {
    let kinds = [page(random, 0), page(random, 0)].map(|page| Page { length: between(random, 1, 31), ..page });
    let count = between(random, 4, 30);
    (0..count).map(|_| kinds[random.below(2) as usize]).collect()
}

/// Some hundred pages that fill their batches without an idle.
fn tight(random: &mut Random) -> Vec<Page> {
    let count = between(random, 100, 400);
    let mut pages = Vec::new();
    let mut at = 0;
    for _ in 0..count {
        let length = mixed(random);
        pages.push(Page { frame: at / 2, length });
        at = (at + length) % 16;
    }
    if at > 0 {
        pages.push(Page { frame: at / 2, length: 16 - at });
    }
    pages
}

/// Rounds that are hard in the promised shape, found by `adversary` but for the first; the second runs into
/// the limit of a million nodes.
pub const HARD: &[(&str, &[(u32, u32)])] = &[
    ("eight pages", &[(5, 5), (0, 9), (4, 9), (1, 3), (7, 31), (6, 15), (2, 31), (1, 15)]),
    ("eight more", &[(0, 21), (0, 29), (2, 31), (3, 24), (6, 15), (1, 31), (5, 15), (4, 14)]),
    ("eight others", &[(6, 3), (1, 31), (6, 18), (2, 15), (4, 20), (0, 6), (7, 11), (3, 31)]),
    ("nine pages", &[(4, 26), (2, 10), (0, 23), (3, 31), (6, 32), (5, 10), (7, 17), (1, 7), (0, 14)]),
    ("ten pages", &[(6, 31), (1, 24), (5, 22), (7, 27), (2, 31), (3, 9), (3, 31), (0, 22), (4, 21), (4, 15)]),
    ("ten texts", &[(1, 23), (5, 28), (4, 10), (2, 15), (0, 24), (0, 16), (6, 20), (2, 17), (0, 27), (3, 24)]),
    (
        "twelve pages",
        &[(3, 5), (5, 31), (5, 16), (4, 32), (1, 16), (2, 28), (4, 13), (0, 13), (0, 24), (7, 6), (6, 3), (4, 31)],
    ),
    (
        "sixteen pages",
        &[
            (2, 4), (6, 26), (6, 3), (3, 11), (7, 25), (7, 29), (4, 12), (1, 31), (4, 11), (3, 6), (1, 20), (0, 25), (2, 24),
            (5, 3), (5, 27), (2, 11),
        ],
    ),
    (
        "sixteen others",
        &[
            (1, 13), (6, 21), (5, 5), (2, 30), (1, 1), (7, 30), (0, 11), (3, 31), (7, 9), (6, 21), (4, 14), (0, 29), (5, 32),
            (5, 16), (3, 3), (7, 2),
        ],
    ),
];

pub fn hard(pages: &[(u32, u32)]) -> Vec<Page> {
    pages.iter().map(|(frame, length)| Page { frame: *frame, length: *length }).collect()
}

/// So many pages of one kind.
pub fn round(random: &mut Random, count: u32, length: fn(&mut Random) -> u32) -> Vec<Page> {
    (0..count).map(|_| Page { frame: random.below(8), length: length(random) }).collect()
}
