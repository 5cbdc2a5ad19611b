//! What planning saves: the airtime of random rounds planned, by a greedy queue, first in, first out, and with a
//! transmission for each page; the fewest batches beside a sixteenth of the codewords; and how many more batches there
//! are with an idle codeword last.

#[allow(dead_code)]
#[path = "../search/choosing.rs"]
mod choosing;
#[allow(dead_code)]
#[path = "../search/families.rs"]
mod families;
#[allow(dead_code)]
#[path = "../search/free.rs"]
mod free;
#[path = "../search/judging.rs"]
mod judging;
#[allow(dead_code)]
#[path = "../search/promised.rs"]
mod promised;
#[allow(dead_code)]
#[path = "../random.rs"]
mod random;
#[allow(dead_code)]
#[path = "../search/slots.rs"]
mod slots;
#[path = "../search/touring.rs"]
mod touring;
#[allow(dead_code)]
#[path = "../search/tree.rs"]
mod tree;

use families::{alpha, mixed, numeric, round};
use free::search_freely;
use random::Random;
use slots::{End, Page, classes_of};
use std::collections::VecDeque;

const NODE_LIMIT: u32 = 100_000;

/// The bits of a preamble and of a batch, and of a second.
const PREAMBLE: u64 = 576;
const BATCH: u64 = 544;
const RATE: u64 = 1_200;

/// How many pages a round has, and how many rounds are made.
const SIZES: [(u32, u32); 5] = [(1, 1_000), (10, 1_000), (100, 300), (1_000, 100), (20_000, 10)];

const KINDS: [(&str, fn(&mut Random) -> u32); 4] =
    [("tones", |_| 1), ("numbers of 3 to 12 digits", numeric), ("texts of 20 to 80 characters", alpha), ("mixed", mixed)];

/// How many batches the pages take first in, first out: one after the other, each with idles before it up to its frame.
fn in_order(pages: &[Page]) -> u32 {
    let mut index = 0;
    for page in pages {
        while index % 16 / 2 != page.frame {
            index += 1;
        }
        index += page.length;
    }
    index.div_ceil(16)
}

/// How many batches it takes to send at each codeword the first waiting page of its frame, or else an idle.
fn by_queue(pages: &[Page]) -> u32 {
    let mut waiting: [VecDeque<u32>; 8] = Default::default();
    for page in pages {
        waiting[page.frame as usize].push_back(page.length);
    }
    let mut index = 0;
    while waiting.iter().any(|queue| !queue.is_empty()) {
        index += waiting[index as usize % 16 / 2].pop_front().unwrap_or(1);
    }
    index.div_ceil(16)
}

fn fewest(pages: &[Page], end: End) -> u32 {
    match search_freely(&classes_of(pages, end), NODE_LIMIT, end).0 {
        Ok(found) => found.batches,
        Err(_) => panic!("the search met its limit"),
    }
}

/// The sums of some rounds.
#[derive(Default)]
struct Sums {
    codewords: u64,
    fewest: u64,
    more_idle: u64,
    queue: u64,
    order: u64,
    alone: u64,
}

impl Sums {
    fn add(&mut self, pages: &[Page]) {
        let least = fewest(pages, End::Open);
        self.codewords += pages.iter().map(|page| u64::from(page.length)).sum::<u64>();
        self.fewest += u64::from(least);
        self.more_idle += u64::from(fewest(pages, End::Idle) - least);
        self.queue += u64::from(by_queue(pages));
        self.order += u64::from(in_order(pages));
        self.alone += pages.iter().map(|page| u64::from(in_order(std::slice::from_ref(page)))).sum::<u64>();
    }
}

/// The seconds that so many transmissions with so many batches in all take on the air, each with its preamble.
fn airtime(transmissions: u64, batches: u64) -> f64 {
    (transmissions * PREAMBLE + batches * BATCH) as f64 / RATE as f64
}

fn main() {
    println!(
        "| Round | Pages | Codewords / 16 | Fewest batches | Planned | Greedy queue | First in, first out | \
         A transmission a page | Saved against the queue | against first in, first out | `--idle-last` |"
    );
    println!("|---|---|---|---|---|---|---|---|---|---|---|");
    for (name, length) in KINDS {
        for (count, rounds) in SIZES {
            let mut random = Random::new();
            let mut sums = Sums::default();
            for _ in 0..rounds {
                sums.add(&round(&mut random, count, length));
            }
            let rounds = u64::from(rounds);
            let average = |sum: f64| sum / rounds as f64;
            let planned = airtime(rounds, sums.fewest);
            let queued = airtime(rounds, sums.queue);
            let ordered = airtime(rounds, sums.order);
            println!(
                "| {name} | {count} | {:.1} | {:.1} | {:.1} | {:.1} | {:.1} | {:.1} | {:.1} % | {:.1} % | {:.2} |",
                average(sums.codewords as f64) / 16.0,
                average(sums.fewest as f64),
                average(planned),
                average(queued),
                average(ordered),
                average(airtime(rounds * u64::from(count), sums.alone)),
                100.0 * (queued - planned) / queued,
                100.0 * (ordered - planned) / ordered,
                average(sums.more_idle as f64),
            );
        }
    }
}
