//! Trials of the searches, and tables of nodes.

use crate::brute::{are_steps_of, fewest, is_shaped, is_transmission};
use crate::checker::check;
use crate::families::{FAMILIES, HARD, hard, small};
use crate::free::search_freely;
use crate::promised::search;
use crate::random::Random;
use crate::slots::{ENDS, End, Page, all_limits, classes_of, end_of};
use crate::tree::Tree;

const LIMIT: u32 = 100_000;
const SMALL_ROUNDS: u32 = 5_000;
const ROUNDS: u32 = 300;

/// Rounds with their fewest batches for the open, the closed and the idle end, of pages with their frame and length.
const EXAMPLES: &[(&str, &[(u32, u32)], [u32; 3])] = &[
    ("lone tone", &[(0, 1)], [1, 1, 1]),
    ("lone tone in the last frame", &[(7, 1)], [1, 1, 1]),
    ("two tones in the last frame", &[(7, 1), (7, 1)], [1, 1, 2]),
    ("three tones in one frame", &[(5, 1), (5, 1), (5, 1)], [2, 2, 2]),
    ("one full batch", &[(0, 16)], [1, 2, 2]),
    ("loop apart", &[(3, 16)], [2, 2, 2]),
    ("loops apart", &[(0, 16), (3, 16)], [3, 3, 3]),
    ("two numbers that fill a batch", &[(0, 6), (3, 10)], [1, 2, 2]),
    ("three pages that fill two batches", &[(0, 6), (3, 10), (3, 16)], [2, 3, 3]),
    ("two in the last frame", &[(7, 2), (7, 2)], [2, 3, 3]),
    ("long number", &[(7, 50)], [4, 5, 5]),
    ("long text", &[(0, 1401)], [88, 88, 88]),
    ("closed with an address alone", &[(0, 14), (7, 1), (7, 17)], [2, 2, 3]),
    ("closed both ways", &[(0, 14), (7, 1), (7, 3), (1, 14)], [2, 3, 3]),
];

pub fn run() {
    for (name, pages, fewest_batches) in EXAMPLES {
        let pages = hard(pages);
        for ((_, end), batches) in ENDS.into_iter().zip(*fewest_batches) {
            assert_eq!(fewest(&pages, end), batches, "{name}");
            try_round(&pages, end, Some(batches));
        }
    }
    println!("{} examples, each end", EXAMPLES.len());
    let mut random = Random::new();
    let mut shaped = 0;
    for _ in 0..SMALL_ROUNDS {
        let pages = small(&mut random);
        for (_, end) in ENDS {
            let want = fewest(&pages, end);
            let nodes = try_round(&pages, end, Some(want));
            shaped += u32::from(nodes > 1);
            try_limits(&pages, end, nodes);
        }
    }
    println!("{SMALL_ROUNDS} small rounds, each end: as the brute force; {shaped} trees of more than one node");
    for (name, make) in FAMILIES {
        for _ in 0..ROUNDS {
            let pages = make(&mut random);
            for (_, end) in ENDS {
                try_round(&pages, end, None);
            }
            let [open, closed, idle] = ENDS.map(|(_, end)| batches_of(&pages, end));
            assert!(open <= closed && closed <= idle && idle <= open + 1, "{pages:?}: {open}, {closed}, {idle}");
        }
        println!("{name}: {ROUNDS} rounds, each end");
    }
}

fn batches_of(pages: &[Page], end: End) -> u32 {
    match search_freely(&classes_of(pages, end), LIMIT, end).0 {
        Ok(found) => found.batches,
        Err(_) => panic!("the free search at its limit: {pages:?}"),
    }
}

/// Both searches, their trees and tours; returns the nodes of the promised tree.
fn try_round(pages: &[Page], end: End, want: Option<u32>) -> u32 {
    let classes = classes_of(pages, end);
    let (free, _) = search_freely(&classes, LIMIT, end);
    let Ok(free) = free else { panic!("the free search at its limit: {pages:?}") };
    let answers = [search(&classes, LIMIT, end).ok(), Some(free)];
    for (place, answer) in answers.iter().enumerate() {
        let Some(found) = answer else { continue };
        let batches = found.batches;
        assert!(want.is_none_or(|want| want == batches), "{batches} batches, {want:?} are fewest: {pages:?} {end:?}");
        assert!(is_transmission(pages, &found.steps, batches, end), "no transmission: {pages:?} {end:?}");
        assert!(are_steps_of(&found.choice, &found.steps), "another choice: {pages:?} {end:?}");
        assert!(check(pages, batches, &found.tree, end), "refused, search {place}: {pages:?} {end:?} {:?}", found.tree);
        assert!(!check(pages, batches + 1, &found.tree, end), "accepted for one more: {pages:?} {end:?}");
        assert!(found.tree.depth() <= 300);
    }
    let Some(found) = &answers[0] else { return LIMIT };
    if pages.len() <= 10 && found.tree.nodes() > 1 {
        let least = found.batches - 1;
        assert!(is_shaped(&classes, end, least, &all_limits(&classes, least), &found.tree), "shape: {pages:?} {end:?}");
    }
    found.tree.nodes()
}

/// The limit that is exactly enough, and one less.
fn try_limits(pages: &[Page], end: End, nodes: u32) {
    let classes = classes_of(pages, end);
    assert!(search(&classes, nodes, end).is_ok());
    if nodes > 1 {
        let Err(limit) = search(&classes, nodes - 1, end) else { panic!("more nodes than the limit: {pages:?}") };
        let mut marks = Vec::new();
        mark(&limit.tree, &mut marks);
        let (closed, open) = marks.split_at(nodes as usize - 1);
        assert!(limit.found == limit.least + 1 && !open.is_empty());
        assert!(closed.iter().all(|open| !open) && open.iter().all(|open| *open), "{pages:?}");
    }
    let (_, examined) = search_freely(&classes, LIMIT, end);
    let (Ok(enough), _) = search_freely(&classes, examined, end) else { panic!("less than the limit: {pages:?}") };
    assert!(enough.tree.nodes() <= examined);
    if examined > 1 {
        let (Err(near), _) = search_freely(&classes, examined - 1, end) else { panic!("more than the limit: {pages:?}") };
        assert!(check(pages, near.least, &near.tree, end));
        assert!(is_transmission(pages, &near.steps, near.least + 1, end) && are_steps_of(&near.choice, &near.steps));
    }
}

/// Whether each node is `Open`, in the order of the certificate's text.
fn mark(tree: &Tree, marks: &mut Vec<bool>) {
    marks.push(matches!(tree, Tree::Open));
    for child in tree.children() {
        mark(child, marks);
    }
}

#[derive(Default)]
struct Tally {
    searches: u64,
    nodes: u64,
    most: u64,
    limits: u64,
    above: [u64; 3],
}

impl Tally {
    fn add(&mut self, nodes: u64, is_limit: bool) {
        self.searches += 1;
        self.nodes += nodes;
        self.most = self.most.max(nodes);
        self.limits += u64::from(is_limit);
        for (above, limit) in self.above.iter_mut().zip([10, 100, 1_000]) {
            *above += u64::from(nodes > limit);
        }
    }

    fn average(&self) -> f64 {
        self.nodes as f64 / self.searches as f64
    }
}

fn tree_nodes(tree: &Tree) -> u64 {
    u64::from(tree.nodes())
}

/// The nodes of so many rounds of each family, 300 where no number is given, and of the hard rounds, for the ends that
/// follow: the open and the closed one where none is named.
pub fn print_nodes(words: &[String]) {
    let rounds: u32 = words.first().map_or(ROUNDS, |word| word.parse().expect("a number of rounds"));
    let named: Vec<End> = words.iter().skip(1).map(|word| end_of(word)).collect();
    let ends = if named.is_empty() { vec![End::Open, End::Closed] } else { named };
    println!("| Family | least + 1 | promised avg | > 10 | > 100 | > 1,000 | max | limit | free avg | max | examined avg | max | limit |");
    println!("|---|---|---|---|---|---|---|---|---|---|---|---|---|");
    for (name, make) in FAMILIES {
        let mut random = Random::new();
        let (mut promised, mut free, mut examined, mut more) = (Tally::default(), Tally::default(), Tally::default(), 0);
        for _ in 0..rounds {
            let pages = make(&mut random);
            for end in ends.iter().copied() {
                let classes = classes_of(&pages, end);
                match search(&classes, LIMIT, end) {
                    Ok(found) => promised.add(tree_nodes(&found.tree), false),
                    Err(limit) => promised.add(tree_nodes(&limit.tree), true),
                }
                let (answer, looked) = search_freely(&classes, LIMIT, end);
                examined.add(u64::from(looked), answer.is_err());
                match answer {
                    Ok(found) => {
                        more += u64::from(found.tree.nodes() > 1);
                        free.add(tree_nodes(&found.tree), false);
                    }
                    Err(near) => free.add(tree_nodes(&near.tree), true),
                }
            }
        }
        println!(
            "| {name} | {:.1} % | {:.2} | {} | {} | {} | {} | {} | {:.2} | {} | {:.2} | {} | {} |",
            100.0 * more as f64 / free.searches as f64,
            promised.average(),
            promised.above[0],
            promised.above[1],
            promised.above[2],
            promised.most,
            promised.limits,
            free.average(),
            free.most,
            examined.average(),
            examined.most,
            examined.limits,
        );
    }
    println!("\n| Hard round | end | answer | promised | free | examined |\n|---|---|---|---|---|---|");
    for (name, pages) in HARD {
        for end in ends.iter().copied() {
            let classes = classes_of(&hard(pages), end);
            let promised = match search(&classes, 1_000_000, end) {
                Ok(found) => found.tree.nodes().to_string(),
                Err(_) => "LIMIT".to_string(),
            };
            let (answer, examined) = search_freely(&classes, LIMIT, end);
            let (batches, nodes) = match &answer {
                Ok(found) => (found.batches, found.tree.nodes()),
                Err(near) => (near.least, 0),
            };
            println!("| {name} | {end:?} | {batches} | {promised} | {nodes} | {examined} |");
        }
    }
}
