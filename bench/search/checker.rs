//! A checker of bound trees that shares nothing with the planner: it adds loads slot by slot and codeword by
//! codeword, from the pages themselves.

use crate::slots::{End, Page};
use crate::tree::Tree;

#[derive(Clone)]
struct Bounds {
    lo: Vec<i64>,
    hi: Vec<i64>,
    cap: Vec<i64>,
}

pub struct Checker {
    end: End,
    /// The batches that are to be refuted.
    batches: i64,
    count: Vec<i64>,
    turns: Vec<i64>,
}

fn class_of(page: &Page, end: End) -> usize {
    if end == End::Closed && page.length == 1 { 128 + page.frame as usize } else { page.frame as usize * 16 + page.length as usize % 16 }
}

fn frame(class: usize) -> usize {
    if class >= 128 { class - 128 } else { class / 16 }
}

fn rest(class: usize) -> usize {
    if class >= 128 { 1 } else { class % 16 }
}

fn start(class: usize, late: usize) -> usize {
    frame(class) * 2 + late
}

fn finish(class: usize, late: usize) -> usize {
    (start(class, late) + rest(class)) % 16
}

fn has(set: u16, member: usize) -> bool {
    set & (1 << (member % 16)) != 0
}

fn covered(class: usize, late: usize, set: u16) -> i64 {
    (0..rest(class)).filter(|place| has(set, start(class, late) + place)).count() as i64
}

enum Exit {
    Idle(usize),
    Early(usize),
    Late(usize),
}

/// Whether the tree shows that the pages need at least so many batches.
pub fn check(pages: &[Page], batches: u32, tree: &Tree, end: End) -> bool {
    if batches == 0 {
        return false;
    }
    let mut checker = Checker { end, batches: i64::from(batches) - 1, count: vec![0; 136], turns: vec![0; 136] };
    for page in pages {
        checker.count[class_of(page, end)] += 1;
        checker.turns[class_of(page, end)] += i64::from(page.length / 16);
    }
    let bounds = Bounds { lo: vec![0; 136], hi: checker.count.clone(), cap: vec![checker.batches; 16] };
    checker.node(&bounds, tree, 300)
}

impl Checker {
    fn node(&self, bounds: &Bounds, tree: &Tree, depth: u32) -> bool {
        if depth == 0 {
            return false;
        }
        match tree {
            Tree::Open => false,
            Tree::Overload(set) => *set != 0 && self.least(bounds, *set) > self.room(bounds, *set),
            Tree::Split { class, m, below, from } => {
                let (class, m) = (usize::from(*class), i64::from(*m));
                if class > 135 || bounds.lo[class] >= m || m > bounds.hi[class] {
                    return false;
                }
                let mut low = bounds.clone();
                low.hi[class] = m - 1;
                let mut high = bounds.clone();
                high.lo[class] = m;
                self.node(&low, below, depth - 1) && self.node(&high, from, depth - 1)
            }
            Tree::Cut { set, needed, children } => {
                let needed = usize::from(*needed);
                self.batches >= 1
                    && needed <= 135
                    && has(*set, 0)
                    && self.certain(bounds, *set, needed)
                    && self.each(bounds, self.exits(bounds, *set), children, depth)
            }
            Tree::Close { children } => {
                let mut exits = vec![Exit::Idle(15)];
                if self.end == End::Closed && self.count[135] >= 1 && bounds.lo[135] < self.count[135] {
                    exits.push(Exit::Late(135));
                }
                self.end != End::Open && self.batches >= 1 && self.each(bounds, exits, children, depth)
            }
        }
    }

    fn each(&self, bounds: &Bounds, exits: Vec<Exit>, children: &[Tree], depth: u32) -> bool {
        exits.len() == children.len()
            && exits.iter().zip(children).all(|(exit, child)| {
                let mut narrowed = bounds.clone();
                match *exit {
                    Exit::Idle(slot) => narrowed.cap[slot] = narrowed.cap[slot].min(self.batches - 1),
                    Exit::Early(class) => narrowed.lo[class] = narrowed.lo[class].max(1),
                    Exit::Late(class) => narrowed.hi[class] = narrowed.hi[class].min(self.count[class] - 1),
                }
                self.node(&narrowed, child, depth - 1)
            })
    }

    fn least(&self, bounds: &Bounds, set: u16) -> i64 {
        let size = (0..16).filter(|slot| has(set, *slot)).count() as i64;
        (0..136)
            .map(|class| {
                let load = |early: i64| {
                    early * covered(class, 0, set) + (self.count[class] - early) * covered(class, 1, set)
                };
                self.turns[class] * size + load(bounds.lo[class]).min(load(bounds.hi[class]))
            })
            .sum()
    }

    fn room(&self, bounds: &Bounds, set: u16) -> i64 {
        (0..16).filter(|slot| has(set, *slot)).map(|slot| bounds.cap[slot]).sum()
    }

    fn certain(&self, bounds: &Bounds, set: u16, class: usize) -> bool {
        let out = |late: usize| !has(set, start(class, late)) || !has(set, finish(class, late));
        self.count[class] >= 1
            && (out(0) && out(1) || out(0) && bounds.lo[class] >= 1 || out(1) && bounds.hi[class] < self.count[class])
    }

    fn exits(&self, bounds: &Bounds, set: u16) -> Vec<Exit> {
        let crosses = |class: usize, late: usize| has(set, start(class, late)) != has(set, finish(class, late));
        let mut exits: Vec<Exit> = (0..16).filter(|slot| has(set, *slot) != has(set, slot + 1)).map(Exit::Idle).collect();
        for class in (0..136).filter(|class| self.count[*class] >= 1) {
            if crosses(class, 0) && bounds.hi[class] >= 1 {
                exits.push(Exit::Early(class));
            }
            if crosses(class, 1) && bounds.lo[class] < self.count[class] {
                exits.push(Exit::Late(class));
            }
        }
        exits
    }
}
