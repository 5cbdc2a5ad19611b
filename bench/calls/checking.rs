//! A check of a certificate of a million nodes, beside a plain checker by the same rules that reads the page file and
//! the certificate too.

use crate::library;
use crate::reading::pages_of;
use crate::slots::End;
use crate::timing::{beside, print_times};
use crate::tree::Tree;

const RUNS: u32 = 5;

#[derive(Clone, Copy)]
struct Limits {
    lo: [u32; 136],
    hi: [u32; 136],
    cap: [u32; 16],
}

#[derive(Clone, Copy)]
enum Way {
    IdleIn(usize),
    Early(usize),
    Late(usize),
}

struct Checker {
    count: [u32; 136],
    turns: [u32; 136],
    batches: u32,
    closed: bool,
}

fn frame(class: usize) -> usize {
    if class < 128 { class / 16 } else { class - 128 }
}

fn rest(class: usize) -> usize {
    if class < 128 { class % 16 } else { 1 }
}

fn start(class: usize, early: bool) -> usize {
    2 * frame(class) + usize::from(!early)
}

fn finish(class: usize, early: bool) -> usize {
    (start(class, early) + rest(class)) % 16
}

fn holds(set: u16, member: usize) -> bool {
    set >> member & 1 == 1
}

fn touches(class: usize, early: bool, set: u16) -> bool {
    !holds(set, start(class, early)) || !holds(set, finish(class, early))
}

fn crosses(class: usize, early: bool, set: u16) -> bool {
    holds(set, start(class, early)) != holds(set, finish(class, early))
}

fn covered(set: u16, first: usize, count: usize) -> u64 {
    (first..first + count).filter(|slot| holds(set, slot % 16)).count() as u64
}

impl Checker {
    fn least_load(&self, limits: &Limits, set: u16) -> u64 {
        let size = covered(set, 0, 16);
        (0..136)
            .filter(|class| self.count[*class] > 0)
            .map(|class| {
                let early = covered(set, start(class, true), rest(class));
                let late = covered(set, start(class, false), rest(class));
                let at = |n: u32| u64::from(n) * early + u64::from(self.count[class] - n) * late;
                u64::from(self.turns[class]) * size + at(limits.lo[class]).min(at(limits.hi[class]))
            })
            .sum()
    }

    fn overloads(&self, limits: &Limits, set: u16) -> bool {
        let cap: u64 = (0..16).filter(|slot| holds(set, *slot)).map(|slot| u64::from(limits.cap[slot])).sum();
        cap < self.least_load(limits, set)
    }

    fn ways(&self, limits: &Limits, set: u16) -> Vec<Way> {
        let mut found = Vec::new();
        for slot in 0..16 {
            if holds(set, slot) != holds(set, (slot + 1) % 16) {
                found.push(Way::IdleIn(slot));
            }
        }
        for class in 0..136 {
            if self.count[class] >= 1 && crosses(class, true, set) && limits.hi[class] >= 1 {
                found.push(Way::Early(class));
            }
            if crosses(class, false, set) && limits.lo[class] < self.count[class] {
                found.push(Way::Late(class));
            }
        }
        found
    }

    fn narrow(&self, limits: &Limits, way: Way) -> Limits {
        let mut narrowed = *limits;
        match way {
            Way::IdleIn(slot) => narrowed.cap[slot] = narrowed.cap[slot].min(self.batches - 1),
            Way::Early(class) => narrowed.lo[class] = narrowed.lo[class].max(1),
            Way::Late(class) => narrowed.hi[class] = narrowed.hi[class].min(self.count[class] - 1),
        }
        narrowed
    }

    fn is_certain(&self, limits: &Limits, set: u16, class: usize) -> bool {
        let (early, late) = (touches(class, true, set), touches(class, false, set));
        self.count[class] >= 1
            && ((early && late)
                || (early && limits.lo[class] >= 1)
                || (late && limits.hi[class] < self.count[class]))
    }

    fn each(&self, limits: &Limits, ways: &[Way], children: &[Tree], depth: u32) -> bool {
        ways.len() == children.len()
            && ways.iter().zip(children).all(|(way, child)| self.node(&mut self.narrow(limits, *way), child, depth))
    }

    /// Whether the node is accepted. The limits are narrowed in place, and are put back behind each child of a `Split`.
    fn node(&self, limits: &mut Limits, tree: &Tree, depth: u32) -> bool {
        if depth == 0 {
            return false;
        }
        match tree {
            Tree::Overload(set) => *set != 0 && self.overloads(limits, *set),
            Tree::Split { class, m, below, from } => {
                let (class, m) = (usize::from(*class), u32::from(*m));
                if class >= 136 || m <= limits.lo[class] || m > limits.hi[class] {
                    return false;
                }
                let most = limits.hi[class];
                limits.hi[class] = m - 1;
                let below_accepted = self.node(limits, below, depth - 1);
                limits.hi[class] = most;
                if !below_accepted {
                    return false;
                }
                let least = limits.lo[class];
                limits.lo[class] = m;
                let from_accepted = self.node(limits, from, depth - 1);
                limits.lo[class] = least;
                from_accepted
            }
            Tree::Cut { set, needed, children } => {
                let needed = usize::from(*needed);
                needed < 136
                    && self.batches >= 1
                    && holds(*set, 0)
                    && self.is_certain(limits, *set, needed)
                    && self.each(limits, &self.ways(limits, *set), children, depth - 1)
            }
            Tree::Close { children } => {
                let mut ways = vec![Way::IdleIn(15)];
                if limits.lo[135] < self.count[135] {
                    ways.push(Way::Late(135));
                }
                self.closed && self.batches >= 1 && self.each(limits, &ways, children, depth - 1)
            }
            Tree::Open => false,
        }
    }
}

fn halved(nodes: u32, class: u8, low: u16, high: u16) -> Tree {
    if nodes < 3 || class > 100 {
        return Tree::Overload(0xffff);
    }
    let (class, low, high) = if high - low < 4 { (class + 16, 0, 2500) } else { (class, low, high) };
    let m = low + (high - low) / 2;
    let half = (nodes - 1) / 4 * 2 + 1;
    Tree::Split {
        class,
        m,
        below: Box::new(halved(half, class, low, m - 1)),
        from: Box::new(halved(nodes - 1 - half, class, m, high)),
    }
}

/// Reads a tree of `Split` and `Overload`.
fn read_tree(bytes: &mut &[u8]) -> Option<Tree> {
    let (tag, rest) = bytes.split_first()?;
    *bytes = rest;
    let number = |at: usize| Some(u16::from_be_bytes([*rest.get(at)?, *rest.get(at + 1)?]));
    match tag {
        0 => {
            let set = number(0)?;
            *bytes = rest.get(2..)?;
            (set != 0).then_some(Tree::Overload(set))
        }
        1 => {
            let (class, m) = (*rest.first()?, number(1)?);
            *bytes = rest.get(3..)?;
            if class > 135 || m == 0 || m > 20_000 {
                return None;
            }
            let below = Box::new(read_tree(bytes)?);
            Some(Tree::Split { class, m, below, from: Box::new(read_tree(bytes)?) })
        }
        _ => None,
    }
}

fn check(pages: &[u8], certificate: &[u8]) -> bool {
    let mut rest = certificate.strip_prefix(b"PCB2\0").expect("a certificate for the open end");
    let batches = u32::from_be_bytes(rest[..4].try_into().expect("four bytes"));
    rest = &rest[4..];
    let tree = read_tree(&mut rest).filter(|_| rest.is_empty()).expect("a tree");
    let mut checker = Checker { count: [0; 136], turns: [0; 136], batches: batches - 1, closed: false };
    for page in pages_of(pages) {
        let length = 1 + page.items.len();
        let class = page.address as usize % 8 * 16 + length % 16;
        checker.count[class] += 1;
        checker.turns[class] += length as u32 / 16;
    }
    let mut limits = Limits { lo: [0; 136], hi: checker.count, cap: [checker.batches; 16] };
    checker.node(&mut limits, &tree, 300)
}

/// Times the check of 999,999 nodes for 20,000 tones.
pub fn run() {
    let mut pages = String::from("address,kind,message\n");
    for address in 0..20_000 {
        pages += &format!("{address},tone0,\n");
    }
    let certificate = halved(999_999, 1, 0, 2500).certificate(End::Open, 1250);
    let plain = || check(pages.as_bytes(), &certificate);
    print_times("check, 999,999 nodes", 1, beside(RUNS, plain, || library::check(pages.as_bytes(), &certificate)));
}
