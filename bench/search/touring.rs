//! What the arcs of a choice reach from boundary 0, and tours of them, as in `pocsag_tour`.

use crate::slots::{CLASSES, Choice, Classes, End, RUNS, SLOTS, finishes_in, loads, starts_in};

#[derive(Clone, Copy, PartialEq, Eq, Debug)]
pub enum Step {
    Idle,
    Run { class: u8, early: bool },
}

/// How many runs of the class stand early or late under the choice.
fn standing(classes: &Classes, choice: &Choice, class: usize, early: bool) -> u32 {
    if early { choice.early[class] } else { classes.count[class] - choice.early[class] }
}

/// For each boundary the set of those that an arc of the choice leads to from there.
fn links(classes: &Classes, choice: &Choice, batches: u32) -> [u16; SLOTS] {
    let mut links = [0; SLOTS];
    for class in (0..CLASSES).filter(|class| classes.count[*class] > 0) {
        for late in 0..2 {
            if standing(classes, choice, class, late == 0) > 0 {
                links[usize::from(RUNS[class].start[late])] |= 1 << RUNS[class].finish[late];
            }
        }
    }
    for (slot, load) in loads(classes, &choice.early).iter().enumerate() {
        if *load < batches {
            links[slot] |= 1 << ((slot + 1) % SLOTS);
        }
    }
    links
}

/// The boundaries that are reached from boundary 0 over the runs of the choice and its idles.
pub fn reached(classes: &Classes, choice: &Choice, batches: u32) -> u16 {
    let links = links(classes, choice, batches);
    let (mut set, mut fresh): (u16, u16) = (1, 1);
    while fresh != 0 {
        let found = links[fresh.trailing_zeros() as usize] & !set;
        set |= found;
        fresh = fresh & (fresh - 1) | found;
    }
    set
}

/// Whether a run of the class lies outside the set, with both ends.
pub fn has_run_outside(classes: &Classes, choice: &Choice, set: u16, class: usize, early: bool) -> bool {
    standing(classes, choice, class, early) > 0 && !starts_in(class, early, set) && !finishes_in(class, early, set)
}

/// Whether some run lies outside the set.
pub fn is_apart(classes: &Classes, choice: &Choice, set: u16) -> bool {
    (0..CLASSES).any(|class| [true, false].iter().any(|early| has_run_outside(classes, choice, set, class, *early)))
}

/// Whether a tour of the choice can end as the end asks: with an idle in slot 15, or for the closed end with a
/// late run of class 135.
pub fn can_close(classes: &Classes, end: End, choice: &Choice, batches: u32) -> bool {
    let has_idle = loads(classes, &choice.early)[15] < batches;
    match end {
        End::Open => true,
        End::Closed => has_idle || choice.early[135] < classes.count[135],
        End::Idle => has_idle,
    }
}

const KINDS: usize = 18;

/// The arc of each kind at a boundary: the rests of its frame, the address codeword alone, the idle.
fn arc(boundary: usize, kind: usize) -> (Step, usize) {
    let early = boundary % 2 == 0;
    let class = match kind {
        17 => return (Step::Idle, (boundary + 1) % SLOTS),
        16 => 128 + boundary / 2,
        rest => 16 * (boundary / 2) + rest,
    };
    (Step::Run { class: class as u8, early }, usize::from(RUNS[class].finish[boundary % 2]))
}

struct Arcs {
    left: [[u32; KINDS]; SLOTS],
    to: [[usize; KINDS]; SLOTS],
}

fn arcs_of(classes: &Classes, choice: &Choice, batches: u32) -> Arcs {
    let loads = loads(classes, &choice.early);
    let mut arcs = Arcs { left: [[0; KINDS]; SLOTS], to: [[0; KINDS]; SLOTS] };
    for boundary in 0..SLOTS {
        for kind in 0..KINDS {
            let (step, to) = arc(boundary, kind);
            arcs.to[boundary][kind] = to;
            arcs.left[boundary][kind] = match step {
                Step::Idle => batches - loads[boundary],
                Step::Run { class, early } => standing(classes, choice, usize::from(class), early),
            };
        }
    }
    arcs
}

/// For each boundary an arc that leads it nearer to the root; the walk takes it last.
fn exits_to(arcs: &Arcs, root: usize) -> [usize; SLOTS] {
    let used: Vec<(usize, usize)> = (0..SLOTS)
        .flat_map(|boundary| (0..KINDS).map(move |kind| (boundary, kind)))
        .filter(|(boundary, kind)| arcs.left[*boundary][*kind] > 0)
        .collect();
    let mut exits = [KINDS; SLOTS];
    let mut set: u16 = 1 << root;
    let enters = |set: u16, (boundary, kind): (usize, usize)| set >> boundary & 1 == 0 && set >> arcs.to[boundary][kind] & 1 == 1;
    while let Some((boundary, kind)) = used.iter().copied().find(|arc| enters(set, *arc)) {
        exits[boundary] = kind;
        set |= 1 << boundary;
    }
    exits
}

/// A way from boundary 0 to the root over all arcs.
fn walk(arcs: &mut Arcs, root: usize, room: usize) -> Vec<Step> {
    let mut exits = exits_to(arcs, root);
    for boundary in 0..SLOTS {
        if exits[boundary] < KINDS {
            arcs.left[boundary][exits[boundary]] -= 1;
        }
    }
    let mut steps = Vec::with_capacity(room);
    let mut next = [0; SLOTS];
    let mut at = 0;
    loop {
        while next[at] < KINDS && arcs.left[at][next[at]] == 0 {
            next[at] += 1;
        }
        let kind = if next[at] < KINDS {
            arcs.left[at][next[at]] -= 1;
            next[at]
        } else if exits[at] < KINDS {
            std::mem::replace(&mut exits[at], KINDS)
        } else {
            return steps;
        };
        steps.push(arc(at, kind).0);
        at = arcs.to[at][kind];
    }
}

/// A tour of a choice whose runs are all reached, and which can end as the end asks.
pub fn tour(classes: &Classes, choice: &Choice, batches: u32, end: End) -> Vec<Step> {
    let mut arcs = arcs_of(classes, choice, batches);
    let room = arcs.left.iter().flatten().map(|count| *count as usize).sum();
    if end == End::Open {
        return walk(&mut arcs, 0, room);
    }
    let last = if arcs.left[15][17] > 0 { 17 } else { 16 };
    arcs.left[15][last] -= 1;
    let mut steps = walk(&mut arcs, 15, room);
    steps.push(arc(15, last).0);
    steps
}
