//! The search whose trees have the promised shape. The policy, where the shape leaves a choice:
//!
//! 1. `least_of` gives `least`, the set that refuses one batch less, and a choice admitted at `least`.
//! 2. `decide` (the free search with a fuel of 20,000 nodes) looks for a tour with `least` batches. Where it
//!    finds one, that is the answer, with one node.
//! 3. With the closed or the idle end `decide` then looks for a tour for the open end. Where it finds one that cannot
//!    end as asked, the root is a `Close`. No other `Close` can occur then, nor any where it finds none.
//! 4. At every other node: `choose` (all runs early at first), then the climb to another admitted choice.
//!    The children are made by the choice at which the climb ends, and by nothing else.
//! 5. Climb: among the ways across the set reached, in the order of `ways`, each that is live is taken:
//!    `choose_from` under the limits narrowed by it, beginning with the choice at hand. The first choice met
//!    whose runs are all reached ends the climb. Otherwise the choice of least cost is gone on with, the
//!    first of these, if its cost is less than the present one; at most 64 times.
//! 6. Cost of a set: the number of live ways across it, then the number of all ways across it; a set for
//!    which no class is certain costs more than all others.
//! 7. A way is live where some choice within the limits takes it. `LiveWays` tells this of all ways at once,
//!    from one admitted choice.
//! 8. `Cut` names the first certain class; a `Split` the first class with a run outside.
//! 9. With `least + 1` batches the choice is that of `least_of`, never a new one: each slot has an idle then.

use crate::choosing::{choose, choose_from, least_of};
use crate::free::decide;
use crate::slots::{
    CLASSES, Choice, Classes, End, Limits, RUNS, SLOTS, Way, all_limits, below_split, certain_class, closing_ways, from_split,
    holds, idles_across, loads, narrow, run_ways, ways,
};
use crate::touring::{Step, can_close, has_run_outside, is_apart, reached, tour};
use crate::tree::Tree;

/// How often the climb goes on at most.
const CLIMBS: u32 = 64;

pub struct Found {
    pub batches: u32,
    pub choice: Choice,
    pub steps: Vec<Step>,
    pub tree: Tree,
}

/// The tree has `Open` nodes: a transmission of `found` batches is there, and none has fewer than `least`.
pub struct SearchLimit {
    pub least: u32,
    pub found: u32,
    pub tree: Tree,
}

#[derive(Clone, Copy)]
pub struct Question<'a> {
    pub classes: &'a Classes,
    pub batches: u32,
    pub end: End,
    pub limit: u32,
}

/// What is seen under limits.
pub enum Sight {
    Overfull(u16),
    Apart { choice: Choice, set: u16 },
    Unclosed,
    Met(Choice),
}

/// What a choice is good for.
pub fn sight_of(question: &Question, choice: Choice) -> Sight {
    let set = reached(question.classes, &choice, question.batches);
    if is_apart(question.classes, &choice, set) {
        Sight::Apart { choice, set }
    } else if can_close(question.classes, question.end, &choice, question.batches) {
        Sight::Met(choice)
    } else {
        Sight::Unclosed
    }
}

pub fn search(classes: &Classes, node_limit: u32, end: End) -> Result<Found, SearchLimit> {
    let least = least_of(classes);
    if let Some(choice) = decide(classes, least.batches, end) {
        return Ok(found(classes, least.batches, choice, Tree::Overload(least.set), end));
    }
    let question = Question { classes, batches: least.batches, end, limit: node_limit };
    match examine_root(&question) {
        Err(choice) => Ok(found(classes, least.batches, choice, Tree::Overload(least.set), end)),
        Ok(tree) if tree.has_open() => Err(SearchLimit { least: least.batches, found: least.batches + 1, tree }),
        Ok(tree) => Ok(found(classes, least.batches + 1, least.choice, tree, end)),
    }
}

pub fn found(classes: &Classes, batches: u32, choice: Choice, tree: Tree, end: End) -> Found {
    Found { batches, choice, steps: tour(classes, &choice, batches, end), tree }
}

/// The tree of the root, or a choice that has a tour.
fn examine_root(question: &Question) -> Result<Tree, Choice> {
    let limits = all_limits(question.classes, question.batches);
    let open = match question.end {
        End::Open => None,
        End::Closed | End::Idle => decide(question.classes, question.batches, End::Open),
    };
    let (tree, _) = match open {
        Some(choice) => node(question, &limits, sight_of(question, choice), 1)?,
        None => examine(question, &limits, 0)?,
    };
    Ok(tree)
}

/// The tree of a node and how many nodes are made after it, or a choice that has a tour.
fn examine(question: &Question, limits: &Limits, made: u32) -> Result<(Tree, u32), Choice> {
    if made >= question.limit {
        return Ok((Tree::Open, made));
    }
    let sight = match choose(question.classes, limits) {
        Err(set) => Sight::Overfull(set),
        Ok(choice) => sight_of(question, climbed(question, limits, choice)),
    };
    node(question, limits, sight, made + 1)
}

fn node(question: &Question, limits: &Limits, sight: Sight, made: u32) -> Result<(Tree, u32), Choice> {
    let classes = question.classes;
    match sight {
        Sight::Overfull(set) => Ok((Tree::Overload(set), made)),
        Sight::Met(choice) => Err(choice),
        Sight::Unclosed => {
            let ways = closing_ways(classes, question.end, limits).into_iter();
            let (children, made) = row(question, limits, ways, made)?;
            Ok((Tree::Close { children }, made))
        }
        Sight::Apart { choice, set } => match certain_class(classes, limits, set) {
            Some(needed) => {
                let (children, made) = row(question, limits, ways(classes, limits, set), made)?;
                Ok((Tree::Cut { set, needed, children }, made))
            }
            None => {
                let (class, m) = split_point(classes, &choice, set);
                let (below, made) = examine(question, &below_split(limits, class, m), made)?;
                let (from, made) = examine(question, &from_split(limits, class, m), made)?;
                Ok((Tree::Split { class, m: m as u16, below: Box::new(below), from: Box::new(from) }, made))
            }
        },
    }
}

fn row(question: &Question, limits: &Limits, ways: impl Iterator<Item = Way>, made: u32) -> Result<(Vec<Tree>, u32), Choice> {
    let mut children = Vec::new();
    let mut made = made;
    for way in ways {
        let narrowed = narrow(question.classes, limits, way, question.batches);
        let (child, after) = examine(question, &narrowed, made)?;
        children.push(child);
        made = after;
    }
    Ok((children, made))
}

/// Where to split: the first class with a run outside the set, at 1 where an early run lies there.
pub fn split_point(classes: &Classes, choice: &Choice, set: u16) -> (u8, u32) {
    let class = (0..CLASSES)
        .find(|class| [true, false].iter().any(|early| has_run_outside(classes, choice, set, *class, *early)))
        .expect("a run outside");
    let m = if has_run_outside(classes, choice, set, class, true) { 1 } else { classes.count[class] };
    (class as u8, m)
}

/// What a set costs to be cut at: the live ways across it, then all of them.
type Cost = (u32, u32);

const NONE_CERTAIN: Cost = (u32::MAX, u32::MAX);

fn cost_of(classes: &Classes, limits: &Limits, live: &LiveWays, set: u16) -> Cost {
    if certain_class(classes, limits, set).is_none() {
        return NONE_CERTAIN;
    }
    let idles = idles_across(set);
    let mut cost = ((idles & live.idles).count_ones(), idles.count_ones());
    for way in run_ways(classes, limits, set) {
        cost.0 += u32::from(live.holds(way));
        cost.1 += 1;
    }
    cost
}

/// An admitted choice with a better set reached than the one that is given, or that one.
fn climbed(question: &Question, limits: &Limits, choice: Choice) -> Choice {
    let classes = question.classes;
    let set = reached(classes, &choice, question.batches);
    if !is_apart(classes, &choice, set) {
        return choice;
    }
    let live = LiveWays::of(classes, limits, &choice, question.batches);
    let mut at = Standing { choice, set, cost: cost_of(classes, limits, &live, set) };
    for _ in 0..CLIMBS {
        match better(question, limits, &live, &at) {
            Climb::Top => break,
            Climb::Joined(choice) => return choice,
            Climb::Higher(next) => at = next,
        }
    }
    at.choice
}

#[derive(Clone)]
struct Standing {
    choice: Choice,
    set: u16,
    cost: Cost,
}

enum Climb {
    Top,
    Higher(Standing),
    Joined(Choice),
}

fn better(question: &Question, limits: &Limits, live: &LiveWays, at: &Standing) -> Climb {
    let classes = question.classes;
    let mut best = None;
    let mut least = at.cost;
    for way in ways(classes, limits, at.set).filter(|way| live.holds(*way)) {
        let narrowed = narrow(classes, limits, way, question.batches);
        let Ok(choice) = choose_from(classes, &narrowed, &at.choice) else {
            continue;
        };
        let set = reached(classes, &choice, question.batches);
        if !is_apart(classes, &choice, set) {
            return Climb::Joined(choice);
        }
        let cost = cost_of(classes, limits, live, set);
        if cost < least {
            least = cost;
            best = Some(Standing { choice, set, cost });
        }
    }
    best.map_or(Climb::Top, Climb::Higher)
}

/// The ways that some choice within the limits takes.
struct LiveWays {
    idles: u16,
    early: [bool; CLASSES],
    late: [bool; CLASSES],
}

impl LiveWays {
    fn holds(&self, way: Way) -> bool {
        match way {
            Way::IdleIn(slot) => holds(self.idles, slot),
            Way::Early(class) => self.early[usize::from(class)],
            Way::Late(class) => self.late[usize::from(class)],
        }
    }

    /// From a choice within the limits and caps: a way that it does not take is live where the load that is
    /// too much then can be moved on to a slot with room.
    fn of(classes: &Classes, limits: &Limits, choice: &Choice, batches: u32) -> LiveWays {
        let loads = loads(classes, &choice.early);
        let moves = moves(classes, limits, choice);
        let room = (0..SLOTS).filter(|slot| loads[*slot] < limits.cap[*slot]).fold(0, |set, slot| set | 1 << slot);
        let mut live = LiveWays { idles: 0, early: [false; CLASSES], late: [false; CLASSES] };
        for slot in 0..SLOTS {
            if loads[slot] < batches || moves[slot] & room != 0 {
                live.idles |= 1 << slot;
            }
        }
        for class in (0..CLASSES).filter(|class| classes.count[*class] > 0) {
            let run = &RUNS[class];
            let (from, to) = (run.start[0], run.finish[0]);
            let early = choice.early[class];
            live.early[class] = early > 0 || run.rest == 0 || moves[usize::from(from)] & (room | 1 << to) != 0;
            live.late[class] = early < classes.count[class] || run.rest == 0 || moves[usize::from(to)] & (room | 1 << from) != 0;
        }
        live
    }
}

/// For each slot the slots that load can be moved to from there, itself included.
fn moves(classes: &Classes, limits: &Limits, choice: &Choice) -> [u16; SLOTS] {
    let mut moves = [0; SLOTS];
    for (slot, to) in moves.iter_mut().enumerate() {
        *to = 1 << slot;
    }
    for class in (0..CLASSES).filter(|class| classes.count[*class] > 0) {
        let (from, to) = (RUNS[class].start[0], RUNS[class].finish[0]);
        if choice.early[class] > limits.lo[class] {
            moves[usize::from(from)] |= 1 << to;
        }
        if choice.early[class] < limits.hi[class] {
            moves[usize::from(to)] |= 1 << from;
        }
    }
    for through in 0..SLOTS {
        for slot in 0..SLOTS {
            if moves[slot] >> through & 1 == 1 {
                moves[slot] |= moves[through];
            }
        }
    }
    moves
}
