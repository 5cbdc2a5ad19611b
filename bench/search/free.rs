//! The free search: the same answer and the same checker, with no promise on the shape of the tree. The
//! policy:
//!
//! 1. `choose` (all runs early at first) at every node; no climb.
//! 2. The set to look across is the thinner one (see `thinner`), in the second try the set reached.
//! 3. Where no class is certain for that set: a `Split` as the promised search makes it, by the set reached.
//! 4. Where a class is certain: a `Split` at the first open run way across the set, in the second try at the
//!    last one, `Early(c)` at 1 and `Late(c)` at the count; where no run way is open, a `Cut` at the set.
//! 5. A child's tree that the checker accepts under the limits of the node itself stands for the node.
//! 6. With the closed or the idle end the root is a `Close` unless its choice has a tour. It counts as examined, so
//!    that a tree never has more nodes than were examined.
//! 7. Two tries: at most 1,000 nodes in the first; then the rest of the limit.

use crate::choosing::{choose, least_of};
use crate::judging::accepts;
use crate::promised::{Found, Question as Plain, Sight, found, sight_of, split_point};
use crate::slots::{
    CLASSES, Choice, Classes, End, Limits, RUNS, SLOTS, Way, all_limits, below_split, certain_class, closing_ways, from_split,
    narrow, run_ways, ways,
};
use crate::touring::{Step, tour};
use crate::tree::Tree;

/// How many nodes `decide` examines at most.
const FUEL: u32 = 20_000;

/// How many nodes the first try examines at most.
const FIRST_TRY: u32 = 1_000;

/// What stands in the count of ways for one that is decided already, and for a set that no class must leave.
const DECIDED: u32 = 1_000;

#[derive(Clone, Copy)]
struct Question<'a> {
    plain: Plain<'a>,
    second: bool,
}

enum Stop {
    Met(Choice),
    Limit,
}

enum Form {
    Split { class: u8, m: u32 },
    Cut { set: u16, needed: u8 },
    Close,
}

/// A tour with one batch more than the least, and a tree of one node for the least.
pub struct Near {
    pub least: u32,
    pub choice: Choice,
    pub steps: Vec<Step>,
    pub tree: Tree,
}

pub fn near(classes: &Classes, end: End) -> Near {
    let least = least_of(classes);
    let steps = tour(classes, &least.choice, least.batches + 1, end);
    Near { least: least.batches, choice: least.choice, steps, tree: Tree::Overload(least.set) }
}

/// What the free search returns, and how many nodes it examined.
pub fn search_freely(classes: &Classes, node_limit: u32, end: End) -> (Result<Found, Near>, u32) {
    let least = least_of(classes);
    let (answer, examined) = tries(classes, least.batches, node_limit, end);
    let answer = match answer {
        Ok(tree) => Ok(found(classes, least.batches + 1, least.choice, tree, end)),
        Err(Stop::Met(choice)) => Ok(found(classes, least.batches, choice, Tree::Overload(least.set), end)),
        Err(Stop::Limit) => Err(near(classes, end)),
    };
    (answer, examined)
}

/// A choice that has a tour with so many batches; none where there is none, or where the fuel is used up.
pub fn decide(classes: &Classes, batches: u32, end: End) -> Option<Choice> {
    match tries(classes, batches, FUEL, end).0 {
        Err(Stop::Met(choice)) => Some(choice),
        Ok(_) | Err(Stop::Limit) => None,
    }
}

fn tries(classes: &Classes, batches: u32, limit: u32, end: End) -> (Result<Tree, Stop>, u32) {
    let plain = Plain { classes, batches, end, limit: limit.min(FIRST_TRY) };
    let mut examined = 0;
    let first = examine_root(&Question { plain, second: false }, &mut examined);
    if !matches!(first, Err(Stop::Limit)) || limit <= FIRST_TRY {
        return (first, examined);
    }
    let plain = Plain { limit: limit - FIRST_TRY, ..plain };
    let mut again = 0;
    let second = examine_root(&Question { plain, second: true }, &mut again);
    (second, examined + again)
}

/// Where the end asks something of the last codeword the children of the root end the transmission so: below them every
/// tour can end as asked.
fn examine_root(question: &Question, examined: &mut u32) -> Result<Tree, Stop> {
    let Plain { classes, batches, end, .. } = question.plain;
    let limits = all_limits(classes, batches);
    if end == End::Open {
        return examine(question, &limits, examined);
    }
    *examined += 1;
    match look(question, &limits) {
        Sight::Met(choice) => Err(Stop::Met(choice)),
        Sight::Overfull(set) => Ok(Tree::Overload(set)),
        Sight::Unclosed | Sight::Apart { .. } => children(question, &limits, Form::Close, examined),
    }
}

fn examine(question: &Question, limits: &Limits, examined: &mut u32) -> Result<Tree, Stop> {
    if *examined == question.plain.limit {
        return Err(Stop::Limit);
    }
    *examined += 1;
    match look(question, limits) {
        Sight::Overfull(set) => Ok(Tree::Overload(set)),
        Sight::Met(choice) => Err(Stop::Met(choice)),
        Sight::Unclosed => children(question, limits, Form::Close, examined),
        Sight::Apart { choice, set } => children(question, limits, form_at(question, limits, &choice, set), examined),
    }
}

fn look(question: &Question, limits: &Limits) -> Sight {
    match choose(question.plain.classes, limits) {
        Err(set) => Sight::Overfull(set),
        Ok(choice) => sight_of(&question.plain, choice),
    }
}

/// The node of the form, or the tree of a child that stands for it.
fn children(question: &Question, limits: &Limits, form: Form, examined: &mut u32) -> Result<Tree, Stop> {
    let classes = question.plain.classes;
    let batches = question.plain.batches;
    let narrowed: Vec<Limits> = match form {
        Form::Split { class, m } => vec![below_split(limits, class, m), from_split(limits, class, m)],
        Form::Cut { set, .. } => ways(classes, limits, set).map(|way| narrow(classes, limits, way, batches)).collect(),
        Form::Close => {
            let ways = closing_ways(classes, question.plain.end, limits).into_iter();
            ways.map(|way| narrow(classes, limits, way, batches)).collect()
        }
    };
    let mut trees = Vec::new();
    for child in &narrowed {
        let tree = examine(question, child, examined)?;
        if accepts(classes, limits, batches, &tree, question.plain.end) {
            return Ok(tree);
        }
        trees.push(tree);
    }
    Ok(match form {
        Form::Split { class, m } => {
            let from = Box::new(trees.pop().expect("two children"));
            let below = Box::new(trees.pop().expect("two children"));
            Tree::Split { class, m: m as u16, below, from }
        }
        Form::Cut { set, needed } => Tree::Cut { set, needed, children: trees },
        Form::Close => Tree::Close { children: trees },
    })
}

fn form_at(question: &Question, limits: &Limits, choice: &Choice, reached: u16) -> Form {
    let Plain { classes, batches, .. } = question.plain;
    let set = if question.second { reached } else { thinner(classes, limits, batches, reached) };
    let Some(needed) = certain_class(classes, limits, set) else {
        let (class, m) = split_point(classes, choice, reached);
        return Form::Split { class, m };
    };
    let mut open = run_ways(classes, limits, set).filter(|way| is_open(classes, limits, batches, *way));
    let way = if question.second { open.last() } else { open.next() };
    match way {
        Some(Way::Early(class)) => Form::Split { class, m: 1 },
        Some(Way::Late(class)) => Form::Split { class, m: classes.count[usize::from(class)] },
        _ => Form::Cut { set, needed },
    }
}

/// Whether a listed way is undecided: taking it and refusing it both narrow the limits.
fn is_open(classes: &Classes, limits: &Limits, batches: u32, way: Way) -> bool {
    match way {
        Way::IdleIn(slot) => limits.cap[usize::from(slot)] == batches,
        Way::Early(class) => limits.lo[usize::from(class)] == 0,
        Way::Late(class) => limits.hi[usize::from(class)] == classes.count[usize::from(class)],
    }
}

/// For each two boundaries the ways between them that the limits allow; a decided one counts for many.
fn between(classes: &Classes, limits: &Limits, batches: u32) -> [[u32; SLOTS]; SLOTS] {
    let mut between = [[0; SLOTS]; SLOTS];
    let mut add = |from: u8, to: u8, decided: bool| {
        let ways = if decided { 1 + DECIDED } else { 1 };
        between[usize::from(from)][usize::from(to)] += ways;
        between[usize::from(to)][usize::from(from)] += ways;
    };
    for slot in 0..SLOTS as u8 {
        add(slot, (slot + 1) % 16, limits.cap[usize::from(slot)] < batches);
    }
    for class in 0..CLASSES {
        let (run, count) = (&RUNS[class], classes.count[class]);
        if limits.hi[class] >= 1 {
            add(run.start[0], run.finish[0], limits.lo[class] >= 1);
        }
        if limits.lo[class] < count {
            add(run.start[1], run.finish[1], limits.hi[class] < count);
        }
    }
    between
}

/// A set with boundary 0 that fewer ways leave than the one that is reached, or that one. Sets grow from
/// boundary 0 by the boundary with the most ways into them, the first of these.
fn thinner(classes: &Classes, limits: &Limits, batches: u32, reached: u16) -> u16 {
    let between = between(classes, limits, batches);
    let certain = |set| certain_class(classes, limits, set).is_some();
    let mut best = reached;
    let mut least = if certain(reached) { ways(classes, limits, reached).count() as u32 } else { DECIDED };
    let mut into = [0; SLOTS];
    let (mut set, mut across, mut next): (u16, u32, usize) = (0, 0, 0);
    for _ in 0..SLOTS {
        set |= 1 << next;
        across -= into[next];
        for boundary in 0..SLOTS {
            into[boundary] += between[next][boundary];
            across += if set >> boundary & 1 == 0 { between[next][boundary] } else { 0 };
        }
        if across < least && certain(set) && ways(classes, limits, set).all(|way| is_open(classes, limits, batches, way)) {
            (best, least) = (set, across);
        }
        let outside = (0..SLOTS).filter(|boundary| set >> boundary & 1 == 0);
        match outside.max_by_key(|boundary| (into[*boundary], SLOTS - boundary)) {
            Some(boundary) => next = boundary,
            None => break,
        }
    }
    best
}
