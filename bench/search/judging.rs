//! The judgement of one node of a tree under limits, as the checker makes it.

use crate::slots::{Classes, End, Limits, Way, below_split, closing_ways, from_split, holds, is_certain, narrow, overloads, ways};
use crate::tree::Tree;

pub fn accepts(classes: &Classes, limits: &Limits, batches: u32, tree: &Tree, end: End) -> bool {
    match tree {
        Tree::Overload(set) => *set != 0 && overloads(classes, limits, *set),
        Tree::Split { class, m, below, from } => {
            let (place, m) = (usize::from(*class), u32::from(*m));
            limits.lo[place] < m
                && m <= limits.hi[place]
                && accepts(classes, &below_split(limits, *class, m), batches, below, end)
                && accepts(classes, &from_split(limits, *class, m), batches, from, end)
        }
        Tree::Cut { set, needed, children } => {
            batches >= 1
                && holds(*set, 0)
                && is_certain(classes, limits, *set, usize::from(*needed))
                && accepts_each(classes, limits, batches, ways(classes, limits, *set), children, end)
        }
        Tree::Close { children } => {
            end != End::Open
                && batches >= 1
                && accepts_each(classes, limits, batches, closing_ways(classes, end, limits).into_iter(), children, end)
        }
        Tree::Open => false,
    }
}

fn accepts_each(
    classes: &Classes,
    limits: &Limits,
    batches: u32,
    mut ways: impl Iterator<Item = Way>,
    children: &[Tree],
    end: End,
) -> bool {
    let each = children.iter().all(|child| match ways.next() {
        Some(way) => accepts(classes, &narrow(classes, limits, way, batches), batches, child, end),
        None => false,
    });
    each && ways.next().is_none()
}
