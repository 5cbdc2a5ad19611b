//! Fewest batches of small rounds and shapes of trees by trying everything, apart from the planner.

use crate::slots::{CLASSES, Choice, Classes, End, Limits, Page, below_split, certain_class, closing_ways, from_split, narrow, ways};
use crate::touring::{Step, can_close, has_run_outside, is_apart, reached};
use crate::tree::Tree;

/// The fewest batches of a legal transmission: for each index the sets of pages that can have been sent
/// before it, by idles and by pages that start in a codeword of their frame.
pub fn fewest(pages: &[Page], end: End) -> u32 {
    assert!(pages.len() <= 7, "at most 7 pages");
    let all = (1usize << pages.len()) - 1;
    let most = pages.iter().map(|page| page.length + 16).sum::<u32>() + 32;
    // bit `sent` of a word: the pages `sent` can stand before the index
    let mut before = vec![0u128; most as usize + 1];
    // the same, the last codeword being no message codeword, or an idle one
    let mut whole = vec![0u128; most as usize + 1];
    let mut idle = vec![0u128; most as usize + 1];
    before[0] = 1;
    for index in 0..most {
        let place = index as usize;
        let sets = before[place];
        let ending = match end {
            End::Open => sets,
            End::Closed => whole[place],
            End::Idle => idle[place],
        };
        if ending >> all & 1 == 1 && index % 16 == 0 {
            return index / 16;
        }
        before[place + 1] |= sets;
        whole[place + 1] |= sets;
        idle[place + 1] |= sets;
        for (number, page) in pages.iter().enumerate().filter(|(_, page)| page.frame == index % 16 / 2) {
            let next = place + page.length as usize;
            if next > most as usize {
                continue;
            }
            for sent in (0..=all).filter(|sent| sets >> sent & 1 == 1 && sent >> number & 1 == 0) {
                before[next] |= 1 << (sent | 1 << number);
                if page.length == 1 {
                    whole[next] |= 1 << (sent | 1 << number);
                }
            }
        }
    }
    unreachable!("file order is legal");
}

/// Whether the steps are a legal transmission of the pages with so many batches, by walking them.
pub fn is_transmission(pages: &[Page], steps: &[Step], batches: u32, end: End) -> bool {
    let mut left = pages.to_vec();
    let mut index = 0u64;
    let mut last = 0;
    for step in steps {
        let Step::Run { class, early } = *step else {
            index += 1;
            last = 1;
            continue;
        };
        let is_of = |page: &Page| {
            let own = if end == End::Closed && page.length == 1 { 128 + page.frame } else { 16 * page.frame + page.length % 16 };
            own == u32::from(class) && u64::from(page.frame) * 2 + u64::from(!early) == index % 16
        };
        let Some(place) = left.iter().position(is_of) else {
            return false;
        };
        last = left.swap_remove(place).length;
        index += u64::from(last);
    }
    let ends = match end {
        End::Open => true,
        End::Closed => last == 1,
        End::Idle => steps.last() == Some(&Step::Idle),
    };
    left.is_empty() && index == 16 * u64::from(batches) && ends
}

/// Whether the steps take as many runs of each class early as the choice says.
pub fn are_steps_of(choice: &Choice, steps: &[Step]) -> bool {
    (0..CLASSES).all(|class| {
        let is_early = |step: &&Step| **step == Step::Run { class: class as u8, early: true };
        choice.early[class] as usize == steps.iter().filter(is_early).count()
    })
}

/// Whether the tree has the shape that is promised for the end, by all choices that the limits of each node admit.
pub fn is_shaped(classes: &Classes, end: End, batches: u32, limits: &Limits, tree: &Tree) -> bool {
    match tree {
        Tree::Overload(_) | Tree::Open => true,
        Tree::Split { class, m, below, from } => {
            let place = usize::from(*class);
            let fits = |choice: &Choice, set: u16| {
                let early = has_run_outside(classes, choice, set, place, true);
                let late = has_run_outside(classes, choice, set, place, false);
                certain_class(classes, limits, set).is_none()
                    && if early { *m == 1 } else { late && u32::from(*m) == classes.count[place] }
            };
            some_apart(classes, batches, limits, &fits)
                && is_shaped(classes, end, batches, &below_split(limits, *class, u32::from(*m)), below)
                && is_shaped(classes, end, batches, &from_split(limits, *class, u32::from(*m)), from)
        }
        Tree::Cut { set, children, .. } => {
            some_apart(classes, batches, limits, &|_, reached| reached == *set)
                && ways(classes, limits, *set)
                    .zip(children)
                    .all(|(way, child)| is_shaped(classes, end, batches, &narrow(classes, limits, way, batches), child))
        }
        Tree::Close { children } => {
            some_admitted(classes, batches, limits, &|choice| {
                let set = reached(classes, choice, batches);
                !is_apart(classes, choice, set) && !can_close(classes, end, choice, batches)
            }) && closing_ways(classes, end, limits)
                .into_iter()
                .zip(children)
                .all(|(way, child)| is_shaped(classes, end, batches, &narrow(classes, limits, way, batches), child))
        }
    }
}

fn some_apart(classes: &Classes, batches: u32, limits: &Limits, fits: &dyn Fn(&Choice, u16) -> bool) -> bool {
    some_admitted(classes, batches, limits, &|choice| {
        let set = reached(classes, choice, batches);
        is_apart(classes, choice, set) && fits(choice, set)
    })
}

fn some_admitted(classes: &Classes, batches: u32, limits: &Limits, fits: &dyn Fn(&Choice) -> bool) -> bool {
    let _ = batches;
    let mut choice = Choice { early: limits.lo };
    loop {
        let loads = crate::slots::loads(classes, &choice.early);
        if loads.iter().zip(&limits.cap).all(|(load, cap)| load <= cap) && fits(&choice) {
            return true;
        }
        let Some(class) = (0..CLASSES).find(|class| choice.early[*class] < limits.hi[*class]) else {
            return false;
        };
        choice.early[class] += 1;
        choice.early[..class].copy_from_slice(&limits.lo[..class]);
    }
}
