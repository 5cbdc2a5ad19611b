//! The choice of starts: load is moved from overfull slots along ways found depth first, as in `pocsag_flow`.

use crate::slots::{CLASSES, Choice, Classes, Limits, RUNS, SLOTS, all_limits, holds, least_load, loads};

/// For each slot the classes whose early run begins or ends at it, in order; rest 0 moves no load.
static AT: [([u8; 32], usize); SLOTS] = classes_at();

const fn classes_at() -> [([u8; 32], usize); SLOTS] {
    let mut table = [([0; 32], 0); SLOTS];
    let mut class = 0;
    while class < CLASSES {
        let run = RUNS[class];
        if run.rest > 0 {
            let mut end = 0;
            while end < 2 {
                let slot = if end == 0 { run.start[0] } else { run.finish[0] } as usize;
                table[slot].0[table[slot].1] = class as u8;
                table[slot].1 += 1;
                end += 1;
            }
        }
        class += 1;
    }
    table
}

/// A choice within the limits and caps, begun with all runs early; or a set of slots that overflows.
pub fn choose(classes: &Classes, limits: &Limits) -> Result<Choice, u16> {
    choose_from(classes, limits, &Choice { early: limits.hi })
}

/// The same, begun with what is nearest to the given choice.
pub fn choose_from(classes: &Classes, limits: &Limits, start: &Choice) -> Result<Choice, u16> {
    let mut early = start.early;
    for class in 0..CLASSES {
        early[class] = early[class].max(limits.lo[class]).min(limits.hi[class]);
    }
    let loads = loads(classes, &early);
    let mut search = Search { limits, early, loads, reached: 0, end: 0 };
    while let Some(slot) = (0..SLOTS).find(|slot| search.loads[*slot] > limits.cap[*slot]) {
        let excess = search.loads[slot] - limits.cap[slot];
        search.reached = 1 << slot;
        let moved = search.leave(slot as u8, excess);
        if moved == 0 {
            return Err(search.reached);
        }
        search.loads[slot] -= moved;
        search.loads[usize::from(search.end)] += moved;
    }
    Ok(Choice { early: search.early })
}

struct Search<'a> {
    limits: &'a Limits,
    early: [u32; CLASSES],
    loads: [u32; SLOTS],
    reached: u16,
    end: u8,
}

impl Search<'_> {
    fn has_room(&self, slot: u8) -> bool {
        self.loads[usize::from(slot)] < self.limits.cap[usize::from(slot)]
    }

    /// Moves up to so much out of the slot: straight into a slot with room, or else on by the first class
    /// that leads to one.
    fn leave(&mut self, slot: u8, most: u32) -> u32 {
        let (classes, count) = &AT[usize::from(slot)];
        for class in &classes[..*count] {
            let run = &RUNS[usize::from(*class)];
            let other = if run.start[0] == slot { run.finish[0] } else { run.start[0] };
            if self.has_room(other) {
                let moved = self.switch(*class, slot, most);
                if moved > 0 {
                    return moved;
                }
            }
        }
        for class in &classes[..*count] {
            let moved = self.switch(*class, slot, most);
            if moved > 0 {
                return moved;
            }
        }
        0
    }

    /// Moves up to so much out of the slot by runs of the class.
    fn switch(&mut self, class: u8, slot: u8, most: u32) -> u32 {
        let run = &RUNS[usize::from(class)];
        let class = usize::from(class);
        if run.start[0] == slot {
            let room = self.early[class] - self.limits.lo[class];
            if room > 0 && !holds(self.reached, run.finish[0]) {
                let moved = self.enter(run.finish[0], most.min(room));
                self.early[class] -= moved;
                return moved;
            }
        } else {
            let room = self.limits.hi[class] - self.early[class];
            if room > 0 && !holds(self.reached, run.start[0]) {
                let moved = self.enter(run.start[0], most.min(room));
                self.early[class] += moved;
                return moved;
            }
        }
        0
    }

    /// Moves up to so much into the slot, and on where it has no room.
    fn enter(&mut self, slot: u8, most: u32) -> u32 {
        self.reached |= 1 << slot;
        if self.has_room(slot) {
            self.end = slot;
            let place = usize::from(slot);
            most.min(self.limits.cap[place] - self.loads[place])
        } else {
            self.leave(slot, most)
        }
    }
}

/// The least number of batches that carries the loads of some choice, that choice, and the set of slots
/// that refuses one batch less.
pub struct Least {
    pub batches: u32,
    pub set: u16,
    pub choice: Choice,
}

pub fn least_of(classes: &Classes) -> Least {
    let mut set = u16::MAX;
    let mut batches = share(classes, 0, set);
    loop {
        match choose(classes, &all_limits(classes, batches)) {
            Ok(choice) => return Least { batches, set, choice },
            Err(over) => {
                set = over;
                batches = share(classes, batches, set);
            }
        }
    }
}

/// How many batches the set needs at least for its least load.
fn share(classes: &Classes, batches: u32, set: u16) -> u32 {
    let load = least_load(classes, &all_limits(classes, batches), set);
    load.div_ceil(u64::from(set.count_ones())) as u32
}
