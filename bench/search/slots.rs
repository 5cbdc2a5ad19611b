//! Classes of pages, loads of slots, limits and ways out of a set, in plain Rust.

pub const CLASSES: usize = 136;
pub const SLOTS: usize = 16;

#[derive(Clone, Copy, PartialEq, Eq, Debug)]
pub enum End {
    Open,
    Closed,
    Idle,
}

/// Each end with the word that names it.
pub const ENDS: [(&str, End); 3] = [("open", End::Open), ("closed", End::Closed), ("idle", End::Idle)];

pub fn end_of(word: &str) -> End {
    ENDS.iter().find(|(name, _)| *name == word).expect("an end").1
}

/// A page as the search sees it: its frame and how many codewords it has.
#[derive(Clone, Copy, PartialEq, Eq, Debug)]
pub struct Page {
    pub frame: u32,
    pub length: u32,
}

/// How many pages each class has, and how many whole turns of sixteen codewords they make together.
#[derive(Clone, Copy)]
pub struct Classes {
    pub count: [u32; CLASSES],
    pub turns: [u32; CLASSES],
}

/// How many pages of each class start early.
#[derive(Clone, Copy)]
pub struct Choice {
    pub early: [u32; CLASSES],
}

/// The least and the greatest number of early starts in each class, and the greatest load of each slot.
#[derive(Clone, Copy)]
pub struct Limits {
    pub lo: [u32; CLASSES],
    pub hi: [u32; CLASSES],
    pub cap: [u32; SLOTS],
}

#[derive(Clone, Copy, PartialEq, Eq, Debug)]
pub enum Way {
    IdleIn(u8),
    Early(u8),
    Late(u8),
}

/// What a class is by its number: its frame and rest, the boundaries of its runs and the slots that they
/// cover beside whole turns. Index 0 is the early run, index 1 the late one.
#[derive(Clone, Copy)]
pub struct Run {
    pub rest: u8,
    pub start: [u8; 2],
    pub finish: [u8; 2],
    pub covers: [u16; 2],
}

const fn run_of(class: usize) -> Run {
    let (frame, rest) = if class < 128 { (class / 16, class % 16) } else { (class - 128, 1) };
    let mut run = Run { rest: rest as u8, start: [0; 2], finish: [0; 2], covers: [0; 2] };
    let mut late = 0;
    while late < 2 {
        let start = 2 * frame + late;
        run.start[late] = start as u8;
        run.finish[late] = ((start + rest) % 16) as u8;
        run.covers[late] = (((1u32 << rest) - 1) as u16).rotate_left(start as u32);
        late += 1;
    }
    run
}

const fn runs() -> [Run; CLASSES] {
    let mut table = [run_of(0); CLASSES];
    let mut class = 0;
    while class < CLASSES {
        table[class] = run_of(class);
        class += 1;
    }
    table
}

pub static RUNS: [Run; CLASSES] = runs();

pub fn holds(set: u16, member: u8) -> bool {
    set >> member & 1 == 1
}

/// The place of a way's or a run's start in `Run`: 0 for early, 1 for late.
fn place(early: bool) -> usize {
    usize::from(!early)
}

pub fn starts_in(class: usize, early: bool, set: u16) -> bool {
    holds(set, RUNS[class].start[place(early)])
}

pub fn finishes_in(class: usize, early: bool, set: u16) -> bool {
    holds(set, RUNS[class].finish[place(early)])
}

pub fn touches(class: usize, early: bool, set: u16) -> bool {
    !(starts_in(class, early, set) && finishes_in(class, early, set))
}

pub fn crosses(class: usize, early: bool, set: u16) -> bool {
    starts_in(class, early, set) != finishes_in(class, early, set)
}

/// The slots whose idles have exactly one end in the set of boundaries.
pub fn idles_across(set: u16) -> u16 {
    set ^ set.rotate_right(1)
}

pub fn classes_of(pages: &[Page], end: End) -> Classes {
    let mut classes = Classes { count: [0; CLASSES], turns: [0; CLASSES] };
    for page in pages {
        let class = if end == End::Closed && page.length == 1 { 128 + page.frame } else { 16 * page.frame + page.length % 16 };
        classes.count[class as usize] += 1;
        classes.turns[class as usize] += page.length / 16;
    }
    classes
}

pub fn all_limits(classes: &Classes, batches: u32) -> Limits {
    Limits { lo: [0; CLASSES], hi: classes.count, cap: [batches; SLOTS] }
}

/// The load of each slot. A run adds one where it begins and takes it away where it ends, counted over
/// two turns.
pub fn loads(classes: &Classes, early: &[u32; CLASSES]) -> [u32; SLOTS] {
    let mut change = [0u32; 2 * SLOTS];
    let mut turns = 0;
    for class in 0..CLASSES {
        let count = classes.count[class];
        if count == 0 {
            continue;
        }
        turns += classes.turns[class];
        let run = &RUNS[class];
        let start = usize::from(run.start[0]);
        let rest = usize::from(run.rest);
        let late = count - early[class];
        change[start] = change[start].wrapping_add(early[class]);
        change[start + rest] = change[start + rest].wrapping_sub(early[class]);
        change[start + 1] = change[start + 1].wrapping_add(late);
        change[start + 1 + rest] = change[start + 1 + rest].wrapping_sub(late);
    }
    let mut loads = [turns; SLOTS];
    let mut sum = 0u32;
    for (place, change) in change.iter().enumerate() {
        sum = sum.wrapping_add(*change);
        loads[place % SLOTS] = loads[place % SLOTS].wrapping_add(sum);
    }
    loads
}

/// The least total load of the slots of the set over all choices within the limits.
pub fn least_load(classes: &Classes, limits: &Limits, set: u16) -> u64 {
    let size = u64::from(set.count_ones());
    let mut sum = 0;
    for class in 0..CLASSES {
        let count = classes.count[class];
        if count == 0 {
            continue;
        }
        let early = u64::from((RUNS[class].covers[0] & set).count_ones());
        let late = u64::from((RUNS[class].covers[1] & set).count_ones());
        let at = |n: u32| u64::from(n) * early + u64::from(count - n) * late;
        sum += u64::from(classes.turns[class]) * size + at(limits.lo[class]).min(at(limits.hi[class]));
    }
    sum
}

pub fn overloads(classes: &Classes, limits: &Limits, set: u16) -> bool {
    let cap: u64 = (0..SLOTS as u8).filter(|slot| holds(set, *slot)).map(|slot| u64::from(limits.cap[usize::from(slot)])).sum();
    cap < least_load(classes, limits, set)
}

/// Whether a page of the class has an end outside the set under every choice within the limits.
pub fn is_certain(classes: &Classes, limits: &Limits, set: u16, class: usize) -> bool {
    if classes.count[class] == 0 {
        return false;
    }
    let (early, late) = (touches(class, true, set), touches(class, false, set));
    (early && late) || (early && limits.lo[class] >= 1) || (late && limits.hi[class] < classes.count[class])
}

pub fn certain_class(classes: &Classes, limits: &Limits, set: u16) -> Option<u8> {
    (0..CLASSES).find(|class| is_certain(classes, limits, set, *class)).map(|class| class as u8)
}

/// The ways out of the set that the limits allow: idles by slot, then for each class the early and the
/// late way.
pub fn ways<'a>(classes: &'a Classes, limits: &'a Limits, set: u16) -> impl Iterator<Item = Way> + 'a {
    let idles = idles_across(set);
    (0..SLOTS as u8).filter(move |slot| holds(idles, *slot)).map(Way::IdleIn).chain(run_ways(classes, limits, set))
}

/// The ways of `ways` that are no idles.
pub fn run_ways<'a>(classes: &'a Classes, limits: &'a Limits, set: u16) -> impl Iterator<Item = Way> + 'a {
    (0..CLASSES).filter(|class| classes.count[*class] >= 1).flat_map(move |class| {
        let early = crosses(class, true, set) && limits.hi[class] >= 1;
        let late = crosses(class, false, set) && limits.lo[class] < classes.count[class];
        [early.then_some(Way::Early(class as u8)), late.then_some(Way::Late(class as u8))].into_iter().flatten()
    })
}

/// The ways in which a tour may end as the end asks; nothing closes the open end.
pub fn closing_ways(classes: &Classes, end: End, limits: &Limits) -> Vec<Way> {
    match end {
        End::Open => vec![],
        End::Closed if limits.lo[135] < classes.count[135] => vec![Way::IdleIn(15), Way::Late(135)],
        End::Closed | End::Idle => vec![Way::IdleIn(15)],
    }
}

/// The limits where the way is taken.
pub fn narrow(classes: &Classes, limits: &Limits, way: Way, batches: u32) -> Limits {
    let mut narrowed = *limits;
    match way {
        Way::IdleIn(slot) => {
            let cap = &mut narrowed.cap[usize::from(slot)];
            *cap = (*cap).min(batches - 1);
        }
        Way::Early(class) => {
            let lo = &mut narrowed.lo[usize::from(class)];
            *lo = (*lo).max(1);
        }
        Way::Late(class) => {
            let hi = &mut narrowed.hi[usize::from(class)];
            *hi = (*hi).min(classes.count[usize::from(class)] - 1);
        }
    }
    narrowed
}

pub fn below_split(limits: &Limits, class: u8, m: u32) -> Limits {
    let mut below = *limits;
    below.hi[usize::from(class)] = m - 1;
    below
}

pub fn from_split(limits: &Limits, class: u8, m: u32) -> Limits {
    let mut from = *limits;
    from.lo[usize::from(class)] = m;
    from
}
