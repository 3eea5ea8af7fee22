//! Random plans for the writers and the finders of groups: small ones of many shapes, some larger ones, some with far numbers, refused ones, and
//! space for what is written.

use crate::damage::record;
use crate::fallen::{Fallen, WORDS};
use crate::plan::Plan;
use crate::random::Random;
use crate::{second, slugs};

/// A plan, and the space lent for its record and for the marks of what would fall, filled with any numbers.
#[derive(Clone, Debug)]
pub struct Trial {
    pub plan: Plan,
    pub rows: Vec<u16>,
    pub fallen: Fallen,
}

type Tabs = Vec<[u16; 2]>;

/// A random plan with space that may be too short or longer than needed.
pub fn random_trial(random: &mut Random) -> Trial {
    let plan = random_numbered(random);
    let rows = space(random, plan.record());
    let fallen = Fallen {
        words: [0; WORDS].map(|_| random.next()),
        count: random.next() as u16,
    };
    Trial { plan, rows, fallen }
}

/// A random plan, most of them small. Of 256 one is larger, of up to 960 pieces, one is a long path or ring, and 16 have their few pieces spread among
/// up to 1,000: then marks lie in several words.
fn random_numbered(random: &mut Random) -> Plan {
    match random.below(256) {
        0 => {
            let most = 60 + random.below(900);
            random_larger(random, most)
        }
        1 => random_long(random),
        2..=17 => {
            let mut plan = random_plan(random);
            if second::admit(&plan).is_ok() {
                slugs::spread(random, &mut plan);
            }
            plan
        }
        _ => random_plan(random),
    }
}

/// A path of up to 1,000 pieces, or a ring closed by one tab, whose neighbours are joined by one to three tabs, about one pair of
/// them by one fewer; numbered along it or at random, some with slugs.
fn random_long(random: &mut Random) -> Plan {
    let pieces = 2 + random.below(999) as u16;
    let each = 1 + random.below(3);
    let mut tabs = Tabs::new();
    for v in 1..pieces {
        let count = each - random.once_in(pieces as usize) as usize;
        tabs.extend([[v - 1, v]].repeat(count));
    }
    if random.once_in(2) {
        tabs.push([pieces - 1, 0]);
    }
    let mut plan = match random.once_in(2) {
        true => mixed(random, &tabs),
        false => Plan::whole(pieces, tabs.into_iter().flatten().collect()),
    };
    if random.once_in(4) {
        slugs::choose(random, &mut plan);
    }
    plan
}

/// A random plan, most of 2 to 8 pieces that are kept; half of them have slugs.
pub fn random_plan(random: &mut Random) -> Plan {
    let mut tabs = match random.below(20) {
        0 => scattered(random, 7, 14),
        1 => scattered(random, 3, 14),
        2 | 3 => ring(random),
        4 | 5 => parallel(random),
        6 | 7 => glued(random),
        8 => parted(random),
        9 => crumbled(random),
        10 => doubled(random),
        11 => strands(random),
        12 => necklace(random),
        _ => grown(random),
    };
    while random.once_in(3) {
        change(random, &mut tabs);
    }
    let mut plan = mixed(random, &tabs);
    slug(random, &mut plan);
    while random.once_in(12) {
        spoil(random, &mut plan);
    }
    plan
}

/// Half of the plans get slugs, beside their pieces or among them.
fn slug(random: &mut Random, plan: &mut Plan) {
    match random.below(6) {
        0 | 1 => _ = slugs::put(random, plan),
        2 => slugs::choose(random, plan),
        _ => (),
    }
}

/// A random plan of up to so many pieces, weak as a rule: tabs between any pieces, or small bodies that hang together.
pub fn random_larger(random: &mut Random, most: usize) -> Plan {
    let mut tabs = match random.below(4) {
        0 => scattered(random, most - 1, most + most / 2),
        _ => gathered(random, most - 8),
    };
    while random.once_in(2) {
        change(random, &mut tabs);
    }
    let mut plan = mixed(random, &tabs);
    slug(random, &mut plan);
    plan
}

/// Small bodies and single pieces until there are so many pieces, each put into a tab of those before, hung on them by some tabs, or both.
fn gathered(random: &mut Random, least: usize) -> Tabs {
    let mut tabs = small(random);
    while (pieces(&tabs) as usize) < least {
        let first = pieces(&tabs);
        let at = random.below(tabs.len());
        let body = if random.once_in(2) {
            Tabs::new()
        } else {
            small(random)
        };
        tabs.extend(body.iter().map(|tab| tab.map(|v| first + v)));
        let size = if body.is_empty() { 1 } else { pieces(&body) };
        let inside = |random: &mut Random| first + random.below(size as usize) as u16;
        if random.once_in(3) {
            let [a, b] = tabs[at];
            tabs[at] = [a, inside(random)];
            tabs.push([inside(random), b]);
        }
        for _ in 0..[0, 1, 1, 1, 2, 2, 2, 3, 4][random.below(9)] {
            tabs.push([random.below(first as usize) as u16, inside(random)]);
        }
    }
    tabs
}

/// Two different pieces.
fn pair(random: &mut Random, pieces: u16) -> [u16; 2] {
    let a = random.below(pieces as usize) as u16;
    let step = 1 + random.below(pieces as usize - 1) as u16;
    [a, (a + step) % pieces]
}

fn pieces(tabs: &Tabs) -> u16 {
    tabs.iter()
        .flatten()
        .max()
        .map_or(2, |&highest| highest + 1)
}

fn scattered(random: &mut Random, pieces: usize, tabs: usize) -> Tabs {
    let pieces = 2 + random.below(pieces) as u16;
    let count = random.below(tabs + 1);
    (0..count).map(|_| pair(random, pieces)).collect()
}

/// A ring whose sides are one, two or three tabs, most of them two.
fn ring(random: &mut Random) -> Tabs {
    let pieces = 2 + random.below(6) as u16;
    let mut tabs = Vec::new();
    for v in 0..pieces {
        let side = [2, 2, 2, 1, 3][random.below(5)];
        tabs.extend([[v, (v + 1) % pieces]].repeat(side));
    }
    tabs
}

/// A tree whose neighbours are joined by three tabs or four, seldom fewer.
fn parallel(random: &mut Random) -> Tabs {
    let pieces = 2 + random.below(4);
    let mut tabs = Vec::new();
    for v in 1..pieces {
        let count = [3, 3, 3, 4, 3, 4, 2, 1][random.below(8)];
        let parent = random.below(v) as u16;
        tabs.extend([[parent, v as u16]].repeat(count));
    }
    tabs
}

/// A firm plan grown by ears, or one whose ears may break the link rule; seldom a larger one.
fn grown(random: &mut Random) -> Tabs {
    let most = match random.below(400) {
        0 => 60,
        1..=10 => 20,
        _ => 8,
    };
    let careless = random.once_in(6);
    let case = record(random, most, careless);
    let pairs = case.plan.ends.chunks_exact(2);
    pairs.map(|pair| [pair[0], pair[1]]).collect()
}

/// Two or three bodies, each with one piece in common with those before.
fn glued(random: &mut Random) -> Tabs {
    let mut tabs = small(random);
    for _ in 0..1 + random.below(2) {
        let (first, joint) = (pieces(&tabs), random.below(pieces(&tabs) as usize));
        let place = |v| if v == 0 { joint as u16 } else { first + v - 1 };
        tabs.extend(small(random).iter().map(|tab| tab.map(place)));
    }
    tabs
}

/// Two or three bodies with nothing in common.
fn parted(random: &mut Random) -> Tabs {
    let mut tabs = small(random);
    for _ in 0..1 + random.below(2) {
        let first = pieces(&tabs);
        tabs.extend(small(random).iter().map(|tab| tab.map(|v| first + v)));
    }
    tabs
}

/// Many bodies of one to three pieces.
fn crumbled(random: &mut Random) -> Tabs {
    let mut tabs = Vec::new();
    let mut first = 0;
    for _ in 0..2 + random.below(6) {
        let last = first + random.below(3) as u16;
        for v in first..last {
            tabs.extend([[v, v + 1]].repeat(1 + random.below(3)));
        }
        first = last + 1;
    }
    tabs
}

/// A path whose neighbours are joined by two tabs, seldom by one or three.
fn doubled(random: &mut Random) -> Tabs {
    let mut tabs = Vec::new();
    for v in 1..2 + random.below(11) as u16 {
        let count = [2, 2, 2, 2, 2, 3, 3, 1][random.below(8)];
        tabs.extend([[v - 1, v]].repeat(count));
    }
    tabs
}

/// Two to four paths between two pieces: any two tabs of one path part the plan.
fn strands(random: &mut Random) -> Tabs {
    let mut tabs = Vec::new();
    let mut next = 2;
    for _ in 0..2 + random.below(3) {
        let mut at = 0;
        for _ in 0..random.below(6) {
            tabs.push([at, next]);
            at = next;
            next += 1;
        }
        tabs.push([at, 1]);
    }
    tabs
}

/// Two to four bodies in a row or in a ring, each joined to the next by one tab or two.
fn necklace(random: &mut Random) -> Tabs {
    let mut tabs = small(random);
    let mut begins = vec![0, pieces(&tabs)];
    for _ in 0..1 + random.below(3) {
        let first = pieces(&tabs);
        tabs.extend(small(random).iter().map(|tab| tab.map(|v| first + v)));
        begins.push(pieces(&tabs));
    }
    let bodies: Vec<[u16; 2]> = begins.windows(2).map(|pair| [pair[0], pair[1]]).collect();
    let closed = random.once_in(2);
    for (i, &body) in bodies.iter().enumerate().skip(!closed as usize) {
        let before = bodies[(i + bodies.len() - 1) % bodies.len()];
        for _ in 0..1 + random.below(2) {
            let inside = |[from, to]: [u16; 2]| from + random.below((to - from) as usize) as u16;
            tabs.push([before, body].map(inside));
        }
    }
    tabs
}

fn small(random: &mut Random) -> Tabs {
    match random.below(4) {
        0 => ring(random),
        1 => parallel(random),
        _ => {
            let case = record(random, 4, false);
            let pairs = case.plan.ends.chunks_exact(2);
            pairs.map(|pair| [pair[0], pair[1]]).collect()
        }
    }
}

/// A tab more or less, or one that ends elsewhere.
fn change(random: &mut Random, tabs: &mut Tabs) {
    let pieces = pieces(tabs);
    let new = pair(random, pieces);
    if tabs.is_empty() || random.once_in(3) {
        return tabs.push(new);
    }
    let at = random.below(tabs.len());
    if random.once_in(2) {
        tabs.remove(at);
    } else {
        let end = random.below(2);
        tabs[at] = [tabs[at][end], new[0]];
        if tabs[at][0] == tabs[at][1] {
            tabs[at] = new;
        }
    }
}

/// The plan of some tabs, pieces and tabs renumbered at random; seldom with a piece that no tab joins.
fn mixed(random: &mut Random, tabs: &Tabs) -> Plan {
    let vertices = pieces(tabs) + random.once_in(20) as u16;
    let name = random.order(vertices as usize);
    let order = random.order(tabs.len());
    let mut ends = Vec::new();
    for i in order {
        let turn = random.below(2);
        let tab = tabs[i as usize];
        ends.extend([tab[turn], tab[1 - turn]].map(|v| name[v as usize]));
    }
    Plan::whole(vertices, ends)
}

/// One of the faults that a plan is refused for.
fn spoil(random: &mut Random, plan: &mut Plan) {
    let (vertices, length) = (plan.vertices, plan.ends.len());
    match random.below(9) {
        0 => plan.ends.push(random.below(vertices as usize + 1) as u16),
        1 => plan.vertices = [0, 1, 1000, 1001, 65535][random.below(5)],
        2 if random.once_in(20) => crowd(random, plan),
        3 => plan.vertices = vertices.saturating_sub(1),
        4 if length > 0 => {
            plan.ends[random.below(length)] = [vertices, 65535][random.below(2)];
        }
        5 if length > 1 => {
            let at = random.below(length / 2) * 2;
            plan.ends[at] = plan.ends[at + 1];
        }
        6..=8 => slugs::spoil(random, plan),
        _ => plan.vertices = vertices.saturating_add(1),
    }
}

/// Some 4,000 tabs, most of them between two pieces, and some pieces apart, for trying all sets of tabs would take long.
fn crowd(random: &mut Random, plan: &mut Plan) {
    let count = 7996 + 2 * random.below(5);
    let more = (plan.ends.len()..count).map(|i| i as u16 % 2);
    plan.ends.extend(more);
    let highest = plan.ends.iter().max().copied().unwrap_or(0);
    plan.vertices = plan.vertices.max(highest).saturating_add(5);
}

/// Space for what is written: as many numbers as are needed, fewer or more.
pub fn space(random: &mut Random, need: usize) -> Vec<u16> {
    let length = match random.below(16) {
        0 => random.below(need + 1),
        1 => need.saturating_sub(1),
        2..=6 => need + 1 + random.below(7),
        _ => need,
    };
    (0..length).map(|_| random.next() as u16).collect()
}
