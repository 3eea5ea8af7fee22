//! Random slugs: put beside the pieces of a plan, chosen among them, put between them, or listed wrongly.

use crate::plan::{Case, Plan};
use crate::random::Random;

/// The new numbers of pieces and tabs.
pub struct Names {
    pieces: Vec<u16>,
    tabs: Vec<u16>,
}

/// Slugs put beside the pieces of a plan without slugs, and tabs that end at them; then all is numbered anew. What is kept stays the same plan.
pub fn put(random: &mut Random, plan: &mut Plan) -> Names {
    let count = [1, 1, 1, 2, 2, 3, 6][random.below(7)];
    put_so(random, plan, count, tabs_of)
}

/// The same with so many slugs; of each `tabs` gives those that lead to what was put before it.
fn put_so(random: &mut Random, plan: &mut Plan, count: u16, tabs: Tabs) -> Names {
    let first = plan.vertices;
    plan.vertices += count;
    for slug in first..plan.vertices {
        plan.ends.extend(tabs(random, slug).as_flattened());
    }
    plan.excluded = (first..plan.vertices).collect();
    rename(random, plan)
}

/// The tabs of a slug, from its number.
type Tabs = fn(&mut Random, u16) -> Vec<[u16; 2]>;

fn any_below(random: &mut Random, slug: u16) -> [u16; 2] {
    [random.below(slug as usize) as u16, slug]
}

/// Tabs of a slug: none, one to each piece before it, three to one, or a few to any.
fn tabs_of(random: &mut Random, slug: u16) -> Vec<[u16; 2]> {
    let few = 1 + random.below(5);
    match random.below(6) {
        0 => Vec::new(),
        1 if slug < 70 => (0..slug).map(|v| [v, slug]).collect(),
        2 => [any_below(random, slug)].repeat(3),
        _ => (0..few).map(|_| any_below(random, slug)).collect(),
    }
}

/// Numbers pieces and tabs anew, at random; piece 0 is often a slug.
fn rename(random: &mut Random, plan: &mut Plan) -> Names {
    let mut pieces = random.order(plan.vertices as usize);
    if random.once_in(4) {
        let zero = pieces.iter().position(|&v| v == 0);
        pieces.swap(zero.unwrap_or(0), plan.excluded[0] as usize);
    }
    let tabs = random.order(plan.tabs());
    let mut ends = vec![0; plan.ends.len()];
    for (tab, pair) in tabs.iter().zip(plan.ends.chunks_exact(2)) {
        let (at, turn) = (2 * *tab as usize, random.below(2));
        ends[at] = pieces[pair[turn] as usize];
        ends[at + 1] = pieces[pair[1 - turn] as usize];
    }
    plan.ends = ends;
    for slug in &mut plan.excluded {
        *slug = pieces[*slug as usize];
    }
    plan.excluded.sort();
    Names { pieces, tabs }
}

/// Slugs put beside the pieces of a plan that has a good record, which goes along.
pub fn put_beside(random: &mut Random, case: &mut Case) {
    let names = put(random, &mut case.plan);
    follow(&mut case.list, &names);
}

/// The same with so many slugs of four tabs each.
pub fn put_many(random: &mut Random, case: &mut Case, count: u16) {
    let four: Tabs = |random, slug| (0..4).map(|_| any_below(random, slug)).collect();
    let names = put_so(random, &mut case.plan, count, four);
    follow(&mut case.list, &names);
}

/// A record under new numbers.
fn follow(record: &mut [u16], names: &Names) {
    for row in record.chunks_exact_mut(3) {
        row[1] = names.tabs[row[1] as usize];
        row[2] = names.pieces[row[2] as usize];
    }
}

/// Some pieces become slugs: one, several, all but two; seldom so many that fewer are left.
pub fn choose(random: &mut Random, plan: &mut Plan) {
    let pieces = plan.vertices as usize;
    let count = match random.below(12) {
        0..=4 => 1,
        5..=7 => 1 + random.below(pieces),
        8 | 9 => pieces.saturating_sub(2),
        10 => pieces.saturating_sub(1),
        _ => pieces,
    };
    let mut order = random.order(pieces);
    if random.once_in(4) {
        let zero = order.iter().position(|&v| v == 0);
        order.swap(0, zero.unwrap_or(0));
    }
    plan.excluded.extend(order.iter().take(count));
    plan.excluded.sort();
    plan.excluded.dedup();
}

/// The pieces of a plan that is admitted get numbers far apart, half of the times the first and the last of words of marks as far as there are;
/// all other numbers are slugs without tabs.
pub fn spread(random: &mut Random, plan: &mut Plan) {
    let old = plan.vertices as usize;
    let all = [66, 130, 260, 1000][random.below(4)];
    if all < old {
        return;
    }
    let mut names = random.order(all);
    if random.once_in(2) {
        let border = |v: u16| (v + 1) % 64 < 2 || v as usize + 1 == all;
        names.sort_by_key(|&v| !border(v));
    }
    let renamed = plan.ends.iter_mut().chain(&mut plan.excluded);
    renamed.for_each(|v| *v = names[*v as usize]);
    plan.excluded.extend(&names[old..]);
    plan.excluded.sort();
    plan.vertices = all as u16;
}

/// One of the faults that a list of slugs may have, or one slug more or fewer.
pub fn spoil(random: &mut Random, plan: &mut Plan) {
    let (pieces, count) = (plan.vertices, plan.excluded.len());
    let at = random.below(count.max(1));
    let beyond = [pieces, pieces.saturating_add(1), u16::MAX][random.below(3)];
    let slugs = &mut plan.excluded;
    match random.below(9) {
        0 if count > 0 => slugs.insert(at, slugs[at]),
        1 if count > 1 => slugs.swap(at, (at + 1) % count),
        2 if count > 0 => slugs[at] = beyond,
        3 => slugs.push(beyond),
        4 if count > 0 => _ = slugs.remove(at),
        5 => slugs.reverse(),
        6 if pieces < 100 => *slugs = (random.below(2) as u16..pieces).collect(),
        7 if random.once_in(10) => flood(random, plan),
        _ => slugs.insert(at, random.below(pieces as usize + 1) as u16),
    }
}

/// Slugs without tabs behind all pieces, up to 1,000 pieces or a few more.
fn flood(random: &mut Random, plan: &mut Plan) {
    let first = plan.vertices.min(1000);
    plan.vertices = 1000 + [0, 0, 0, 1, 2][random.below(5)];
    plan.excluded.extend(first..plan.vertices);
}
