//! Random small verdicts: good ones, damaged ones and made-up ones.

use crate::grow::Growth;
use crate::plan::{Case, Plan};
use crate::random::Random;
use crate::slugs;

/// A random verdict about a random plan, most of 2 to 8 vertices that are kept; many have slugs.
pub fn random_case(random: &mut Random) -> Case {
    let mut case = match random.below(8) {
        0 => scattered(random),
        from => {
            let most = size(random);
            record(random, most, from <= 3)
        }
    };
    match random.below(6) {
        0 | 1 => slugs::put_beside(random, &mut case),
        2 => fall(random, &mut case),
        _ => (),
    }
    if random.once_in(4) {
        stroll(random, &mut case);
    }
    while random.once_in(2) {
        damage(random, &mut case);
    }
    case
}

/// Most records are of a graph with 8 vertices or fewer.
fn size(random: &mut Random) -> usize {
    match random.below(200) {
        0 => 200,
        1..=25 => 40,
        _ => 8,
    }
}

/// A grown graph of 2 to so many vertices with its record. If careless, ears may end inside one link and the last ears may be
/// missing.
pub fn record(random: &mut Random, most: usize, careless: bool) -> Case {
    let vertices = 2 + random.below(most - 1);
    let mut growth = Growth::new([0; 3].map(|_| random.below(vertices.min(most / 4 + 1))));
    while growth.vertices() < vertices {
        let inner = random.below(vertices - growth.vertices() + 1);
        ear(random, &mut growth, inner, careless);
    }
    if !careless || random.once_in(2) {
        growth.close(random);
    }
    for _ in 0..random.below(3) {
        ear(random, &mut growth, 0, careless);
    }
    growth.shuffle(random)
}

fn ear(random: &mut Random, growth: &mut Growth, inner: usize, careless: bool) {
    let (a, b) = (growth.any(random), growth.any(random));
    if careless && a != b {
        growth.ear(a, inner, b);
    } else {
        growth.random_ear(random, None, inner);
    }
}

/// A random graph, and a list that walks each edge once.
fn scattered(random: &mut Random) -> Case {
    let vertices = 2 + random.below(7);
    let mut ends = Vec::new();
    for _ in 0..random.below(14) {
        let pair = random.order(vertices);
        ends.extend(&pair[..2]);
    }
    let mut case = Case {
        plan: Plan::whole(vertices as u16, ends),
        kind: 0,
        list: Vec::new(),
    };
    stroll(random, &mut case);
    case
}

/// Some vertices become slugs; the rows of their edges go, as a rule.
fn fall(random: &mut Random, case: &mut Case) {
    slugs::choose(random, &mut case.plan);
    if !random.once_in(8) {
        let kept = |row: &&[u16]| case.plan.keeps(row[1] as usize);
        let rows = case.list.chunks_exact(3).filter(kept);
        case.list = rows.flatten().copied().collect();
    }
}

/// From some row on, other walks over the edges that are left, in steps that end at random; seldom over those of slugs, too.
fn stroll(random: &mut Random, case: &mut Case) {
    case.list
        .truncate(3 * random.below(case.list.len() / 3 + 1));
    let mut step = case.list.chunks_exact(3).last().map_or(0, |row| row[0] + 1);
    let mut left = random.order(case.plan.tabs());
    left.retain(|e| case.list.chunks_exact(3).all(|row| row[1] != *e));
    if !random.once_in(8) {
        left.retain(|e| case.plan.keeps(*e as usize));
    }
    let mut at = None;
    while !left.is_empty() {
        let next = if random.once_in(3) { None } else { at };
        let next = next.and_then(|v| left.iter().position(|&e| pair(&case.plan, e).contains(&v)));
        if next.is_none() && at.is_some() {
            step += 1;
            at = None;
        }
        let edge = left.remove(next.unwrap_or(0));
        let [a, b] = pair(&case.plan, edge);
        let from = at.unwrap_or(if random.once_in(2) { a } else { b });
        case.list.extend([step, edge, from]);
        at = Some(if from == a { b } else { a });
    }
}

fn pair(plan: &Plan, edge: u16) -> [u16; 2] {
    let at = 2 * edge as usize;
    [plan.ends[at], plan.ends[at + 1]]
}

fn damage(random: &mut Random, case: &mut Case) {
    match random.below(19) {
        0 => kind(random, case),
        1 | 2 => weak(random, case),
        3 => refusal(random, case),
        4 => length(random, case),
        5 => noise(random, case),
        6 | 7 => swap(random, case),
        8 => repeat(random, case),
        9..=11 => shift(random, case),
        12 | 13 => end(random, case),
        14 => slugs::spoil(random, &mut case.plan),
        15 | 16 => of_slug(random, case),
        _ => number(random, case),
    }
}

/// A number that is likely to mean something, seldom any.
fn likely(random: &mut Random, case: &Case) -> u16 {
    match random.below(8) {
        0 => random.below(65536) as u16,
        1..=3 => random.below(case.plan.vertices as usize + 1) as u16,
        _ => random.below(case.plan.tabs() + 1) as u16,
    }
}

/// A place in a list, if it has any; the later ones are likelier.
fn place(random: &mut Random, length: usize) -> Option<usize> {
    (length > 0).then(|| random.below(length).max(random.below(length)))
}

fn kind(random: &mut Random, case: &mut Case) {
    case.kind = match random.below(4) {
        0 => random.below(65536) as u16,
        other => other as u16 - 1,
    };
}

/// A weak list, for the most part ascending; often with fewer edges in the graph.
fn weak(random: &mut Random, case: &mut Case) {
    case.kind = 1;
    if random.once_in(2) {
        let tabs = random.below(case.plan.tabs() + 1);
        case.plan.ends.truncate(2 * tabs);
    }
    let count = random.below(8).min(random.below(4));
    case.list = (0..count).map(|_| likely(random, case)).collect();
    if !random.once_in(4) {
        case.list.sort();
    }
}

/// One of the plan's own faults.
fn refusal(random: &mut Random, case: &mut Case) {
    let likely = likely(random, case);
    let Plan { vertices, ends, .. } = &mut case.plan;
    match random.below(8) {
        0 => ends.push(likely),
        1 => *vertices = random.below(2) as u16,
        2 => *vertices = 1000 + random.below(3) as u16,
        3 if random.once_in(50) => ends.resize(8000 + 2 * random.below(2), 1),
        4 => *vertices = vertices.saturating_sub(1),
        5 => *vertices += 1,
        _ => {
            if let Some(i) = place(random, ends.len()) {
                ends[i] = likely;
            }
        }
    }
}

/// A slug's edge in a row or in the list of a weak verdict, if there is any: in the place of another number, or before or behind all.
fn of_slug(random: &mut Random, case: &mut Case) {
    let of_slugs = (0..case.plan.tabs()).filter(|&e| !case.plan.keeps(e));
    let of_slugs: Vec<usize> = of_slugs.collect();
    let Some(i) = place(random, of_slugs.len()) else {
        return;
    };
    let edge = of_slugs[i] as u16;
    let from = pair(&case.plan, edge)[random.below(2)];
    if random.once_in(4) {
        case.kind = 1;
        case.list = vec![edge];
        if random.once_in(2) {
            case.list.push(likely(random, case));
            case.list.sort();
        }
    } else if let (0, Some(row)) = (case.kind, place(random, case.list.len() / 3)) {
        case.list[3 * row + 1] = edge;
        case.list[3 * row + 2] = from;
    } else {
        case.list.extend([likely(random, case), edge, from]);
    }
}

/// Numbers cut off or added.
fn length(random: &mut Random, case: &mut Case) {
    if random.once_in(2) {
        case.list.truncate(random.below(case.list.len() + 1));
    } else {
        for _ in 0..1 + random.below(3) {
            case.list.push(likely(random, case));
        }
    }
}

fn noise(random: &mut Random, case: &mut Case) {
    for i in 0..case.list.len() {
        case.list[i] = likely(random, case);
    }
}

/// Two rows in each other's place.
fn swap(random: &mut Random, case: &mut Case) {
    let rows = case.list.len() / 3;
    if let (Some(a), Some(b)) = (place(random, rows), place(random, rows)) {
        for i in 0..3 {
            case.list.swap(3 * a + i, 3 * b + i);
        }
    }
}

/// A row in the place of another.
fn repeat(random: &mut Random, case: &mut Case) {
    let rows = case.list.len() / 3;
    if let (Some(a), Some(b)) = (place(random, rows), place(random, rows)) {
        case.list.copy_within(3 * a..3 * a + 3, 3 * b);
    }
}

/// The steps from some row on counted one up or down: a step falls into two, or two become one.
fn shift(random: &mut Random, case: &mut Case) {
    if let Some(row) = place(random, case.list.len() / 3) {
        let up = random.once_in(2);
        for step in case.list.iter_mut().skip(3 * row).step_by(3) {
            *step = if up {
                step.saturating_add(1)
            } else {
                step.saturating_sub(1)
            };
        }
    }
}

/// An end of an edge moved to another vertex; the row that walks the edge may go along.
fn end(random: &mut Random, case: &mut Case) {
    let Plan { vertices, ends, .. } = &mut case.plan;
    if let Some(at) = place(random, ends.len()) {
        let old = ends[at];
        ends[at] = random.below((*vertices).max(1) as usize) as u16;
        let edge = (at / 2) as u16;
        for row in case.list.chunks_exact_mut(3) {
            if row[1] == edge && row[2] == old {
                row[2] = ends[at];
            }
        }
    }
}

/// One number changed, most often by one.
pub fn number(random: &mut Random, case: &mut Case) {
    if let Some(i) = place(random, case.list.len()) {
        case.list[i] = match random.below(3) {
            0 => case.list[i].saturating_add(1),
            1 => case.list[i].saturating_sub(1),
            _ => likely(random, case),
        };
    }
}
