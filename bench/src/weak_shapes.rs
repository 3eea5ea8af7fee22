//! Weak shapes: in several bodies, with one tab that parts them, with pairs of tabs that do.

use crate::firm_shapes::three;
use crate::grow::Family;
use crate::random::Random;
use crate::shapes::{
    Drawn, MAX_PIECES, Make, Shape, bipartite, bodies, caterpillar, joined, long, named, ring,
    star, tree, wheel,
};

/// Those in several bodies, those with a tab that parts them, those with pairs alone.
pub fn weak() -> Vec<Shape> {
    named(&[&PARTED[..], &BY_ONE[..], &BY_TWO[..]].concat())
}

const PARTED: [(&str, Make); 8] = [
    ("several bodies", |r, m| bodies(r, 4, m / 16, m / 4)),
    ("two bodies", |r, m| bodies(r, 2, m / 8, m / 2)),
    ("many bodies", |r, m| bodies(r, m / 20, 5, 20)),
    ("many pairs", |_, m| pairs(m)),
    ("the last apart", last_apart),
    ("the first apart", first_apart),
    ("many apart", |_, m| many_apart(m)),
    ("a body, two paths", two_paths),
];

const BY_ONE: [(&str, Make); 11] = [
    ("path", |_, m| joined(long(m + 1), 1, 1)),
    ("path, piece 0 in its middle", |_, m| middle(m)),
    ("star", |_, m| star(m, 1, 1)),
    ("caterpillar", |_, m| caterpillar(m, 1)),
    ("tree", |r, m| tree(r, m, 1)),
    ("tree of blobs", |r, m| tree_of_blobs(r, m, 1)),
    ("blob with a tail", |r, m| tail(r, m, false)),
    ("tail with a blob", tail_first),
    ("one hung on by one", |r, m| hung(r, m, 1)),
    ("bipartite, one hung on", |_, m| bipartite(m, 4, 1)),
    ("two blobs by one", |r, m| two_blobs(r, m, 1)),
];

const BY_TWO: [(&str, Make); 23] = [
    ("one hung on by two", |r, m| hung(r, m, 2)),
    ("scattered, one hung on by two", scattered),
    ("two blobs by two", |r, m| two_blobs(r, m, 2)),
    ("ring of blobs", |r, m| ring(r, m, 1)),
    ("tree of blobs, by two", |r, m| tree_of_blobs(r, m, 2)),
    ("blob with a ring", |r, m| tail(r, m, true)),
    ("cycle", |_, m| cycle(m)),
    ("cycle, a blob at its end", cycle_blob),
    ("three paths", |_, m| Drawn::of(three(inner(m)).collect())),
    ("chain of triangles", |_, m| triangles(m)),
    ("doubled path", |_, m| joined(long(m / 2), 2, 2)),
    ("path, then again", |_, m| again(m)),
    ("tripled, last doubled", |_, m| joined(long(m / 3), 3, 2)),
    ("few pieces, many tabs", |_, m| joined(5, (m - 2) / 3, 2)),
    ("star of two", |_, m| star(m, 2, 2)),
    ("star of three, last of two", |_, m| star(m, 3, 2)),
    ("caterpillar of two", |_, m| caterpillar(m, 2)),
    ("tree of two", |r, m| tree(r, m, 2)),
    ("ladder, grid of two rows", |_, m| grid(2, m)),
    ("grid", |_, m| grid(32.min(m / 8), m)),
    ("wheel less a spoke", |_, m| wheel(m, 0)),
    ("bipartite of two", |_, m| bipartite(m, 2, 0)),
    ("bipartite, one hung on by two", |_, m| bipartite(m, 63, 2)),
];

/// A firm body with four tabs for each piece, but for what is kept back.
fn core(random: &mut Random, tabs: usize, pieces_kept: usize, tabs_kept: usize) -> Drawn {
    Drawn::grown(
        random,
        Family::Short,
        tabs / 4 - pieces_kept,
        tabs - tabs_kept,
    )
}

/// Two pieces and eight tabs in each body.
fn pairs(tabs: usize) -> Drawn {
    let mut all = Drawn::apart(0);
    for _ in 0..tabs / 8 {
        all.put(&joined(2, 8, 8));
    }
    all
}

fn last_apart(random: &mut Random, tabs: usize) -> Drawn {
    let mut all = core(random, tabs, 1, 0);
    all.pieces += 1;
    all
}

fn first_apart(random: &mut Random, tabs: usize) -> Drawn {
    let mut all = Drawn::apart(1);
    all.put(&core(random, tabs, 1, 0));
    all
}

/// All tabs between the last two pieces.
fn many_apart(tabs: usize) -> Drawn {
    let mut all = Drawn::apart(tabs / 4);
    all.tie(tabs / 4 - 2, tabs / 4 - 1, tabs);
    all
}

/// Half of the pieces in two paths; piece 0 begins the first.
fn two_paths(random: &mut Random, tabs: usize) -> Drawn {
    let length = tabs / 16;
    let mut all = joined(length, 1, 1);
    all.put(&core(random, tabs, 2 * length, 2 * length - 2));
    all.put(&joined(length, 1, 1));
    all
}

/// A path numbered from its middle: 0 is there, odd pieces to the one side, even ones to the other.
fn middle(tabs: usize) -> Drawn {
    let pairs = (1..long(tabs + 1)).map(|v| [v.saturating_sub(2), v]);
    Drawn::of(pairs.collect())
}

/// Blobs of five pieces, each joined to some blob before it; these tabs come last.
fn tree_of_blobs(random: &mut Random, tabs: usize, joints: usize) -> Drawn {
    let blobs = tabs / 20;
    let mut tree = bodies(random, blobs, 5, 20 - joints);
    for blob in 1..blobs {
        let before = random.below(blob);
        for _ in 0..joints {
            let [a, b] = [before, blob].map(|blob| 5 * blob + random.below(5));
            tree.tie(a, b, 1);
        }
    }
    tree
}

/// A firm plan of few pieces with a long path to it, the farthest tab first; the path may come back to it.
fn tail(random: &mut Random, tabs: usize, closed: bool) -> Drawn {
    let length = (tabs / 2).min(MAX_PIECES - 10);
    let mut all = Drawn::grown(random, Family::Short, 10, tabs - length);
    all.pieces += if closed { length - 1 } else { length };
    for v in (10..10 + length).rev() {
        all.tie(v - 1, v % all.pieces, 1);
    }
    all
}

/// The same with the path before the blob: piece 0 is at its far end.
pub fn tail_first(random: &mut Random, tabs: usize) -> Drawn {
    let length = (tabs / 2).min(MAX_PIECES - 10);
    let mut all = joined(length, 1, 1);
    let blob = Drawn::grown(random, Family::Short, 10, tabs - length);
    let first = all.put(&blob);
    all.tie(first - 1, first, 1);
    all
}

/// A firm plan with one more piece, the last, joined by the last tabs.
fn hung(random: &mut Random, tabs: usize, joints: usize) -> Drawn {
    let mut all = core(random, tabs, 1, joints);
    let last = all.put(&Drawn::apart(1));
    for _ in 0..joints {
        all.tie(random.below(last), last, 1);
    }
    all
}

/// Tabs between any two pieces, and the last piece joined by the last two tabs: in one body or in several.
fn scattered(random: &mut Random, tabs: usize) -> Drawn {
    let mut all = Drawn::apart(tabs / 4);
    let last = all.pieces - 1;
    for _ in 2..tabs {
        let (a, step) = (random.below(last), 1 + random.below(last - 1));
        all.tie(a, (a + step) % last, 1);
    }
    for _ in 0..2 {
        all.tie(random.below(last), last, 1);
    }
    all
}

/// Two firm bodies of one size, joined by the last tabs.
fn two_blobs(random: &mut Random, tabs: usize, joints: usize) -> Drawn {
    let mut all = core(random, tabs / 2, 0, joints);
    let first = all.put(&core(random, tabs / 2, 0, 0));
    for _ in 0..joints {
        let (a, b) = (random.below(first), random.below(all.pieces - first));
        all.tie(a, first + b, 1);
    }
    all
}

pub fn cycle(tabs: usize) -> Drawn {
    let mut cycle = joined(long(tabs), 1, 1);
    cycle.tie(cycle.pieces - 1, 0, 1);
    cycle
}

/// A cycle, and a firm body that has its last piece in common with it.
fn cycle_blob(random: &mut Random, tabs: usize) -> Drawn {
    let mut all = cycle((tabs / 2).min(MAX_PIECES - 10));
    let joint = all.pieces - 1;
    let blob = Drawn::grown(random, Family::Short, 10, tabs - all.pieces);
    all.pieces = joint;
    all.put(&blob);
    all
}

/// How many inner pieces each of three paths between two pieces has.
fn inner(tabs: usize) -> usize {
    (tabs / 3 - 1).min((MAX_PIECES - 2) / 3)
}

/// Triangles, each with one piece in common with the next.
fn triangles(tabs: usize) -> Drawn {
    let count = (tabs / 3).min((MAX_PIECES - 1) / 2);
    let sides = |i| [[i, i + 1], [i + 1, i + 2], [i, i + 2]];
    Drawn::of((0..count).flat_map(|i| sides(2 * i)).collect())
}

/// A doubled path, its tabs numbered from one end to the other and then again.
fn again(tabs: usize) -> Drawn {
    let mut path = joined(long(tabs / 2), 1, 1);
    path.tabs = path.tabs.repeat(2);
    path
}

/// So many rows, and as many columns as the tabs allow.
fn grid(rows: usize, tabs: usize) -> Drawn {
    let columns = ((tabs + rows) / (2 * rows - 1)).min(MAX_PIECES / rows);
    let mut list = Vec::new();
    for v in 0..rows * columns {
        if (v + 1) % rows > 0 {
            list.push([v, v + 1]);
        }
        if v + rows < rows * columns {
            list.push([v, v + rows]);
        }
    }
    Drawn::of(list)
}
