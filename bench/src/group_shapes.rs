//! Shapes for the groups: those with many, and those on which finding them may take long.

use crate::firm_shapes::firm;
use crate::grow::Family;
use crate::random::Random;
use crate::shapes::{Drawn, MAX_PIECES, Make, Shape, bodies, joined, long, named, star};
use crate::weak_shapes::{cycle, tail_first, weak};

/// Firm ones that are made at random, those from here, and all weak ones.
pub fn grouped() -> Vec<Shape> {
    let mut firm = firm();
    firm.retain(|shape| shape.name.starts_with("random"));
    let here = named(&[&SCATTERED[..], &RINGS[..], &CHAINS[..], &FAR[..]].concat());
    firm.into_iter().chain(here).chain(weak()).collect()
}

const SCATTERED: [(&str, Make); 4] = [
    ("scattered, sparse", |r, m| scattered(r, 4 * m / 5, m)),
    ("scattered, two for each", |r, m| scattered(r, m / 2, m)),
    ("scattered, four for each", |r, m| scattered(r, m / 4, m)),
    ("scattered, many for each", |r, m| {
        scattered(r, m / 40 + 2, m)
    }),
];

const RINGS: [(&str, Make); 6] = [
    ("cycle, pieces mixed", |r, m| mixed(r, cycle(m))),
    ("ring of rings at a piece", |_, m| ring_of_rings(m)),
    ("ring of rings, through each", |_, m| ring_through_rings(m)),
    ("tree of rings", |r, m| tree_of_rings(r, m, 10)),
    ("tree of triangles", |r, m| tree_of_rings(r, m, 3)),
    ("firm, each tab cut into four", cut_into_four),
];

const CHAINS: [(&str, Make); 8] = [
    ("chain of blobs by one", |r, m| chain(r, m, 5, 1)),
    ("chain of blobs by two", |r, m| chain(r, m, 5, 2)),
    ("chain of blobs at a piece", |r, m| chain_at_pieces(r, m, 5)),
    ("chain of large blobs by two", |r, m| chain(r, m, 20, 2)),
    ("path, pieces mixed", |r, m| {
        mixed(r, joined(long(m + 1), 1, 1))
    }),
    ("doubled path, pieces mixed", |r, m| {
        mixed(r, joined(long(m / 2), 2, 2))
    }),
    ("star, from a point", |_, m| turned(star(m, 1, 1))),
    ("star of two, from a point", |_, m| turned(star(m, 2, 2))),
];

/// A long way from piece 0 to what has most tabs: each cut that is tried may have these on its side.
const FAR: [(&str, Make); 5] = [
    ("tail with a blob, pieces mixed", |r, m| {
        let tail = tail_first(r, m);
        mixed(r, tail)
    }),
    ("tail with a wide blob", |r, m| far(r, m, 1, m / 8)),
    ("doubled tail with a blob", |r, m| far(r, m, 2, 10)),
    ("doubled tail with a wide blob", |r, m| far(r, m, 2, m / 8)),
    ("comb with a blob", comb),
];

/// The same shape, its pieces numbered at random.
fn mixed(random: &mut Random, drawn: Drawn) -> Drawn {
    let name = random.order(drawn.pieces);
    let tabs = drawn.tabs.iter();
    Drawn {
        pieces: drawn.pieces,
        tabs: tabs.map(|tab| tab.map(|v| name[v] as usize)).collect(),
    }
}

/// The first piece and the last one in each other's place.
fn turned(drawn: Drawn) -> Drawn {
    let last = drawn.pieces - 1;
    let swap = |v| match v {
        0 => last,
        v if v == last => 0,
        v => v,
    };
    let tabs = drawn.tabs.iter().map(|tab| tab.map(swap));
    Drawn {
        pieces: drawn.pieces,
        tabs: tabs.collect(),
    }
}

/// So many tabs between any two of so many pieces, or fewer of both.
fn scattered(random: &mut Random, pieces: usize, tabs: usize) -> Drawn {
    let mut all = Drawn::apart(long(pieces));
    for _ in 0..tabs * all.pieces / pieces {
        let (a, step) = (random.below(all.pieces), 1 + random.below(all.pieces - 1));
        all.tie(a, (a + step) % all.pieces, 1);
    }
    all
}

/// How many rings of how many pieces a shape may have, each with so many tabs more: about as many as they are long.
fn rings(tabs: usize, more: usize) -> [usize; 2] {
    let length = long(tabs).isqrt();
    [(tabs / (length + more)).min(MAX_PIECES / length), length]
}

/// A ring with a ring at each of its pieces.
fn ring_of_rings(tabs: usize) -> Drawn {
    let [count, length] = rings(tabs, 1);
    let mut all = Drawn::apart(0);
    for _ in 0..count {
        all.put(&cycle(length));
    }
    for i in 0..count {
        all.tie(i * length, (i + 1) % count * length, 1);
    }
    all
}

/// The same with the great ring going through the small ones, from one of their pieces to another.
fn ring_through_rings(tabs: usize) -> Drawn {
    let mut all = ring_of_rings(tabs);
    let [_, length] = rings(tabs, 1);
    let great = all.pieces / length;
    let small = all.tabs.len() - great;
    for tab in &mut all.tabs[small..] {
        tab[0] += length / 2;
    }
    all
}

/// Rings of so many tabs, each with one piece in common with those before.
fn tree_of_rings(random: &mut Random, tabs: usize, length: usize) -> Drawn {
    let mut all = cycle(length);
    while all.tabs.len() + length <= tabs && all.pieces + length <= MAX_PIECES {
        let joint = random.below(all.pieces);
        let first = all.put(&Drawn::apart(length - 1));
        let mut at = joint;
        for v in first..all.pieces {
            all.tie(at, v, 1);
            at = v;
        }
        all.tie(at, joint, 1);
    }
    all
}

/// A firm body with three more pieces on each of its tabs.
fn cut_into_four(random: &mut Random, tabs: usize) -> Drawn {
    let count = (tabs / 4).min(MAX_PIECES * 4 / 13);
    let core = Drawn::grown(random, Family::Short, count / 4, count);
    let mut all = Drawn::apart(core.pieces);
    for [a, b] in core.tabs {
        let first = all.put(&joined(3, 1, 1));
        all.tie(a, first, 1);
        all.tie(first + 2, b, 1);
    }
    all
}

/// Blobs of so many pieces with four tabs for each, less those that join each to the next; these come last.
fn chain(random: &mut Random, tabs: usize, pieces: usize, joints: usize) -> Drawn {
    let blobs = tabs / (4 * pieces);
    let mut chain = bodies(random, blobs, pieces, 4 * pieces - joints);
    for i in 0..(blobs - 1) * joints {
        let [a, b] = [i / joints, i / joints + 1].map(|blob| blob * pieces + random.below(pieces));
        chain.tie(a, b, 1);
    }
    chain
}

/// Blobs of so many pieces with four tabs for each, each with one piece in common with the next.
fn chain_at_pieces(random: &mut Random, tabs: usize, pieces: usize) -> Drawn {
    let mut chain = bodies(random, tabs / (4 * pieces), pieces, 4 * pieces);
    // the first piece of each is the last one of the blob before
    let place = |v: usize| v - v / pieces;
    for tab in &mut chain.tabs {
        *tab = tab.map(place);
    }
    chain.pieces = place(chain.pieces - 1) + 1;
    chain
}

/// A path from piece 0 whose neighbours are joined by so many tabs, and a firm body of so many pieces with the other tabs at its end.
fn far(random: &mut Random, tabs: usize, each: usize, pieces: usize) -> Drawn {
    let length = (tabs / (2 * each)).min(MAX_PIECES - pieces);
    let mut all = joined(length, each, each);
    let blob = Drawn::grown(random, Family::Short, pieces, tabs - length * each);
    let first = all.put(&blob);
    all.tie(first - 1, first, each);
    all
}

/// A path from piece 0 with a piece hung on each of its pieces, and a blob with the other tabs at its end.
fn comb(random: &mut Random, tabs: usize) -> Drawn {
    let half = (tabs / 2).min(MAX_PIECES - 10) / 2;
    let mut all = joined(half, 1, 1);
    for v in 0..half {
        let tooth = all.put(&Drawn::apart(1));
        all.tie(v, tooth, 1);
    }
    let blob = Drawn::grown(random, Family::Short, 10, tabs - 2 * half);
    let first = all.put(&blob);
    all.tie(half - 1, first, 1);
    all
}
