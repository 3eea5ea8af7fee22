//! Firm shapes.

use crate::grow::Family;
use crate::random::Random;
use crate::shapes::{
    Drawn, MAX_PIECES, Make, Shape, bipartite, caterpillar, joined, named, ring, star, tree, wheel,
};

/// A long shape leaves room for a blob.
const LONG_PIECES: usize = MAX_PIECES - 10;

/// Those that are made at random, the long ones, those made to have dear links, those with pieces of many tabs, and those in which every piece
/// has few, without parallel ones.
pub fn firm() -> Vec<Shape> {
    named(&[&RANDOM[..], &LONG[..], &LINKS[..], &WIDE[..], &PLAIN[..]].concat())
}

const RANDOM: [(&str, Make); 5] = [
    ("random, short ears", |r, m| grown(r, Family::Short, m)),
    ("random, long ears", |r, m| grown(r, Family::Long, m)),
    ("random, far ends", |r, m| grown(r, Family::Far, m)),
    ("ring of blobs", |r, m| ring(r, m, 2)),
    ("tree of three", |r, m| {
        filled(tree(r, long(m, 3), 3).tabs, m)
    }),
];

const LONG: [(&str, Make); 9] = [
    ("ladder", |_, m| filled(ladder(m), m)),
    ("three doubled paths", |_, m| filled(doubled_paths(m), m)),
    ("doubled paths, a tail", |_, m| {
        filled(paths_with_tail(m), m)
    }),
    ("three paths, rungs", |_, m| filled(paths_with_rungs(m), m)),
    ("tripled path", |_, m| filled(tripled(m), m)),
    ("ring, twice", |_, m| filled(turns(m, 2), m)),
    ("ring, three times", |_, m| filled(turns(m, 3), m)),
    ("ring, four times", |_, m| filled(turns(m, 4), m)),
    ("grid, twice", |_, m| filled(grid(m), m)),
];

const LINKS: [(&str, Make); 4] = [
    ("nested chords", |_, m| filled(nested(m), m)),
    ("exits in the middle", |_, m| filled(halved(m), m)),
    ("doubled path, one outlet", |_, m| filled(outlet(m, 1), m)),
    ("doubled paths, one outlet each", |_, m| {
        filled(outlet(m, m.isqrt() / 4), m)
    }),
];

const WIDE: [(&str, Make); 8] = [
    ("star of three", |_, m| {
        filled(star(long(m, 3), 3, 3).tabs, m)
    }),
    ("star of four", |_, m| star(m, 4, 4)),
    ("star of four, from a point", |_, m| turned(star(m, 4, 4))),
    ("caterpillar of three", |_, m| {
        filled(caterpillar(long(m, 3), 3).tabs, m)
    }),
    ("wheel", |_, m| filled(wheel(long(m, 2), 1).tabs, m)),
    ("bipartite of three", |_, m| {
        filled(bipartite(long(m, 3) - 9, 3, 0).tabs, m)
    }),
    ("every two pieces", |_, m| every_two(m)),
    ("few pieces, many tabs", |_, m| joined(5, m / 4, m / 4)),
];

const PLAIN: [(&str, Make); 6] = [
    ("prism", |_, m| filled(prism(m), m)),
    ("torus", |_, m| filled(torus(m), m)),
    ("ring with chords", |_, m| filled(chords(m), m)),
    ("corners cut off", |r, m| filled(corners(r, m), m)),
    ("stacked triangles", |r, m| filled(stacked(r, m), m)),
    ("each on three before", |_, m| filled(three_before(m), m)),
];

/// So many tabs, if a long shape may have them with so many for each piece.
fn long(tabs: usize, each: usize) -> usize {
    tabs.min(each * (LONG_PIECES - 1))
}

fn grown(random: &mut Random, family: Family, tabs: usize) -> Drawn {
    Drawn::grown(random, family, tabs / 4, tabs)
}

/// So many tabs: those that are left over, if they are enough, make a blob of ten pieces at the last piece.
fn filled(tabs: Vec<[usize; 2]>, count: usize) -> Drawn {
    let last = tabs.iter().flatten().max().copied().unwrap_or(0);
    let left = count.saturating_sub(tabs.len());
    let mut all = tabs;
    if left >= 100 {
        let pair = |i: usize| [i % 10, (i % 10 + 1 + i / 10 % 9) % 10];
        all.extend((0..left).map(|i| pair(i).map(|v| last + v)));
    }
    Drawn::of(all)
}

/// Two rails, one of them doubled, with rungs; the first and the last rung are doubled.
fn ladder(tabs: usize) -> Vec<[usize; 2]> {
    let rungs = ((tabs + 1) / 4).min(LONG_PIECES / 2);
    let mut list = vec![[0, 1]];
    for i in 0..rungs {
        let [a, b] = [2 * i, 2 * i + 1];
        list.push([a, b]);
        if i + 1 < rungs {
            list.extend([[a, a + 2], [a, a + 2], [b, b + 2]]);
        } else {
            list.push([a, b]);
        }
    }
    list
}

/// The pieces of three paths between two pieces, one from each path after the other: the paths have so many inner pieces.
pub fn three(inner: usize) -> impl Iterator<Item = [usize; 2]> {
    let last = 3 * inner + 1;
    (1..=last + 2).map(move |v| [v.saturating_sub(3), v.min(last)])
}

fn doubled_paths(tabs: usize) -> Vec<[usize; 2]> {
    let inner = (tabs / 6 - 1).min((LONG_PIECES - 2) / 3);
    three(inner).flat_map(|tab| [tab, tab]).collect()
}

/// Three doubled paths, and a tripled path that hangs on the middle of one of them.
fn paths_with_tail(tabs: usize) -> Vec<[usize; 2]> {
    let inner = (tabs / 12 - 1).min((LONG_PIECES / 2 - 2) / 3);
    let paths = three(inner).flat_map(|tab| [tab, tab]);
    let (joint, first) = (3 * (inner / 2) + 1, 3 * inner + 2);
    let place = |tab: [usize; 2]| tab.map(|v| if v == 0 { joint } else { first + v - 1 });
    let tail = tripled((tabs / 2).min(3 * LONG_PIECES / 2));
    paths.chain(tail.into_iter().map(place)).collect()
}

/// Three paths, and rungs from the middle one to both others at each place.
fn paths_with_rungs(tabs: usize) -> Vec<[usize; 2]> {
    let inner = ((tabs - 3) / 5).min((LONG_PIECES - 2) / 3);
    let mut list = Vec::new();
    for tab in three(inner) {
        list.push(tab);
        let v = tab[1];
        if v % 3 == 0 && v <= 3 * inner && tab[0] + 3 >= v {
            list.extend([[v - 2, v - 1], [v - 1, v]]);
        }
    }
    list
}

fn tripled(tabs: usize) -> Vec<[usize; 2]> {
    joined((tabs / 3).min(LONG_PIECES), 3, 3).tabs
}

/// A ring, its tabs numbered along it and then again, so many times.
fn turns(tabs: usize, times: usize) -> Vec<[usize; 2]> {
    let pieces = (tabs / times).min(LONG_PIECES);
    let side = |v| [v, (v + 1) % pieces];
    (0..times * pieces).map(|i| side(i % pieces)).collect()
}

/// A grid of 30 rows, or fewer, each tab doubled.
fn grid(tabs: usize) -> Vec<[usize; 2]> {
    let rows = 30.min(tabs / 16);
    let columns = ((tabs / 2 + rows) / (2 * rows - 1)).min(LONG_PIECES / rows);
    let last = rows * columns;
    let right = |v: usize| ((v + 1) % rows > 0).then_some([v, v + 1]);
    let down = |v: usize| (v + rows < last).then_some([v, v + rows]);
    let tabs = (0..last).flat_map(|v| [right(v), down(v)]).flatten();
    tabs.flat_map(|tab| [tab, tab]).collect()
}

/// A path whose ends are joined twice more; then the tabs that the shape is made for.
fn closed(last: usize) -> Vec<[usize; 2]> {
    let path = (0..last).map(|v| [v, v + 1]);
    path.chain([[0, last]; 2]).collect()
}

/// A closed path with a tab from its first piece to its middle, and from each piece to the one as far from the other end.
fn nested(tabs: usize) -> Vec<[usize; 2]> {
    let half = ((tabs - 2) / 3).min(LONG_PIECES / 2 - 1);
    let last = 2 * half;
    let mut list = closed(last);
    list.push([0, half]);
    list.extend((1..half).map(|v| [v, last - v]));
    list
}

/// A closed path, and from the middle of each stretch a tab to a piece beside the stretch: the first stretch is all but both ends, the others
/// are what a middle leaves on either side.
fn halved(tabs: usize) -> Vec<[usize; 2]> {
    let last = ((tabs - 1) / 2).min(LONG_PIECES - 1);
    let mut list = closed(last);
    let mut stretches = vec![(1, last - 1, 0)];
    while let Some((first, end, beside)) = stretches.pop() {
        let middle = (first + end) / 2;
        list.push([beside, middle]);
        let halves = [(first, middle - 1, middle), (middle + 1, end, middle)];
        stretches.extend(halves.into_iter().filter(|(first, end, _)| first <= end));
    }
    list
}

/// So many doubled paths, each with a tab from both ends and from its middle to the first piece.
fn outlet(tabs: usize, paths: usize) -> Vec<[usize; 2]> {
    let length = (tabs / (2 * paths)).min((LONG_PIECES - 1) / paths);
    let mut list = Vec::new();
    for path in 0..paths {
        let first = 1 + path * length;
        list.extend([0, length / 2, length - 1].map(|i| [0, first + i]));
        let doubled = (first + 1..first + length).map(|v| [v - 1, v]);
        list.extend(doubled.flat_map(|tab| [tab, tab]));
    }
    list
}

/// The same with its first piece as the last.
fn turned(drawn: Drawn) -> Drawn {
    let last = drawn.pieces - 1;
    let turn = |tab: [usize; 2]| tab.map(|v| last - v);
    Drawn::of(drawn.tabs.into_iter().map(turn).collect())
}

/// As many pieces as the tabs allow, each joined to each.
fn every_two(tabs: usize) -> Drawn {
    let pieces = (2..).take_while(|n| n * (n - 1) / 2 <= tabs).last();
    let before = |v| (0..v).map(move |u| [u, v]);
    Drawn::of((1..pieces.unwrap_or(2)).flat_map(before).collect())
}

/// Two rings, each piece of the one joined to its own in the other.
fn prism(tabs: usize) -> Vec<[usize; 2]> {
    let side = (tabs / 3).min(LONG_PIECES / 2);
    let place = |v: usize| {
        let next = (v + 1) % side;
        [[v, next], [side + v, side + next], [v, side + v]]
    };
    (0..side).flat_map(place).collect()
}

/// A grid of ten rows, closed in both directions.
fn torus(tabs: usize) -> Vec<[usize; 2]> {
    let last = 10 * (tabs / 20).min(LONG_PIECES / 10);
    let right = |v: usize| v / 10 * 10 + (v + 1) % 10;
    let place = |v: usize| [[v, right(v)], [v, (v + 10) % last]];
    (0..last).flat_map(place).collect()
}

/// A ring, each piece joined to the tenth behind it, too.
fn chords(tabs: usize) -> Vec<[usize; 2]> {
    let pieces = (tabs / 2).min(LONG_PIECES);
    let place = |v: usize| [1, 10].map(|far| [v, (v + far) % pieces]);
    (0..pieces).flat_map(place).collect()
}

/// Four pieces, each joined to each; then again and again a piece becomes a triangle, each of its tabs at another corner.
fn corners(random: &mut Random, tabs: usize) -> Vec<[usize; 2]> {
    let mut list = every_two(6).tabs;
    let pieces = (2 * tabs / 3).min(LONG_PIECES) / 2 * 2;
    for new in (4..pieces).step_by(2) {
        let piece = random.below(new);
        let mut triangle = [piece, new, new + 1].into_iter();
        let ends = list.iter_mut().flatten().filter(|end| **end == piece);
        ends.zip(&mut triangle).for_each(|(end, v)| *end = v);
        list.extend([[piece, new], [new, new + 1], [new + 1, piece]]);
    }
    list
}

/// A triangle; each further piece is joined to the corners of one, which it parts into three.
fn stacked(random: &mut Random, tabs: usize) -> Vec<[usize; 2]> {
    let mut list = every_two(3).tabs;
    let mut triangles = vec![[0, 1, 2]; 2];
    for v in 3..(tabs / 3).min(LONG_PIECES) {
        let [a, b, c] = triangles.swap_remove(random.below(triangles.len()));
        list.extend([a, b, c].map(|u| [u, v]));
        triangles.extend([[a, b, v], [a, v, c], [v, b, c]]);
    }
    list
}

/// A triangle; each further piece is joined to the three before it.
fn three_before(tabs: usize) -> Vec<[usize; 2]> {
    let before = |v| [v - 3, v - 2, v - 1].map(|u| [u, v]);
    let further = (3..(tabs / 3).min(LONG_PIECES)).flat_map(before);
    every_two(3).tabs.into_iter().chain(further).collect()
}
