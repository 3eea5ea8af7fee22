//! Plans to time and to try the writers and the checks on: named shapes, firm and weak, with a given number of tabs, numbered in several
//! orders.

use crate::firm_shapes::firm;
use crate::grow::{Family, grow};
use crate::plan::Plan;
use crate::random::Random;
use crate::weak_shapes::weak;

pub const MAX_PIECES: usize = 1000;

/// How the tabs of a shape are numbered: as they are drawn, from the last to the first, or at random.
#[derive(Clone, Copy)]
pub enum Order {
    Up,
    Down,
    Shuffled,
}

pub const ORDERS: [Order; 3] = [Order::Up, Order::Down, Order::Shuffled];

impl Order {
    pub fn name(self) -> &'static str {
        match self {
            Order::Up => "up",
            Order::Down => "down",
            Order::Shuffled => "shuffled",
        }
    }
}

/// A shape of so many tabs, or as many fewer as it takes.
pub type Make = fn(&mut Random, usize) -> Drawn;

/// A named shape.
pub struct Shape {
    pub name: &'static str,
    make: Make,
}

impl Shape {
    pub fn plan(&self, random: &mut Random, tabs: usize, order: Order) -> Plan {
        let drawn = (self.make)(random, tabs);
        drawn.numbered(random, order)
    }
}

/// Shapes by their names.
pub fn named(all: &[(&'static str, Make)]) -> Vec<Shape> {
    let shape = |&(name, make)| Shape { name, make };
    all.iter().map(shape).collect()
}

/// All shapes, the firm ones first.
pub fn shapes() -> Vec<Shape> {
    firm().into_iter().chain(weak()).collect()
}

/// The pieces of a shape, and its tabs as they stand along it.
pub struct Drawn {
    pub pieces: usize,
    pub tabs: Vec<[usize; 2]>,
}

impl Drawn {
    /// So many pieces without a tab.
    pub fn apart(pieces: usize) -> Drawn {
        let tabs = Vec::new();
        Drawn { pieces, tabs }
    }

    /// The pieces are those that the tabs have, from 0 on.
    pub fn of(tabs: Vec<[usize; 2]>) -> Drawn {
        let pieces = tabs.iter().flatten().max().map_or(2, |last| last + 1);
        Drawn { pieces, tabs }
    }

    /// A firm body grown by ears, its pieces and tabs mixed.
    pub fn grown(random: &mut Random, family: Family, pieces: usize, tabs: usize) -> Drawn {
        let case = grow(random, family, pieces, tabs);
        let tab = |pair: &[u16]| [pair[0] as usize, pair[1] as usize];
        Drawn {
            pieces: case.plan.vertices as usize,
            tabs: case.plan.ends.chunks_exact(2).map(tab).collect(),
        }
    }

    /// Puts the pieces and the tabs of another one behind those that are here; its first piece.
    pub fn put(&mut self, other: &Drawn) -> usize {
        let first = self.pieces;
        self.pieces += other.pieces;
        let tabs = other.tabs.iter();
        self.tabs.extend(tabs.map(|tab| tab.map(|v| first + v)));
        first
    }

    /// Joins two pieces by so many tabs.
    pub fn tie(&mut self, a: usize, b: usize, count: usize) {
        self.tabs.extend([[a, b]].repeat(count));
    }

    fn numbered(self, random: &mut Random, order: Order) -> Plan {
        let mut tabs = self.tabs;
        match order {
            Order::Up => (),
            Order::Down => tabs.reverse(),
            Order::Shuffled => {
                let places = random.order(tabs.len());
                tabs = places.iter().map(|&i| tabs[i as usize]).collect();
            }
        }
        let ends = tabs.iter().flatten().map(|&v| v as u16);
        Plan::whole(self.pieces as u16, ends.collect())
    }
}

/// A path with each neighbour joined by so many tabs, the last one by so many.
pub fn joined(pieces: usize, each: usize, last: usize) -> Drawn {
    let mut path = Drawn::apart(pieces);
    for v in 1..pieces {
        path.tie(v - 1, v, if v + 1 < pieces { each } else { last });
    }
    path
}

/// So many firm bodies, their tabs mixed.
pub fn bodies(random: &mut Random, count: usize, pieces: usize, tabs: usize) -> Drawn {
    let mut all = Drawn::apart(0);
    for _ in 0..count {
        all.put(&Drawn::grown(random, Family::Short, pieces, tabs));
    }
    let places = random.order(all.tabs.len());
    all.tabs = places.iter().map(|&i| all.tabs[i as usize]).collect();
    all
}

/// Blobs of five pieces and 20 tabs, less those that join each to the next; these come last.
pub fn ring(random: &mut Random, tabs: usize, joints: usize) -> Drawn {
    let blobs = tabs / 20;
    let mut ring = bodies(random, blobs, 5, 20 - joints);
    for i in 0..blobs * joints {
        let [a, b] = [i % blobs, (i + 1) % blobs].map(|blob| 5 * blob + random.below(5));
        ring.tie(a, b, 1);
    }
    ring
}

/// So many pieces, if a plan may have them.
pub fn long(pieces: usize) -> usize {
    pieces.min(MAX_PIECES)
}

/// Each piece but the first is joined to it by so many tabs, the last one by so many.
pub fn star(tabs: usize, each: usize, last: usize) -> Drawn {
    let mut star = Drawn::apart(long(tabs / each + 1));
    for v in 1..star.pieces {
        let count = if v + 1 < star.pieces { each } else { last };
        star.tie(0, v, count);
    }
    star
}

/// A path, and a piece hung on each of its pieces.
pub fn caterpillar(tabs: usize, each: usize) -> Drawn {
    let half = long(tabs / each) / 2;
    let mut all = joined(half, each, each);
    for v in 0..half {
        let last = all.put(&Drawn::apart(1));
        all.tie(v, last, each);
    }
    all
}

/// Each piece joined to some piece before it.
pub fn tree(random: &mut Random, tabs: usize, each: usize) -> Drawn {
    let mut tree = Drawn::apart(long(tabs / each + 1));
    for v in 1..tree.pieces {
        tree.tie(random.below(v), v, each);
    }
    tree
}

/// A cycle, and a tab from the first piece to each piece on it, to the last one so many.
pub fn wheel(tabs: usize, last: usize) -> Drawn {
    let rim = long(tabs / 2 + 1) - 1;
    let mut wheel = Drawn::apart(rim + 1);
    for v in 1..=rim {
        wheel.tie(v, v % rim + 1, 1);
        wheel.tie(0, v, if v < rim { 1 } else { last });
    }
    wheel
}

/// Each of so many pieces joined to each of the others, and one more piece, the last, hung on the first by so many tabs.
pub fn bipartite(tabs: usize, few: usize, joints: usize) -> Drawn {
    let few = few.min(tabs / 8);
    let others = ((tabs - joints) / few).min(MAX_PIECES - few - 1);
    let mut all = Drawn::apart(few + others);
    for v in few..few + others {
        (0..few).for_each(|u| all.tie(u, v, 1));
    }
    if joints > 0 {
        let last = all.put(&Drawn::apart(1));
        all.tie(0, last, joints);
    }
    all
}
