//! Random 3-edge-connected graphs, grown together with their records by Mader's steps.

use crate::plan::{Case, Plan};
use crate::random::Random;

/// How a graph is grown.
#[derive(Clone, Copy)]
pub enum Family {
    /// Every ear has few inner vertices.
    Short,
    /// The first paths and ears are few and long; then come the ears that make their inner vertices branches.
    Long,
    /// One long path with one branch in its middle, then ears from the one half to the other, the outermost first: every ear
    /// ends inside two links of one step, and the nearest branch between its ends is as far away as can be.
    Far,
}

/// The steps so far. A vertex that is no branch lies inside one link.
pub struct Growth {
    degree: Vec<u16>,
    ends: Vec<u16>,
    /// The rows: step, edge, vertex.
    rows: Vec<[u16; 3]>,
    steps: u16,
    /// The inner vertices of each link, in their order, and for each vertex the link that it lies inside.
    links: Vec<Vec<u16>>,
    link: Vec<usize>,
}

impl Growth {
    /// Three paths between vertices 0 and 1, with these many inner vertices.
    pub fn new(inner: [usize; 3]) -> Growth {
        let mut growth = Growth {
            degree: vec![0; 2],
            ends: Vec::new(),
            rows: Vec::new(),
            steps: 0,
            links: Vec::new(),
            link: vec![0; 2],
        };
        for count in inner {
            growth.walk(0, count, 1);
        }
        growth
    }

    pub fn vertices(&self) -> usize {
        self.degree.len()
    }

    fn edges(&self) -> usize {
        self.rows.len()
    }

    pub fn branch(&self, vertex: u16) -> bool {
        self.degree[vertex as usize] >= 3
    }

    /// Whether the link rule allows an ear between the two.
    fn apart(&self, a: u16, b: u16) -> bool {
        self.branch(a) || self.branch(b) || self.link[a as usize] != self.link[b as usize]
    }

    /// Whether an ear with so many inner vertices may run between the two.
    fn allows(&self, a: u16, inner: usize, b: u16) -> bool {
        if a == b {
            self.branch(a) && inner > 0
        } else {
            self.apart(a, b)
        }
    }

    /// Adds a step from a to b over new vertices, which form a link.
    fn walk(&mut self, a: u16, inner: usize, b: u16) {
        let first = self.vertices() as u16;
        let mut path = vec![a];
        path.extend(first..first + inner as u16);
        path.push(b);
        for pair in path.windows(2) {
            self.rows.push([self.steps, self.edges() as u16, pair[0]]);
            self.ends.extend(pair);
        }
        let name = self.links.len();
        self.links.push(path[1..=inner].to_vec());
        self.link.resize(self.vertices() + inner, name);
        self.degree.resize(self.vertices() + inner, 2);
        self.degree[a as usize] += 1;
        self.degree[b as usize] += 1;
        self.steps += 1;
    }

    /// Makes a branch of a vertex that lies inside a link: the link falls into two.
    fn split(&mut self, vertex: u16) {
        if self.branch(vertex) {
            return;
        }
        let link = &mut self.links[self.link[vertex as usize]];
        let at = link.iter().position(|&v| v == vertex);
        let tail = link.split_off(at.expect("inside its link") + 1);
        link.pop();
        for &v in &tail {
            self.link[v as usize] = self.links.len();
        }
        self.links.push(tail);
    }

    /// Adds an ear.
    pub fn ear(&mut self, a: u16, inner: usize, b: u16) {
        self.split(a);
        self.split(b);
        self.walk(a, inner, b);
    }

    /// A random vertex.
    pub fn any(&self, random: &mut Random) -> u16 {
        random.below(self.vertices()) as u16
    }

    /// An ear with so many inner vertices between random ends; from a given vertex, if there is one.
    pub fn random_ear(&mut self, random: &mut Random, from: Option<u16>, inner: usize) {
        loop {
            let a = from.unwrap_or_else(|| self.any(random));
            let b = self.any(random);
            if self.allows(a, inner, b) {
                return self.ear(a, inner, b);
            }
        }
    }

    /// An ear at each vertex that is no branch yet.
    pub fn close(&mut self, random: &mut Random) {
        for vertex in random.order(self.vertices()) {
            if !self.branch(vertex) {
                self.random_ear(random, Some(vertex), 0);
            }
        }
    }

    /// The record and its graph, vertices, edges and steps turned and renumbered at random.
    pub fn shuffle(&self, random: &mut Random) -> Case {
        let vertex = random.order(self.vertices());
        let edge = random.order(self.edges());
        let mut ends = vec![0; self.ends.len()];
        for (e, pair) in self.ends.chunks_exact(2).enumerate() {
            let at = 2 * edge[e] as usize;
            let turn = random.below(2);
            ends[at + turn] = vertex[pair[0] as usize];
            ends[at + 1 - turn] = vertex[pair[1] as usize];
        }
        let mut list = Vec::new();
        for walk in self.rows.chunk_by(|a, b| a[0] == b[0]) {
            for [step, e, from] in self.turned(random, walk) {
                list.extend([step, edge[e as usize], vertex[from as usize]]);
            }
        }
        Case {
            plan: Plan::whole(self.vertices() as u16, ends),
            kind: 0,
            list,
        }
    }

    /// The rows of a step, or those of the same step walked backwards.
    fn turned(&self, random: &mut Random, walk: &[[u16; 3]]) -> Vec<[u16; 3]> {
        let mut rows = walk.to_vec();
        if random.once_in(2) {
            rows.reverse();
            for row in &mut rows {
                let at = 2 * row[1] as usize;
                row[2] = self.ends[at] + self.ends[at + 1] - row[2];
            }
        }
        rows
    }
}

/// A graph with so many vertices and edges; four edges for each vertex are enough.
pub fn grow(random: &mut Random, family: Family, vertices: usize, edges: usize) -> Case {
    let mut growth = match family {
        Family::Short => short(random, vertices),
        Family::Long => long(random, vertices),
        Family::Far => far(vertices),
    };
    growth.close(random);
    while growth.edges() < edges {
        growth.random_ear(random, None, 0);
    }
    growth.shuffle(random)
}

fn short(random: &mut Random, vertices: usize) -> Growth {
    let mut growth = Growth::new([0, 1, 1]);
    while growth.vertices() < vertices {
        let room = vertices - growth.vertices();
        let inner = 1 + random.below(2).min(room - 1);
        growth.random_ear(random, None, inner);
    }
    growth
}

/// Three paths and three ears, each with a sixth of the inner vertices.
fn long(random: &mut Random, vertices: usize) -> Growth {
    let sixth = (vertices - 2) / 6;
    let mut growth = Growth::new([sixth; 3]);
    for left in (0..3).rev() {
        let inner = vertices - growth.vertices() - left * sixth;
        growth.random_ear(random, None, inner);
    }
    growth
}

fn far(vertices: usize) -> Growth {
    let mut growth = Growth::new([vertices - 2, 0, 0]);
    let (first, last) = (2, vertices as u16 - 1);
    let half = (last - first) / 2;
    growth.ear(0, 0, first + half);
    for i in 0..half {
        growth.ear(first + i, 0, last - i);
    }
    growth
}
