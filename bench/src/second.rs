//! A second check of a verdict: simple, unproved, and written from document 01 and note 2 of document 02 alone.

use crate::plan::Plan;

const MAX_VERTICES: u16 = 1000;
const MAX_EDGES: usize = 4000;

/// A number and a place; 0 and 0 is success.
#[derive(Clone, Copy, Debug, PartialEq, Eq)]
pub struct Answer {
    pub number: u16,
    pub place: u16,
}

/// A check: from the plan, the kind and the list of a verdict to the answer.
pub type Check = fn(&Plan, u16, &[u16]) -> Answer;

type Outcome = Result<(), Answer>;

fn refuse(number: u16, place: usize) -> Outcome {
    let place = place as u16;
    Err(Answer { number, place })
}

fn require(holds: bool, number: u16, place: usize) -> Outcome {
    if holds { Ok(()) } else { refuse(number, place) }
}

/// The answer to a verdict, a kind and a list, about a plan.
pub fn check(plan: &Plan, kind: u16, list: &[u16]) -> Answer {
    let passed = Answer {
        number: 0,
        place: 0,
    };
    judge(plan, kind, list).err().unwrap_or(passed)
}

fn judge(plan: &Plan, kind: u16, list: &[u16]) -> Outcome {
    admit(plan)?;
    let graph = Graph::new(plan);
    match kind {
        0 => firm(&graph, list),
        1 => weak(&graph, list),
        _ => refuse(9, 0),
    }
}

/// The plan's own refusals: 1 to 5, then 18 and 19.
pub fn admit(plan: &Plan) -> Outcome {
    let (vertices, ends) = (plan.vertices, &plan.ends);
    require(ends.len().is_multiple_of(2), 1, 0)?;
    admit_counts(vertices, ends.len() / 2)?;
    for (edge, pair) in ends.chunks_exact(2).enumerate() {
        admit_tab(vertices, [pair[0], pair[1]], edge)?;
    }
    let mut before = None;
    for (position, &slug) in plan.excluded.iter().enumerate() {
        admit_slug(vertices, before, slug, position)?;
        before = Some(slug);
    }
    admit_kept(vertices, plan.excluded.len())
}

/// 2 and 3.
pub fn admit_counts(vertices: u16, edges: usize) -> Outcome {
    require((2..=MAX_VERTICES).contains(&vertices), 2, 0)?;
    require(edges <= MAX_EDGES, 3, 0)
}

/// 4, then 5.
pub fn admit_tab(vertices: u16, ends: [u16; 2], tab: usize) -> Outcome {
    require(ends[0] < vertices && ends[1] < vertices, 4, tab)?;
    require(ends[0] != ends[1], 5, tab)
}

/// 18: a slug is a vertex, and above the one before.
pub fn admit_slug(vertices: u16, before: Option<u16>, slug: u16, position: usize) -> Outcome {
    require(slug < vertices && before < Some(slug), 18, position)
}

/// 19: two vertices or more are kept.
pub fn admit_kept(vertices: u16, slugs: usize) -> Outcome {
    require(slugs + 2 <= vertices as usize, 19, 0)
}

/// The vertices that are kept and the edges between them, of a plan that is admitted.
struct Graph<'a> {
    ends: &'a [u16],
    /// Whether each vertex is kept, and each edge.
    vertices: Vec<bool>,
    edges: Vec<bool>,
}

impl<'a> Graph<'a> {
    fn new(plan: &'a Plan) -> Graph<'a> {
        let mut vertices = vec![true; plan.vertices as usize];
        for &slug in &plan.excluded {
            vertices[slug as usize] = false;
        }
        let both = |pair: &[u16]| vertices[pair[0] as usize] && vertices[pair[1] as usize];
        let edges = plan.ends.chunks_exact(2).map(both).collect();
        Graph {
            ends: &plan.ends,
            vertices,
            edges,
        }
    }

    fn has(&self, edge: u16) -> bool {
        self.edges.get(edge as usize) == Some(&true)
    }
}

fn count(marks: &[bool]) -> usize {
    marks.iter().filter(|&&mark| mark).count()
}

/// A weak list: at most two edges, ascending, without which the graph is not connected.
fn weak(graph: &Graph, list: &[u16]) -> Outcome {
    require(list.len() <= 2, 9, 0)?;
    for (position, &edge) in list.iter().enumerate() {
        let above = position == 0 || list[position - 1] < edge;
        require(graph.has(edge) && above, 11, position)?;
    }
    require(components(graph, list) > 1, 17, 0)
}

/// How many components there are without some edges: each edge that joins two makes one fewer.
fn components(graph: &Graph, lost: &[u16]) -> usize {
    let mut parent: Vec<u16> = (0..graph.vertices.len() as u16).collect();
    let mut count = count(&graph.vertices);
    for (edge, pair) in graph.ends.chunks_exact(2).enumerate() {
        if graph.edges[edge] && !lost.contains(&(edge as u16)) {
            let a = root(&mut parent, pair[0]);
            let b = root(&mut parent, pair[1]);
            if a != b {
                parent[a as usize] = b;
                count -= 1;
            }
        }
    }
    count
}

fn root(parent: &mut [u16], vertex: u16) -> u16 {
    let mut v = vertex;
    while parent[v as usize] != v {
        parent[v as usize] = parent[parent[v as usize] as usize];
        v = parent[v as usize];
    }
    v
}

/// A row of a firm verdict.
struct Row {
    step: u16,
    edge: u16,
    from: u16,
}

fn row(numbers: &[u16]) -> Row {
    Row {
        step: numbers[0],
        edge: numbers[1],
        from: numbers[2],
    }
}

/// A firm list: the rows in turn, each step when its last row is there, and the closing rule.
fn firm(graph: &Graph, list: &[u16]) -> Outcome {
    require(list.len() == 3 * count(&graph.edges), 9, 0)?;
    let rows: Vec<Row> = list.chunks_exact(3).map(row).collect();
    let mut build = Build::new(graph);
    for (place, row) in rows.iter().enumerate() {
        build.take(row, place)?;
        let next = rows.get(place + 1);
        if next.is_none_or(|next| next.step != row.step) {
            build.finish(place)?;
        }
    }
    build.close()
}

/// What is built by the whole steps, and the walk of the step after them.
struct Build<'a> {
    graph: &'a Graph<'a>,
    /// How many steps are whole.
    steps: u16,
    /// The step number of the last row.
    last: Option<u16>,
    /// The edges of all rows so far.
    used: Vec<bool>,
    /// How many built edges each vertex has.
    degree: Vec<u16>,
    /// The first two built edges of each vertex: all of them, unless it is a branch.
    first: Vec<[u16; 2]>,
    /// The ends of step 0.
    poles: [u16; 2],
    /// For each vertex, one more than the last step that it was found new in.
    new: Vec<u16>,
    /// The edges and the vertices of the walk; there is one vertex more than edges.
    walk: Vec<u16>,
    path: Vec<u16>,
}

impl<'a> Build<'a> {
    fn new(graph: &'a Graph<'a>) -> Build<'a> {
        let vertices = graph.vertices.len();
        Build {
            graph,
            steps: 0,
            last: None,
            used: vec![false; graph.edges.len()],
            degree: vec![0; vertices],
            first: vec![[0; 2]; vertices],
            poles: [0; 2],
            new: vec![0; vertices],
            walk: Vec::new(),
            path: Vec::new(),
        }
    }

    fn ends(&self, edge: u16) -> [u16; 2] {
        let at = 2 * edge as usize;
        [self.graph.ends[at], self.graph.ends[at + 1]]
    }

    /// The other end of an edge.
    fn far(&self, edge: u16, from: u16) -> u16 {
        let [a, b] = self.ends(edge);
        if a == from { b } else { a }
    }

    fn built(&self, vertex: u16) -> bool {
        self.degree[vertex as usize] > 0
    }

    fn branch(&self, vertex: u16) -> bool {
        self.degree[vertex as usize] >= 3
    }

    /// 0 at first, then the last one or one more.
    fn counts(&self, step: u16) -> bool {
        match self.last {
            None => step == 0,
            Some(last) => step == last || Some(step) == last.checked_add(1),
        }
    }

    /// 10, 11 and 12: takes up one row.
    fn take(&mut self, row: &Row, place: usize) -> Outcome {
        require(self.counts(row.step), 10, place)?;
        let edge = row.edge as usize;
        require(self.graph.has(row.edge) && !self.used[edge], 11, place)?;
        let comes = self.path.last().is_none_or(|&at| at == row.from);
        require(self.ends(row.edge).contains(&row.from) && comes, 12, place)?;
        self.last = Some(row.step);
        self.used[edge] = true;
        if self.path.is_empty() {
            self.path.push(row.from);
        }
        self.walk.push(row.edge);
        self.path.push(self.far(row.edge, row.from));
        Ok(())
    }

    /// 13, or 14 and 15: the step is whole.
    fn finish(&mut self, place: usize) -> Outcome {
        let (start, stop) = (self.path[0], self.path[self.path.len() - 1]);
        if self.steps < 3 {
            require(self.is_path(start, stop), 13, place)?;
        } else {
            require(self.is_ear(start, stop), 14, place)?;
            let bare = !self.branch(start) && !self.branch(stop);
            require(!(bare && self.one_link(start, stop)), 15, place)?;
        }
        self.add(start, stop);
        Ok(())
    }

    fn inner(&self) -> &[u16] {
        &self.path[1..self.path.len() - 1]
    }

    /// The inner vertices are new and all different.
    fn inner_is_new(&mut self) -> bool {
        for i in 1..self.path.len() - 1 {
            let vertex = self.path[i];
            if self.built(vertex) || self.new[vertex as usize] == self.steps + 1 {
                return false;
            }
            self.new[vertex as usize] = self.steps + 1;
        }
        true
    }

    /// A path between the two ends of step 0, with nothing else in common with the paths before it.
    fn is_path(&mut self, start: u16, stop: u16) -> bool {
        let [a, b] = self.poles;
        let same = self.steps == 0 || [start, stop] == [a, b] || [start, stop] == [b, a];
        let apart = !self.inner().contains(&start) && !self.inner().contains(&stop);
        start != stop && same && apart && self.inner_is_new()
    }

    /// An ear: from a built vertex over new ones to a built vertex, back to the same one only if that is a branch.
    fn is_ear(&mut self, start: u16, stop: u16) -> bool {
        let ends = self.built(start) && self.built(stop);
        ends && self.inner_is_new() && (start != stop || self.branch(start))
    }

    /// Whether both lie inside one link: walking from one, either way, the other comes before a branch.
    fn one_link(&self, start: u16, stop: u16) -> bool {
        let ways = self.first[start as usize];
        ways.iter().any(|&edge| self.meets(start, edge, stop))
    }

    fn meets(&self, start: u16, edge: u16, goal: u16) -> bool {
        let mut edge = edge;
        let mut at = self.far(edge, start);
        while at != goal && !self.branch(at) {
            let [a, b] = self.first[at as usize];
            edge = if a == edge { b } else { a };
            at = self.far(edge, at);
        }
        at == goal
    }

    /// Builds the step.
    fn add(&mut self, start: u16, stop: u16) {
        if self.steps == 0 {
            self.poles = [start, stop];
        }
        for &edge in &self.walk {
            for vertex in self.ends(edge) {
                let vertex = vertex as usize;
                let degree = self.degree[vertex] as usize;
                if degree < 2 {
                    self.first[vertex][degree] = edge;
                }
                self.degree[vertex] += 1;
            }
        }
        self.walk.clear();
        self.path.clear();
        self.steps += 1;
    }

    /// 16: three steps or more, and three edges or more at each vertex that is kept.
    fn close(&self) -> Outcome {
        let mut all = self.degree.iter().zip(&self.graph.vertices);
        let closed = all.all(|(&degree, &kept)| degree >= 3 || !kept);
        require(self.steps >= 3 && closed, 16, 0)
    }
}
