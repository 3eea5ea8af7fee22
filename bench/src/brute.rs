//! The verdict about a plan and its groups by trying every set of two tabs or fewer, and the pieces that would fall by going over the tabs until
//! no more is reached: slow, and with no code in common with anything else.

/// A plan as it is lent.
#[derive(Clone, Copy)]
pub struct Drawing<'a> {
    pub pieces: u16,
    pub ends: &'a [u16],
    pub slugs: &'a [u16],
}

/// Kind, a, b and c as the writers tell them, where so many numbers are lent for the record. None if sets of more tabs than `most` would have to
/// be tried.
pub fn verdict(drawing: Drawing, room: usize, most: usize) -> Option<[u16; 4]> {
    if let Some([number, place]) = refusal(drawing) {
        return Some([2, number, place, 0]);
    }
    let sheet = Sheet::new(drawing);
    let tabs = sheet.tabs.len();
    if room < tabs * 3 {
        return Some([2, 6, 0, 0]);
    }
    if sheet.parted(tabs, tabs) {
        return Some([1, 0, 0, 0]);
    }
    (tabs <= most).then(|| sheet.lowest())
}

/// The kept pieces, ascending, that the lowest one does not reach over the kept tabs that are not named.
pub fn fallen(drawing: Drawing, named: &[u16]) -> Vec<u16> {
    let sheet = Sheet::new(drawing);
    let mut reached = vec![false; sheet.stays.len()];
    let lowest = sheet.stays.iter().position(|&stays| stays);
    reached[lowest.expect("some piece is kept")] = true;
    let mut more = true;
    while more {
        more = false;
        for (tab, [a, b]) in &sheet.tabs {
            if reached[*a] != reached[*b] && !named.contains(tab) {
                (reached[*a], reached[*b], more) = (true, true, true);
            }
        }
    }
    let fallen = (0..reached.len()).filter(|&v| sheet.stays[v] && !reached[v]);
    fallen.map(|v| v as u16).collect()
}

/// The lowest piece of each piece's group, or the number and the place that the plan is refused by, where so many numbers are lent.
pub fn groups(drawing: Drawing, room: usize) -> Result<Vec<u16>, [u16; 2]> {
    if let Some(refused) = refusal(drawing) {
        return Err(refused);
    }
    if room < drawing.pieces as usize {
        return Err([6, 0]);
    }
    Ok(Sheet::new(drawing).lowest_together())
}

/// The number and the place that a plan is refused by.
fn refusal(drawing: Drawing) -> Option<[u16; 2]> {
    let Drawing { pieces, ends, .. } = drawing;
    if ends.len() % 2 == 1 {
        return Some([1, 0]);
    }
    if pieces < 2 || pieces > 1000 {
        return Some([2, 0]);
    }
    if ends.len() > 8000 {
        return Some([3, 0]);
    }
    for at in (0..ends.len()).step_by(2) {
        let tab = at as u16 / 2;
        if ends[at] >= pieces || ends[at + 1] >= pieces {
            return Some([4, tab]);
        }
        if ends[at] == ends[at + 1] {
            return Some([5, tab]);
        }
    }
    slug_refusal(pieces, drawing.slugs)
}

fn slug_refusal(pieces: u16, slugs: &[u16]) -> Option<[u16; 2]> {
    let mut least = 0;
    for at in 0..slugs.len() {
        if slugs[at] < least || slugs[at] >= pieces {
            return Some([18, at as u16]);
        }
        least = slugs[at] + 1;
    }
    if pieces as usize - slugs.len() < 2 {
        return Some([19, 0]);
    }
    None
}

/// What is left when the slugs have fallen: the pieces that have not, and the tabs between them with their ends.
struct Sheet {
    stays: Vec<bool>,
    pieces: usize,
    tabs: Vec<(u16, [usize; 2])>,
}

impl Sheet {
    fn new(drawing: Drawing) -> Sheet {
        let mut stays = vec![true; drawing.pieces as usize];
        for &slug in drawing.slugs {
            stays[slug as usize] = false;
        }
        let mut tabs = Vec::new();
        for tab in 0..drawing.ends.len() / 2 {
            let [a, b] = [2 * tab, 2 * tab + 1].map(|at| drawing.ends[at] as usize);
            if stays[a] && stays[b] {
                tabs.push((tab as u16, [a, b]));
            }
        }
        let pieces = stays.len() - drawing.slugs.len();
        Sheet {
            stays,
            pieces,
            tabs,
        }
    }

    /// For each piece the lowest one that no set of tabs parts it from; a slug has itself. The number of the tabs stands for none.
    fn lowest_together(&self) -> Vec<u16> {
        let (all, tabs) = (self.stays.len(), self.tabs.len());
        let mut parted = vec![vec![false; all]; all];
        for a in 0..=tabs {
            for b in a..=tabs {
                let (above, _) = self.bodies(a, b);
                let body: Vec<usize> = (0..all).map(|v| top(&above, v)).collect();
                for v in 0..all {
                    for u in 0..v {
                        parted[v][u] |= body[u] != body[v];
                    }
                }
            }
        }
        let lowest = |v: usize| (0..v).find(|&u| !parted[v][u]).unwrap_or(v);
        (0..all).map(|v| lowest(v) as u16).collect()
    }

    /// The lowest set of one tab or two that parts a sheet that is one body.
    fn lowest(&self) -> [u16; 4] {
        let tabs = self.tabs.len();
        for a in 0..tabs {
            if self.parted(a, a) {
                return [1, 1, self.tabs[a].0, 0];
            }
        }
        for a in 0..tabs {
            for b in a + 1..tabs {
                if self.parted(a, b) {
                    return [1, 2, self.tabs[a].0, self.tabs[b].0];
                }
            }
        }
        [0, 0, 0, 0]
    }

    /// Whether the sheet without two tabs is not one body.
    fn parted(&self, a: usize, b: usize) -> bool {
        let (_, count) = self.bodies(a, b);
        count > 1
    }

    /// The bodies of the sheet without two tabs, as ways up, and how many there are: joins those that the other tabs join. A slug is joined
    /// to nothing and is none of them.
    fn bodies(&self, a: usize, b: usize) -> (Vec<usize>, usize) {
        let mut above: Vec<usize> = (0..self.stays.len()).collect();
        let mut bodies = self.pieces;
        for (i, (_, [u, v])) in self.tabs.iter().enumerate() {
            if i != a && i != b {
                let (x, y) = (top(&above, *u), top(&above, *v));
                if x != y {
                    above[x] = y;
                    bodies -= 1;
                }
            }
        }
        (above, bodies)
    }
}

fn top(above: &[usize], piece: usize) -> usize {
    let mut at = piece;
    while above[at] != at {
        at = above[at];
    }
    at
}
