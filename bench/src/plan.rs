//! A plan as numbers, and a verdict about it.

/// The pieces, two ends for each tab, and the slugs.
#[derive(Clone, Debug)]
pub struct Plan {
    pub vertices: u16,
    pub ends: Vec<u16>,
    pub excluded: Vec<u16>,
}

impl Plan {
    /// A plan without slugs.
    pub fn whole(vertices: u16, ends: Vec<u16>) -> Plan {
        Plan {
            vertices,
            ends,
            excluded: Vec::new(),
        }
    }

    pub fn tabs(&self) -> usize {
        self.ends.len() / 2
    }

    /// Whether a tab ends at no slug.
    pub fn keeps(&self, tab: usize) -> bool {
        let ends = &self.ends[2 * tab..2 * tab + 2];
        ends.iter().all(|end| !self.excluded.contains(end))
    }

    /// How many numbers a record has: three for each tab that ends at no slug.
    pub fn record(&self) -> usize {
        3 * (0..self.tabs()).filter(|&tab| self.keeps(tab)).count()
    }
}

/// A plan and a verdict about it.
#[derive(Clone, Debug)]
pub struct Case {
    pub plan: Plan,
    pub kind: u16,
    pub list: Vec<u16>,
}
