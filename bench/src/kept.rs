//! The kept pieces and the tabs between them as a plan of their own, for second programs that know no slugs.

use crate::plan::Plan;

/// The pieces and the tabs that are left count from 0 here, in the order that they had.
pub struct Kept {
    pub ends: Vec<u16>,
    /// The drawn number of each piece, and of each tab.
    pub pieces: Vec<u16>,
    pub tabs: Vec<u16>,
}

impl Kept {
    /// Of a plan that is admitted.
    pub fn new(plan: &Plan) -> Kept {
        let mut left = vec![true; plan.vertices as usize];
        plan.excluded.iter().for_each(|&v| left[v as usize] = false);
        let pieces: Vec<u16> = (0..plan.vertices).filter(|&v| left[v as usize]).collect();
        let mut number = vec![0; left.len()];
        for (new, &old) in pieces.iter().enumerate() {
            number[old as usize] = new as u16;
        }
        let (mut ends, mut tabs) = (Vec::new(), Vec::new());
        for (tab, pair) in plan.ends.chunks_exact(2).enumerate() {
            if pair.iter().all(|&v| left[v as usize]) {
                ends.extend(pair.iter().map(|&v| number[v as usize]));
                tabs.push(tab as u16);
            }
        }
        Kept { ends, pieces, tabs }
    }
}
