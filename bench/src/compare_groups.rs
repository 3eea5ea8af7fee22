//! The groups that both finders give on random plans, compared with trying every set of tabs, as lists and as texts.

use crate::compare::ANSWERS;
use crate::compare_writer::{drawing, require, writes};
use crate::fallen::Fallen;
use crate::groups::Find;
use crate::plan::Plan;
use crate::plans::{random_larger, random_plan, space};
use crate::random::Random;
use crate::second::Answer;
use crate::{archive, brute, groups, texts};

const FINDERS: [(&str, Find); 2] = [
    ("the proved one", archive::groups),
    ("the second one", groups::groups),
];
/// One plan of so many is a larger one, of up to so many pieces.
const LARGER: usize = 16;
const PIECES: usize = 60;
/// Every set of tabs is tried on a plan of so many pieces and so many tabs at most: on others that would take long.
const TRIED: usize = 24;
/// After so many plans it is said how far this has come.
const SAY: u64 = 100_000;

/// How often each answer was given to plans as numbers and as texts; of the plans as numbers, how many were tried with every set of tabs, and how
/// many are one group, have several, and have each piece alone.
#[derive(Default)]
struct Seen {
    lists: [u64; ANSWERS],
    texts: [u64; ANSWERS],
    tried: u64,
    groups: [u64; 3],
}

/// Compares so many plans, as numbers and as texts; the first difference is an error.
pub fn run(count: u64, seed: u64) -> Result<(), String> {
    let mut random = Random::new(seed);
    let mut seen = Seen::default();
    for done in 1..=count {
        let plan = match random.once_in(LARGER) {
            true => random_larger(&mut random, PIECES),
            false => random_plan(&mut random),
        };
        let lent = space(&mut random, plan.vertices as usize);
        seen.compare(&plan, &lent)?;
        let text = texts::random_plan(&mut random, &plan, 8);
        seen.compare_text(&mut random, &text)?;
        if done % SAY == 0 {
            eprintln!("{done} of {count} plans");
        }
    }
    seen.print();
    println!("all equal: {count} plans as lists, {count} as texts, seed {seed}");
    Ok(())
}

impl Seen {
    /// Both finders give the expected answer and leave the expected numbers.
    fn compare(&mut self, plan: &Plan, lent: &[u16]) -> Result<(), String> {
        let (expected, wanted) = self.expected(plan, lent);
        self.lists[expected.number as usize] += 1;
        for (name, find) in FINDERS {
            let mut table = lent.to_vec();
            let told = find(plan, &mut table);
            require(told == expected && table == wanted, || {
                format!(
                    "{name}: {told:?} and {table:?}, expected {expected:?} and {wanted:?}, for {plan:?} and the lent numbers {lent:?}"
                )
            })?;
        }
        if expected.number == 0 {
            self.served(plan, &wanted[..plan.vertices as usize])?;
        }
        Ok(())
    }

    /// The answer, and the lent numbers afterwards: by trying every set of tabs, or from the second finder where that would take long.
    fn expected(&mut self, plan: &Plan, lent: &[u16]) -> (Answer, Vec<u16>) {
        let mut wanted = lent.to_vec();
        if TRIED < plan.tabs() || TRIED < plan.vertices as usize {
            let answer = groups::groups(plan, &mut wanted);
            return (answer, wanted);
        }
        self.tried += 1;
        let [number, place] = match brute::groups(drawing(plan), lent.len()) {
            Ok(lowest) => {
                wanted[..lowest.len()].copy_from_slice(&lowest);
                [0, 0]
            }
            Err(refused) => refused,
        };
        (Answer { number, place }, wanted)
    }

    /// The proved writer calls a plan firm exactly if there is one group of pieces that are kept.
    fn served(&mut self, plan: &Plan, table: &[u16]) -> Result<(), String> {
        let own = (0..plan.vertices)
            .zip(table)
            .filter(|(v, lowest)| v == *lowest);
        let count = own.count() - plan.excluded.len();
        let kind = match count {
            1 => 0,
            _ if count < table.len() - plan.excluded.len() => 1,
            _ => 2,
        };
        self.groups[kind] += 1;
        let mut rows = vec![0; plan.record()];
        let verdict = archive::verdict(plan, &mut rows, &mut Fallen::default());
        require((verdict[0] == 0) == (count == 1), || {
            format!("{count} groups and the verdict {verdict:?}, for {plan:?}")
        })
    }

    /// The proved one gives the expected text.
    fn compare_text(&mut self, random: &mut Random, plan: &[u8]) -> Result<(), String> {
        let (number, expected) = expected_text(plan);
        self.texts[number as usize] += 1;
        writes(random, plan, &expected, archive::groups_text)
            .map_err(|why| format!("{why}, for the plan text {}", plan.escape_ascii()))
    }

    fn print(&self) {
        println!("{:>15} {:>9} {:>9}", "answer", "lists", "texts");
        for number in (0..=7).chain(18..=19) {
            let (lists, texts) = (self.lists[number], self.texts[number]);
            println!("{number:>15} {lists:>9} {texts:>9}");
        }
        let [one, several, alone] = self.groups;
        println!(
            "of the lists answered by 0: {one} one group, {several} several, {alone} each piece alone"
        );
        println!("tried with every set of tabs: {} lists", self.tried);
    }
}

/// The number that a plan text is answered by, and the text that belongs to it: of the refusal, or of the groups that the second finder gives.
fn expected_text(plan: &[u8]) -> (u16, Vec<u8>) {
    let plan = match texts::read_plan(plan) {
        Ok(plan) => plan,
        Err(refused) => {
            let text = format!("{:>5}\n", refused.number);
            return (refused.number, text.into_bytes());
        }
    };
    let mut table = vec![0; plan.vertices as usize];
    groups::groups(&plan, &mut table);
    let mut text = String::new();
    for (v, group) in (0..plan.vertices).zip(table) {
        if !plan.excluded.contains(&v) {
            text += &format!("{v:>5}{group:>5}\n");
        }
    }
    (0, text.into_bytes())
}
