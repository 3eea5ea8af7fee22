//! The verdicts of both writers on random plans, compared with trying every set of tabs, and judged by both checks; and the pieces that would fall,
//! compared with what the tabs that are left reach.

use crate::brute::Drawing;
use crate::compare::{ANSWERS, same, same_texts};
use crate::damage::number;
use crate::fallen::Fallen;
use crate::plan::{Case, Plan};
use crate::plans::{Trial, random_trial};
use crate::random::Random;
use crate::writer::{Verdict, Write};
use crate::{archive, brute, texts, writer};

/// How often each verdict was given, by its kind and the number behind it.
type Counts = [[u64; ANSWERS]; 3];

/// Every set of tabs is tried on a plan of so many kept tabs at most: on others that would take long.
const TRIED: usize = 100;
/// Pieces whose marks stand last or first in a word, and the last piece.
const BORDERS: [u16; 5] = [63, 64, 127, 128, 999];
/// After so many plans it is said how far this has come.
const SAY: u64 = 100_000;

/// The verdicts on plans as numbers and as texts, the answers to verdicts with one number changed, and of the weak plans as numbers, how often each
/// of the pieces at the borders was kept and held, and how often it would fall.
#[derive(Default)]
struct Seen {
    lists: Counts,
    texts: Counts,
    changed: [u64; ANSWERS],
    borders: [[u64; 2]; BORDERS.len()],
}

const WRITERS: [(&str, Write); 2] = [
    ("the proved writer", archive::verdict),
    ("the second writer", writer::verdict),
];

/// Compares so many plans, as numbers and as texts; the first difference is an error.
pub fn run(count: u64, seed: u64) -> Result<(), String> {
    let mut random = Random::new(seed);
    let mut seen = Seen::default();
    for done in 1..=count {
        let trial = random_trial(&mut random);
        seen.compare(&mut random, &trial)?;
        let plan = texts::random_plan(&mut random, &trial.plan, 8);
        seen.compare_text(&mut random, &plan)?;
        if done % SAY == 0 {
            eprintln!("{done} of {count} plans");
        }
    }
    seen.print();
    println!("all equal: {count} plans as lists, {count} as texts, seed {seed}");
    Ok(())
}

fn tally(counts: &mut Counts, [kind, count, ..]: Verdict) {
    counts[kind as usize][count as usize] += 1;
}

impl Seen {
    fn compare(&mut self, random: &mut Random, trial: &Trial) -> Result<(), String> {
        let verdict = expected_verdict(&trial.plan, trial.rows.len());
        let expected = Expected::new(trial, verdict);
        tally(&mut self.lists, verdict);
        if verdict[0] == 1 {
            self.count_borders(&trial.plan, &expected.fallen);
        }
        for (name, write) in WRITERS {
            let case = obeys(trial, write, &expected);
            let case = case.map_err(|why| format!("{name}: {why}, for {trial:?}"))?;
            if let Some(mut case) = case {
                number(random, &mut case);
                self.changed[same(&case)?.number as usize] += 1;
            }
        }
        Ok(())
    }

    fn count_borders(&mut self, plan: &Plan, fallen: &Fallen) {
        for (piece, counts) in BORDERS.into_iter().zip(&mut self.borders) {
            if piece < plan.vertices && !plan.excluded.contains(&piece) {
                counts[fallen.has(piece) as usize] += 1;
            }
        }
    }

    fn compare_text(&mut self, random: &mut Random, plan: &[u8]) -> Result<(), String> {
        let told = text(random, plan);
        let why = |why| format!("{why}, for the plan text {}", plan.escape_ascii());
        tally(&mut self.texts, told.map_err(why)?);
        Ok(())
    }

    fn print(&self) {
        let (lists, texts) = (&self.lists, &self.texts);
        println!("{:>15} {:>9} {:>9}", "verdict", "lists", "texts");
        println!("{:>15} {:>9} {:>9}", "firm", lists[0][0], texts[0][0]);
        let weak = (0..=2).map(|n| (1, "weak", n));
        let refused = (1..=7).chain(18..=19).map(|n| (2, "refused", n));
        for (kind, name, n) in weak.chain(refused) {
            let name = format!("{name} {n}");
            println!("{name:>15} {:>9} {:>9}", lists[kind][n], texts[kind][n]);
        }
        println!("answers to the verdicts of both with one number changed:");
        for (number, count) in self
            .changed
            .iter()
            .enumerate()
            .filter(|(_, count)| **count > 0)
        {
            println!("{number:>15} {count:>9}");
        }
        println!("pieces of the weak lists:");
        println!("{:>15} {:>9} {:>9}", "piece", "held", "fallen");
        for (piece, [held, fallen]) in BORDERS.into_iter().zip(self.borders) {
            println!("{piece:>15} {held:>9} {fallen:>9}");
        }
    }
}

/// A plan as brute force takes it.
pub fn drawing(plan: &Plan) -> Drawing<'_> {
    Drawing {
        pieces: plan.vertices,
        ends: &plan.ends,
        slugs: &plan.excluded,
    }
}

pub fn require(holds: bool, why: impl FnOnce() -> String) -> Result<(), String> {
    if holds { Ok(()) } else { Err(why()) }
}

/// What a writer has to tell: the verdict, and the lent words and the count afterwards.
#[derive(Debug)]
pub struct Expected {
    verdict: Verdict,
    fallen: Fallen,
}

impl Expected {
    /// Of a verdict that is not weak the words stay, and the count is 0.
    pub fn new(trial: &Trial, verdict: Verdict) -> Expected {
        let fallen = match verdict[0] {
            1 => Fallen::of(&fallen_pieces(&trial.plan, verdict)),
            _ => Fallen {
                count: 0,
                ..trial.fallen.clone()
            },
        };
        Expected { verdict, fallen }
    }
}

/// The pieces that would fall with the tabs of a weak verdict.
fn fallen_pieces(plan: &Plan, [_, count, named @ ..]: Verdict) -> Vec<u16> {
    brute::fallen(drawing(plan), &named[..count as usize])
}

/// The verdict by trying every set of tabs, or from the second writer where that would take long.
fn expected_verdict(plan: &Plan, room: usize) -> Verdict {
    let second = || writer::verdict(plan, &mut vec![0; room], &mut Fallen::default());
    brute::verdict(drawing(plan), room, TRIED).unwrap_or_else(second)
}

/// A writer gives the expected verdict and marks and leaves all numbers but the record's as they were; the verdict passes both checks.
pub fn obeys(trial: &Trial, write: Write, expected: &Expected) -> Result<Option<Case>, String> {
    let plan = &trial.plan;
    let (mut rows, mut fallen) = (trial.rows.clone(), trial.fallen.clone());
    let told = write(plan, &mut rows, &mut fallen);
    require(
        told == expected.verdict && fallen == expected.fallen,
        || format!("{told:?} and {fallen:?}, expected {expected:?}"),
    )?;
    let [kind, count, a, b] = told;
    let written = if kind == 0 { plan.record() } else { 0 };
    require(rows[written..] == trial.rows[written..], || {
        format!("{told:?} with other numbers changed: {rows:?}")
    })?;
    if kind == 2 {
        return Ok(None);
    }
    rows.truncate(written);
    let list = if kind == 0 {
        rows
    } else {
        [a, b][..count as usize].to_vec()
    };
    let plan = plan.clone();
    let case = Case { plan, kind, list };
    let answer = same(&case)?;
    require(answer.number == 0, || {
        format!("the checks answer {answer:?} to {case:?}")
    })?;
    Ok(Some(case))
}

/// The texts that belong to a plan text: of its verdict, and of the pieces that would fall.
struct Texts {
    verdict: Verdict,
    text: Vec<u8>,
    fallen: Vec<u8>,
}

impl Texts {
    /// Of a refusal, or of the verdict that the proved writer gives as numbers.
    fn expected(plan: &[u8]) -> Result<Texts, String> {
        match texts::read_plan(plan) {
            Ok(plan) => Texts::written(&plan),
            Err(refused) => Ok(Texts {
                verdict: [2, refused.number, 0, 0],
                text: format!("{:>5}{:>5}\n", 2, refused.number).into_bytes(),
                fallen: texts::lines(&[refused.number]),
            }),
        }
    }

    fn written(plan: &Plan) -> Result<Texts, String> {
        let mut rows = vec![0; plan.record()];
        let expected = expected_verdict(plan, rows.len());
        let told = archive::verdict(plan, &mut rows, &mut Fallen::default());
        require(told == expected, || {
            format!("the proved writer: {told:?}, expected {expected:?}")
        })?;
        let [kind, count, a, b] = told;
        let (text, pieces) = match kind {
            0 => (texts::write(0, &rows, 3), Vec::new()),
            _ => (
                texts::write(1, &[a, b][..count as usize], 1),
                fallen_pieces(plan, told),
            ),
        };
        let count = pieces.len() as u16;
        Ok(Texts {
            verdict: told,
            text,
            fallen: texts::lines(&[&[count], &pieces[..]].concat()),
        })
    }
}

/// A writer of texts gives the expected text, or 0 where the lent bytes are fewer, and leaves the others as they were.
pub fn writes(
    random: &mut Random,
    plan: &[u8],
    expected: &[u8],
    write: fn(&[u8], &mut [u8]) -> usize,
) -> Result<(), String> {
    let length = match random.below(8) {
        0 => random.below(expected.len()),
        1 => expected.len() - 1,
        2..=4 => expected.len() + 1 + random.below(20),
        _ => expected.len(),
    };
    let lent: Vec<u8> = (0..length).map(|_| random.next() as u8).collect();
    let mut wanted = lent.clone();
    let fits = length >= expected.len();
    if fits {
        wanted[..expected.len()].copy_from_slice(expected);
    }
    let mut bytes = lent;
    let written = write(plan, &mut bytes);
    require(
        written == if fits { expected.len() } else { 0 } && bytes == wanted,
        || {
            format!(
                "{written} bytes written: {}, expected {}, {length} lent",
                bytes.escape_ascii(),
                wanted.escape_ascii()
            )
        },
    )
}

/// The proved writers of texts give the expected texts; that of the verdict passes both checks.
fn text(random: &mut Random, plan: &[u8]) -> Result<Verdict, String> {
    let Texts {
        verdict,
        text,
        fallen,
    } = Texts::expected(plan)?;
    writes(random, plan, &text, archive::verdict_text)?;
    writes(random, plan, &fallen, archive::fallen_text)?;
    let refused = if verdict[0] == 2 { verdict[1] } else { 0 };
    let answer = same_texts(&[plan.to_vec(), text])?;
    require(answer.number == refused, || {
        format!("the checks answer {answer:?} to the text of {verdict:?}")
    })?;
    Ok(verdict)
}
