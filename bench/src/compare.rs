//! The answers of both checks to random verdicts, compared.

use crate::damage::random_case;
use crate::plan::Case;
use crate::random::Random;
use crate::second::Answer;
use crate::texts::{self, random_texts};
use crate::{archive, second};

/// The numbers that are answered are below this.
pub const ANSWERS: usize = 20;

/// Compares so many answers, to lists and to texts; the first difference is an error.
pub fn run(count: u64, seed: u64) -> Result<(), String> {
    let mut random = Random::new(seed);
    let mut lists = [0u64; ANSWERS];
    let mut texts = [0u64; ANSWERS];
    for _ in 0..count {
        let case = random_case(&mut random);
        let answer = same(&case)?;
        lists[answer.number as usize] += 1;
        let answer = same_texts(&random_texts(&mut random, &case))?;
        texts[answer.number as usize] += 1;
    }
    println!("{:>6} {:>9} {:>9}", "answer", "lists", "texts");
    for (number, (lists, texts)) in lists.iter().zip(texts).enumerate() {
        println!("{number:>6} {lists:>9} {texts:>9}");
    }
    println!("all equal: {count} verdicts as lists, {count} as texts, seed {seed}");
    Ok(())
}

/// The answer that both checks give.
pub fn same(case: &Case) -> Result<Answer, String> {
    let proved = archive::check(&case.plan, case.kind, &case.list);
    let other = second::check(&case.plan, case.kind, &case.list);
    if proved == other {
        return Ok(proved);
    }
    Err(format!(
        "different: the proved check {proved:?}, the second {other:?}, for {case:?}"
    ))
}

/// The same of two texts.
pub fn same_texts([plan, verdict]: &[Vec<u8>; 2]) -> Result<Answer, String> {
    let proved = archive::check_texts(plan, verdict);
    let other = texts::check(plan, verdict);
    if proved == other {
        return Ok(proved);
    }
    let (plan, verdict) = (plan.escape_ascii(), verdict.escape_ascii());
    Err(format!(
        "different: the proved check {proved:?}, the second {other:?}, for the texts {plan} and {verdict}"
    ))
}
