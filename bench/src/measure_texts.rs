//! How much processor time the exported functions take on texts, beside the same on numbers; and how much of it is reading, beside a second reader.

use crate::clock::{median, time};
use crate::fallen::Fallen;
use crate::grow::{Family, grow};
use crate::plan::{Case, Plan};
use crate::random::Random;
use crate::table::{head, number, row, whole};
use crate::{archive, reader, texts};
use std::hint::black_box;
use std::time::Duration;

const PIECES: usize = 1000;
const TABS: usize = 4000;
const SAMPLES: usize = 101;
const TIME: Duration = Duration::from_millis(2);

/// Prints two tables: median times of the same call on numbers and on texts, and of reading.
pub fn run() -> Result<(), String> {
    let case = grow(&mut Random::new(1), Family::Short, PIECES, TABS);
    let mut parted = case.clone();
    // all tabs between two pieces: many bodies, which the writer sees at once
    parted.plan.ends = [0, 1].repeat(TABS);
    head(&[
        "4,000 tabs",
        "on numbers, ms",
        "on texts, ms",
        "texts less numbers, ms",
    ]);
    let weak = Case {
        kind: 1,
        list: vec![],
        ..parted.clone()
    };
    check("check of a record", &case);
    check("check of a weak verdict, no tab named", &weak);
    write("writer, already parted", &parted, archive::verdict_text);
    write(
        "pieces that would fall, already parted",
        &parted,
        archive::fallen_text,
    );
    unread(&case);
    println!();
    reading()
}

/// How many texts of a kind are read in turn.
const TEXTS: usize = 16;

/// Prints a table: median times of reading alone, by the proved reader and by the second one.
fn reading() -> Result<(), String> {
    head(&[
        "reading, texts of a kind in turn",
        "bytes",
        "proved, µs",
        "second, µs",
        "proved against second",
    ]);
    let cases: Vec<Case> = (1..=TEXTS as u64)
        .map(|seed| grow(&mut Random::new(seed), Family::Short, PIECES, TABS))
        .collect();
    let plans: Vec<_> = cases.iter().map(|c| texts::write_plan(&c.plan)).collect();
    let verdicts: Vec<_> = cases.iter().map(|c| texts::write(0, &c.list, 3)).collect();
    let slugs: Vec<_> = cases.iter().map(with_slugs).collect();
    let damaged: Vec<_> = plans.iter().map(|text| last_damaged(text)).collect();
    plan_texts("plan text, 4,000 tabs", &plans, 8)?;
    plan_texts("the same, 500 slugs", &slugs, 8)?;
    plan_texts("the first, refused at its last byte", &damaged, 7)?;
    verdict_texts("verdict text, 4,000 rows", &verdicts)
}

/// The plan's text with every other piece as a slug.
fn with_slugs(case: &Case) -> Vec<u8> {
    let mut plan = case.plan.clone();
    plan.excluded = (0..plan.vertices).step_by(2).collect();
    texts::write_plan(&plan)
}

fn last_damaged(text: &[u8]) -> Vec<u8> {
    let (_, front) = text.split_last().expect("a text has a last byte");
    [front, b" "].concat()
}

/// The proved reader is timed by the check of the text and an empty verdict text, which is refused before anything is checked.
fn plan_texts(name: &str, plans: &[Vec<u8>], number: u16) -> Result<(), String> {
    let mut table = vec![0; reader::TABLE];
    let proved = |text: &[u8]| archive::check_texts(text, b"").number == number;
    let second = |text: &[u8]| match reader::read_plan(text, &mut table) {
        Ok(_) => number == 8,
        Err(answer) => answer.number == number,
    };
    print_reading(name, plans, proved, second)
}

/// That of a verdict text by its check about a plan of two pieces, which is rejected by 9 before the first row.
fn verdict_texts(name: &str, verdicts: &[Vec<u8>]) -> Result<(), String> {
    let mut list = vec![0; reader::LIST];
    let plan = texts::write_plan(&Plan::whole(2, vec![]));
    let proved = |text: &[u8]| archive::check_texts(&plan, text).number == 9;
    let second = |text: &[u8]| reader::read_verdict(text, &mut list).is_ok();
    print_reading(name, verdicts, proved, second)
}

/// Both tell whether the answer is the one that is meant.
fn print_reading(
    name: &str,
    all: &[Vec<u8>],
    mut proved: impl FnMut(&[u8]) -> bool,
    mut second: impl FnMut(&[u8]) -> bool,
) -> Result<(), String> {
    if !all.iter().all(|text| proved(text) && second(text)) {
        return Err(format!("{name}: another answer than the one that is meant"));
    }
    let [mut one, mut other] = [0, 0];
    let turn = |place: &mut usize| {
        *place = (*place + 1) % all.len();
        &all[*place]
    };
    let times = pair(
        || _ = black_box(proved(black_box(turn(&mut one)))),
        || _ = black_box(second(black_box(turn(&mut other)))),
    )
    .map(|ms| 1000.0 * ms);
    let cells = [times[0], times[1], times[0] / times[1]].map(number);
    row(&[name, &whole(all[0].len()), &cells[0], &cells[1], &cells[2]]);
    Ok(())
}

/// The median milliseconds of two calls, sampled in turn.
fn pair(mut one: impl FnMut(), mut other: impl FnMut()) -> [f64; 2] {
    let mut times = [Vec::new(), Vec::new()];
    for _ in 0..SAMPLES {
        times[0].push(time(TIME, &mut one));
        times[1].push(time(TIME, &mut other));
    }
    times.map(|times| median(&times) / 1e6)
}

fn print(name: &str, [numbers, texts]: [f64; 2]) {
    let cells = [numbers, texts, texts - numbers].map(number);
    row(&[name, &cells[0], &cells[1], &cells[2]]);
}

fn check(name: &str, case: &Case) {
    let columns = if case.kind == 0 { 3 } else { 1 };
    let plan = texts::write_plan(&case.plan);
    let verdict = texts::write(case.kind, &case.list, columns);
    let on_numbers = || {
        let case = black_box(case);
        black_box(archive::check(&case.plan, case.kind, &case.list));
    };
    let on_texts = || {
        black_box(archive::check_texts(black_box(&plan), black_box(&verdict)));
    };
    print(name, pair(on_numbers, on_texts));
}

/// The verdict on numbers, which has the pieces that would fall, too, and one of its texts.
fn write(name: &str, case: &Case, write_text: fn(&[u8], &mut [u8]) -> usize) {
    let plan = texts::write_plan(&case.plan);
    let mut rows = vec![0; 3 * TABS];
    let mut fallen = Fallen::default();
    let mut text = vec![0; 16 * TABS + 11];
    let on_numbers = || {
        let case = black_box(case);
        black_box(archive::verdict(&case.plan, &mut rows, &mut fallen));
    };
    let on_texts = || {
        black_box(write_text(black_box(&plan), &mut text));
    };
    print(name, pair(on_numbers, on_texts));
}

/// A plan text that is refused at its last byte: it is read once, and nothing is stored.
fn unread(case: &Case) {
    let mut plan = texts::write_plan(&case.plan);
    *plan.last_mut().expect("a text has a last byte") = b' ';
    let verdict = texts::write(case.kind, &case.list, 3);
    let times: Vec<f64> = (0..SAMPLES)
        .map(|_| {
            time(TIME, || {
                black_box(archive::check_texts(black_box(&plan), black_box(&verdict)));
            })
        })
        .collect();
    let refused = number(median(&times) / 1e6);
    row(&[
        "check, plan text refused at its last byte",
        "",
        &refused,
        "",
    ]);
}
