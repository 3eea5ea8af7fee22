//! How much processor time both checks take, and how that grows.

use crate::clock::{median, time};
use crate::compare::same;
use crate::fallen::Fallen;
use crate::firm_shapes::firm;
use crate::grow::{Family, grow};
use crate::measure_shapes::table;
use crate::plan::{Case, Plan};
use crate::random::Random;
use crate::second::Check;
use crate::table::{head, number, row, whole};
use crate::weak_shapes::weak;
use crate::{archive, measure_slugs, second, writer};
use std::hint::black_box;
use std::time::Duration;

const SIZES: [usize; 3] = [100, 1000, 4000];
const FAMILIES: [(&str, Family); 3] = [
    ("many short links", Family::Short),
    ("few long links", Family::Long),
    ("ends far apart", Family::Far),
];
/// How many tabs the graphs of a size and family have together, samples, and how long one takes at least.
const TABS: usize = 36_000;
const SAMPLES: usize = 9;
const TIME: Duration = Duration::from_millis(2);

/// Prints four tables: median times of a check of one verdict, of firm ones and of weak ones by size, and of weak ones that are no cut; then
/// what slugs cost.
pub fn run() -> Result<(), String> {
    records()?;
    println!();
    weak_verdicts()?;
    println!();
    no_cuts()?;
    println!();
    measure_slugs::run()
}

const CHECKS: [Check; 2] = [archive::check, second::check];

/// The median nanoseconds of one call of each check: a sample goes over all verdicts, again and again.
fn medians(cases: &[Case]) -> [f64; 2] {
    let mut times = [Vec::new(), Vec::new()];
    for _ in 0..SAMPLES {
        for (check, times) in CHECKS.iter().zip(&mut times) {
            let all = time(TIME, || {
                for case in black_box(cases) {
                    black_box(check(&case.plan, case.kind, &case.list));
                }
            });
            times.push(all / cases.len() as f64);
        }
    }
    times.map(|times| median(&times))
}

fn records() -> Result<(), String> {
    let mut random = Random::new(1);
    head(&[
        "records",
        "tabs",
        "proved, µs",
        "second, µs",
        "ratio",
        "ns for each row",
        "against the size before",
    ]);
    for (name, family) in FAMILIES {
        let mut before = None;
        for tabs in SIZES {
            let grown = (0..TABS / tabs).map(|_| grow(&mut random, family, tabs / 4, tabs));
            let cases: Vec<Case> = grown.collect();
            cases.iter().try_for_each(|case| answers(case, 0))?;
            let [proved, other] = medians(&cases);
            let growth = before.map_or(String::new(), |before| format!("× {:.1}", proved / before));
            row(&[
                name.to_string(),
                whole(tabs),
                number(proved / 1e3),
                number(other / 1e3),
                format!("{:.1}", proved / other),
                number(proved / tabs as f64),
                growth,
            ]);
            before = Some(proved);
        }
    }
    Ok(())
}

/// Both checks answer this number, and place 0.
fn answers(case: &Case, number: u16) -> Result<(), String> {
    let answer = same(case)?;
    if answer.number == number && answer.place == 0 {
        return Ok(());
    }
    Err(format!("a verdict is answered {answer:?}: {case:?}"))
}

/// The weak verdict about a plan: its lowest cut.
pub fn weak_verdict(plan: Plan) -> Case {
    let mut rows = vec![0; plan.record()];
    let [kind, count, first, last] = writer::verdict(&plan, &mut rows, &mut Fallen::default());
    let list = [first, last][..count as usize].to_vec();
    Case { plan, kind, list }
}

/// Weak verdicts that pass, each the lowest cut of its plan.
fn weak_verdicts() -> Result<(), String> {
    table("weak verdicts", &weak(), |plans| {
        let cases: Vec<Case> = plans.into_iter().map(weak_verdict).collect();
        cases.iter().try_for_each(|case| answers(case, 0))?;
        Ok(medians(&cases))
    })
}

/// Weak verdicts about firm plans, with the first and the last tab: both are no cut.
fn no_cuts() -> Result<(), String> {
    let first_and_last = |plan: Plan| Case {
        list: vec![0, plan.tabs() as u16 - 1],
        plan,
        kind: 1,
    };
    table("no cut", &firm(), |plans| {
        let cases: Vec<Case> = plans.into_iter().map(first_and_last).collect();
        cases.iter().try_for_each(|case| answers(case, 17))?;
        Ok(medians(&cases))
    })
}
