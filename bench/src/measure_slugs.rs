//! What slugs cost: how much processor time both programs take on plans without slugs, and on the same with slugs put beside.

use crate::clock::{median, time};
use crate::compare::same;
use crate::fallen::Fallen;
use crate::grow::{Family, grow};
use crate::plan::{Case, Plan};
use crate::random::Random;
use crate::table::{head, number, row};
use crate::{archive, groups, second, slugs, writer};
use std::hint::black_box;
use std::time::Duration;

/// The pieces and the tabs that are kept; the slugs, each with four tabs: together 1,000 pieces and 4,000 tabs.
const PIECES: usize = 875;
const TABS: usize = 3500;
const SLUGS: u16 = 125;
/// Plans, samples, and how long one takes at least.
const PLANS: usize = 4;
const SAMPLES: usize = 9;
const TIME: Duration = Duration::from_millis(2);

/// A call that is timed, by the proved program and by the second one.
struct Timed {
    name: &'static str,
    calls: [Call; 2],
}

/// A call on a verdict or on its plan, with a lent table.
type Call = fn(&Case, &mut [u16]);

const TIMED: [Timed; 4] = [
    Timed {
        name: "check of a record",
        calls: [
            |case, _| _ = black_box(archive::check(&case.plan, 0, &case.list)),
            |case, _| _ = black_box(second::check(&case.plan, 0, &case.list)),
        ],
    },
    Timed {
        name: "check of a weak verdict, no tab named",
        calls: [
            |case, _| _ = black_box(archive::check(&case.plan, 1, &[])),
            |case, _| _ = black_box(second::check(&case.plan, 1, &[])),
        ],
    },
    Timed {
        name: "writer, firm",
        calls: [
            |case, rows| _ = black_box(kind(archive::verdict, &case.plan, rows)),
            |case, rows| _ = black_box(kind(writer::verdict, &case.plan, rows)),
        ],
    },
    Timed {
        name: "groups, one",
        calls: [
            |case, table| _ = black_box(archive::groups(&case.plan, table)),
            |case, table| _ = black_box(groups::groups(&case.plan, table)),
        ],
    },
];

/// Prints a table: median times of one call on firm plans without slugs and with them.
pub fn run() -> Result<(), String> {
    let mut random = Random::new(1);
    let grown = (0..PLANS).map(|_| grow(&mut random, Family::Short, PIECES, TABS));
    let without: Vec<Case> = grown.collect();
    let mut with = without.clone();
    for case in &mut with {
        slugs::put_many(&mut random, case, SLUGS);
    }
    without.iter().chain(&with).try_for_each(passes)?;
    head(&[
        "3,500 kept tabs",
        "proved, µs, without slugs",
        "with 500 tabs of slugs",
        "with against without",
        "second, µs, without slugs",
        "with 500 tabs of slugs",
    ]);
    for Timed { name, calls } in TIMED {
        let [proved, second] = calls.map(|call| medians(call, [&without, &with]));
        let growth = format!("× {}", number(proved[1] / proved[0]));
        let [bare, slugged, other, other_slugged] =
            [proved[0], proved[1], second[0], second[1]].map(|time| number(time / 1e3));
        row(&[name, &bare, &slugged, &growth, &other, &other_slugged]);
    }
    Ok(())
}

/// Both checks pass the record, and both writers call the plan firm.
fn passes(case: &Case) -> Result<(), String> {
    let answer = same(case)?;
    let mut rows = vec![0; case.plan.record()];
    let told = [archive::verdict, writer::verdict].map(|write| kind(write, &case.plan, &mut rows));
    if answer.number == 0 && told == [0, 0] {
        return Ok(());
    }
    Err(format!("{answer:?} and the kinds {told:?} for {case:?}"))
}

fn kind(write: writer::Write, plan: &Plan, rows: &mut [u16]) -> u16 {
    write(plan, rows, &mut Fallen::default())[0]
}

/// The median nanoseconds of one call on the plans without slugs and on those with, sampled in turn.
fn medians(call: Call, cases: [&[Case]; 2]) -> [f64; 2] {
    let mut times = [Vec::new(), Vec::new()];
    let mut lent = vec![0; 3 * TABS];
    for _ in 0..SAMPLES {
        for (cases, times) in cases.iter().zip(&mut times) {
            let all = time(TIME, || {
                for case in black_box(*cases) {
                    call(case, &mut lent);
                }
            });
            times.push(all / cases.len() as f64);
        }
    }
    times.map(|times| median(&times))
}
