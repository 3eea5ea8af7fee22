//! How many instructions one call takes, by `valgrind --tool=callgrind`: growth without the noise of a clock.
//!
//! Valgrind runs this program itself, which makes some calls on one plan: once with one call and once with eleven. A tenth of the difference
//! is what one call takes, since all else is the same.

use crate::fallen::Fallen;
use crate::firm_shapes::firm;
use crate::measure::weak_verdict;
use crate::plan::Plan;
use crate::random::Random;
use crate::shapes::{ORDERS, Shape};
use crate::table::{head, number, row, whole};
use crate::weak_shapes::weak;
use crate::{archive, second, writer};
use std::hint::black_box;
use std::process::Command;

/// How many calls the second run makes more than the first.
const MORE: u64 = 10;

/// What is called on shapes of some sizes, and the shapes where it was found to be slowest, or to grow most.
struct Counted {
    title: &'static str,
    what: &'static str,
    sizes: [usize; 3],
    worst: &'static [&'static str],
}

const COUNTED: [Counted; 3] = [
    Counted {
        title: "firm plans, the writer",
        what: "record",
        sizes: [1000, 2000, 4000],
        worst: FIRM,
    },
    Counted {
        title: "weak plans, the writer",
        what: "cut",
        sizes: [100, 1000, 4000],
        worst: WEAK,
    },
    Counted {
        title: "weak verdicts, the check",
        what: "check",
        sizes: [100, 1000, 4000],
        worst: WEAK,
    },
];

const FIRM: &[&str] = &[
    "random, short ears",
    "random, far ends",
    "ring of blobs",
    "three paths, rungs",
    "nested chords",
    "exits in the middle",
    "doubled path, one outlet",
];

const WEAK: &[&str] = &[
    "the first apart",
    "several bodies",
    "path",
    "tail with a blob",
    "one hung on by two",
    "scattered, one hung on by two",
    "ring of blobs",
    "bipartite, one hung on by two",
];

/// Prints tables of instructions for each tab, of the writer on firm and on weak plans and of the check of weak verdicts: over the worst shapes,
/// or over those of one name.
pub fn run(name: Option<&str>) -> Result<(), String> {
    let mut none = true;
    for counted in COUNTED {
        let chosen = |shape: &Shape| match name {
            None => counted.worst.contains(&shape.name),
            Some("all") => true,
            Some(name) => shape.name == name,
        };
        let shapes: Vec<Shape> = shapes(counted.what).into_iter().filter(chosen).collect();
        if !shapes.is_empty() {
            none = false;
            table(&counted, &shapes)?;
            println!();
        }
    }
    if none {
        return Err("no shape has that name".to_string());
    }
    Ok(())
}

/// The shapes that something is called on.
fn shapes(what: &str) -> Vec<Shape> {
    if what == "record" { firm() } else { weak() }
}

fn table(counted: &Counted, shapes: &[Shape]) -> Result<(), String> {
    let [few, some, most] = counted.sizes;
    head(&[
        counted.title,
        "tabs numbered",
        "tabs",
        &format!("proved, instructions for each tab, at {}", whole(few)),
        &format!("at {}", whole(some)),
        "at most",
        &format!("most against {}", whole(few)),
        "second, at most",
    ]);
    for shape in shapes {
        for order in ORDERS {
            let plan = |size| shape.plan(&mut Random::new(1), size, order);
            let each = |which: &str, size: usize| -> Result<f64, String> {
                let size_word = size.to_string();
                let words = [which, counted.what, shape.name, order.name(), &size_word];
                Ok(instructions(words)? / plan(size).tabs() as f64)
            };
            let [low, middle, high] = counted.sizes.map(|size| each("proved", size));
            let (low, high) = (low?, high?);
            row(&[
                shape.name.to_string(),
                order.name().to_string(),
                whole(plan(most).tabs()),
                number(low),
                number(middle?),
                number(high),
                number(high / low),
                number(each("second", most)?),
            ]);
        }
    }
    Ok(())
}

/// What one call takes.
fn instructions(words: [&str; 5]) -> Result<f64, String> {
    let [one, more] = [1, 1 + MORE].map(|count| collected(words, count));
    Ok((more? - one?) as f64 / MORE as f64)
}

/// What this program takes if it makes so many calls.
fn collected(words: [&str; 5], count: u64) -> Result<u64, String> {
    let program = std::env::current_exe().map_err(|why| why.to_string())?;
    let run = Command::new("valgrind")
        .args(["--tool=callgrind", "--callgrind-out-file=/dev/null"])
        .arg(program)
        .arg("call")
        .args(words)
        .arg(count.to_string())
        .output();
    let run = run.map_err(|why| format!("valgrind: {why}"))?;
    let said = String::from_utf8_lossy(&run.stderr);
    let mut lines = said.lines();
    let line = lines.find_map(|line| line.split_once("Collected : "));
    let number = line.and_then(|(_, number)| number.trim().parse().ok());
    number.ok_or(format!("valgrind counted nothing: {said}"))
}

/// Makes so many calls on the plan that these words name: proved or second, what is called, shape, order, size.
pub fn call(words: [&str; 5], count: u64) -> Result<(), String> {
    let [which, what, name, order, size] = words;
    let unknown = || format!("no call has the words {words:?}");
    let shape = shapes(what).into_iter().find(|shape| shape.name == name);
    let shape = shape.ok_or_else(unknown)?;
    let order = ORDERS.into_iter().find(|known| known.name() == order);
    let size = size.parse().map_err(|_| unknown())?;
    let plan = shape.plan(&mut Random::new(1), size, order.ok_or_else(unknown)?);
    match (what, which) {
        ("record" | "cut", "proved") => write(archive::verdict, &plan, count),
        ("record" | "cut", "second") => write(writer::verdict, &plan, count),
        ("check", "proved") => check(archive::check, plan, count),
        ("check", "second") => check(second::check, plan, count),
        _ => return Err(unknown()),
    }
    Ok(())
}

fn write(write: writer::Write, plan: &Plan, count: u64) {
    let mut rows = vec![0; 3 * plan.tabs()];
    let mut fallen = Fallen::default();
    for _ in 0..count {
        let plan = black_box(plan);
        black_box(write(plan, &mut rows, &mut fallen));
    }
}

fn check(check: second::Check, plan: Plan, count: u64) {
    let case = weak_verdict(plan);
    for _ in 0..count {
        let case = black_box(&case);
        black_box(check(&case.plan, case.kind, &case.list));
    }
}
