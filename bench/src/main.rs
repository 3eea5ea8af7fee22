//! The proved check, the proved writer with the pieces that would fall, and the proved finder of groups beside second ones: `measure`, `measure-writer`, `measure-groups` and
//! `measure-texts` have them timed, `stack` has their stack measured, `figures` all of these; `callgrind` has instructions of the check and the
//! writer counted, of the calls that `call` makes; `compare`, `compare-writer` and `compare-groups` have the answers of both compared.

mod archive;
mod brute;
mod callgrind;
mod clock;
mod compare;
mod compare_groups;
mod compare_writer;
mod damage;
mod fallen;
mod firm_shapes;
mod group_shapes;
mod groups;
mod grow;
mod kept;
mod measure;
mod measure_groups;
mod measure_shapes;
mod measure_slugs;
mod measure_texts;
mod measure_writer;
mod plan;
mod plans;
mod random;
mod reader;
mod second;
mod shapes;
mod slugs;
mod stack;
mod table;
mod texts;
mod weak_shapes;
mod writer;

use std::process::ExitCode;

const USE: &str = "use: bench/run [measure | measure-writer [SHAPE] | measure-groups [SHAPE] | measure-texts | stack | figures | callgrind [all | SHAPE] | compare [COUNT [SEED]] | compare-writer [COUNT [SEED]] | compare-groups [COUNT [SEED]]]";

fn main() -> ExitCode {
    let words: Vec<String> = std::env::args().skip(1).collect();
    let words: Vec<&str> = words.iter().map(String::as_str).collect();
    let done = match words[..] {
        [] | ["measure"] => measure::run(),
        ["measure-writer"] => measure_writer::run(None),
        ["measure-writer", name] => measure_writer::run(Some(name)),
        ["measure-groups"] => measure_groups::run(None),
        ["measure-groups", name] => measure_groups::run(Some(name)),
        ["measure-texts"] => measure_texts::run(),
        ["stack"] => stack::run(),
        ["figures"] => figures(),
        ["callgrind"] => callgrind::run(None),
        ["callgrind", name] => callgrind::run(Some(name)),
        ["call", which, what, shape, order, size, count] => {
            callgrind::call([which, what, shape, order, size], whole(count))
        }
        ["compare"] => compare::run(500_000, 1),
        ["compare", count] => compare::run(whole(count), 1),
        ["compare", count, seed] => compare::run(whole(count), whole(seed)),
        ["compare-writer"] => compare_writer::run(1_000_000, 1),
        ["compare-writer", count] => compare_writer::run(whole(count), 1),
        ["compare-writer", count, seed] => compare_writer::run(whole(count), whole(seed)),
        ["compare-groups"] => compare_groups::run(1_000_000, 1),
        ["compare-groups", count] => compare_groups::run(whole(count), 1),
        ["compare-groups", count, seed] => compare_groups::run(whole(count), whole(seed)),
        _ => Err(USE.to_string()),
    };
    match done {
        Ok(()) => ExitCode::SUCCESS,
        Err(why) => {
            eprintln!("{why}");
            ExitCode::FAILURE
        }
    }
}

/// All that docs/BENCHMARKS.md has from here: its tables, in its order, then the comparisons.
fn figures() -> Result<(), String> {
    type Run = fn() -> Result<(), String>;
    let parts: [(&str, Run); 8] = [
        ("The check", measure::run),
        ("The writer", || measure_writer::run(None)),
        ("The groups", || measure_groups::run(None)),
        ("Texts", measure_texts::run),
        ("Stack", stack::run),
        ("Checks compared", || compare::run(500_000, 1)),
        ("Writers compared", || compare_writer::run(1_000_000, 1)),
        ("Groups compared", || compare_groups::run(1_000_000, 1)),
    ];
    for (name, run) in parts {
        println!("## {name}\n");
        run()?;
        println!();
    }
    Ok(())
}

fn whole(word: &str) -> u64 {
    word.parse().expect("a whole number")
}
