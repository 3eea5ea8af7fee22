//! How much processor time both writers take, and how that grows.

use crate::clock::{median, time};
use crate::compare_writer::{Expected, obeys};
use crate::fallen::Fallen;
use crate::firm_shapes::firm;
use crate::measure_shapes::table;
use crate::plan::Plan;
use crate::plans::Trial;
use crate::weak_shapes::weak;
use crate::writer::Write;
use crate::{archive, writer};
use std::hint::black_box;
use std::time::Duration;

/// Samples, and how long one takes at least.
const SAMPLES: usize = 9;
const TIME: Duration = Duration::from_millis(2);
const WRITERS: [Write; 2] = [archive::verdict, writer::verdict];

/// Prints two tables: median times of one verdict, of firm plans and of weak ones; or just of the shapes of one name.
pub fn run(name: Option<&str>) -> Result<(), String> {
    for (title, mut shapes, kind) in [("firm plans", firm(), 0), ("weak plans", weak(), 1)] {
        shapes.retain(|shape| name.is_none_or(|name| shape.name == name));
        if shapes.is_empty() {
            continue;
        }
        table(title, &shapes, |plans| {
            plans.iter().try_for_each(|plan| agree(plan, kind))?;
            Ok(medians(&plans))
        })?;
        println!();
    }
    Ok(())
}

/// The median nanoseconds of one call of each writer: a sample goes over all plans, again and again.
fn medians(plans: &[Plan]) -> [f64; 2] {
    let mut times = [Vec::new(), Vec::new()];
    let most = plans.iter().map(Plan::tabs).max();
    let mut rows = vec![0; 3 * most.unwrap_or(0)];
    let mut fallen = Fallen::default();
    for _ in 0..SAMPLES {
        for (write, times) in WRITERS.iter().zip(&mut times) {
            let all = time(TIME, || {
                for plan in black_box(plans) {
                    let rows = &mut rows[..3 * plan.tabs()];
                    black_box(write(plan, rows, &mut fallen));
                }
            });
            times.push(all / plans.len() as f64);
        }
    }
    times.map(|times| median(&times))
}

/// Both writers give the same verdict, of this kind, with the pieces that would fall, and it passes both checks.
fn agree(plan: &Plan, kind: u16) -> Result<(), String> {
    let rows = vec![0; plan.record()];
    let fallen = Fallen::default();
    let verdict = writer::verdict(plan, &mut rows.clone(), &mut fallen.clone());
    let wrong = |why| format!("{why}, for {plan:?}");
    if verdict[0] != kind {
        return Err(wrong(format!("{verdict:?}")));
    }
    let plan = plan.clone();
    let trial = Trial { plan, rows, fallen };
    let expected = Expected::new(&trial, verdict);
    for write in WRITERS {
        obeys(&trial, write, &expected).map_err(wrong)?;
    }
    Ok(())
}
