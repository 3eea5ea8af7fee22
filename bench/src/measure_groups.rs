//! How much processor time both finders of groups take, and how that grows: at six sizes, with the tabs numbered up, down and shuffled.

use crate::clock::{median, now, time};
use crate::group_shapes::grouped;
use crate::groups::Find;
use crate::measure_shapes::{Cell, TABS, Worst};
use crate::plan::Plan;
use crate::random::Random;
use crate::shapes::{ORDERS, Shape};
use crate::table::{head, number, numbers, row, whole};
use crate::{archive, groups};
use std::hint::black_box;
use std::time::Duration;

const SIZES: [usize; 6] = [100, 200, 500, 1000, 2000, 4000];
/// Samples, how long one takes at least, and after how much time there are enough.
const SAMPLES: usize = 5;
const TIME: Duration = Duration::from_millis(1);
const ENOUGH: Duration = Duration::from_millis(50);
const FINDERS: [Find; 2] = [archive::groups, groups::groups];

/// A shape at a size: how many pieces it has, and a cell for each order.
struct Sized {
    pieces: usize,
    cells: Vec<Cell>,
}

impl Sized {
    fn tabs(&self) -> usize {
        self.cells[0].tabs
    }

    /// Microseconds of one call of the proved finder (0) or of the second one (1), for each order.
    fn times(&self, which: usize) -> String {
        numbers(self.cells.iter().map(|cell| cell.times[which] / 1e3))
    }
}

/// Prints a table: median times of one call on plans of all shapes, or just of the shapes of one name; then the worst of all.
pub fn run(name: Option<&str>) -> Result<(), String> {
    let mut shapes = grouped();
    shapes.retain(|shape| name.is_none_or(|name| shape.name == name));
    if shapes.is_empty() {
        return Err("no shape has this name".to_string());
    }
    let at = |size: &usize| format!("at {}", whole(*size));
    let mut columns = ["groups", "pieces", "tabs"].map(String::from).to_vec();
    columns.extend(SIZES.iter().map(at));
    columns[3] = format!("proved, µs, {}", columns[3]);
    columns.push("for each tab, most against 100".to_string());
    columns.push("second, µs, at most".to_string());
    columns.push("proved against second".to_string());
    head(&columns.iter().map(String::as_str).collect::<Vec<_>>());
    let mut random = Random::new(1);
    let [mut growth, mut ratio, mut longest] = [(); 3].map(|()| Worst::default());
    for shape in shapes {
        let sizes = sizes(&mut random, &shape)?;
        let (few, most) = (&sizes[0], &sizes[sizes.len() - 1]);
        for (few, most) in few.cells.iter().zip(&most.cells) {
            growth.meet(most.growth(few), &shape, most.order);
            ratio.meet(most.ratio(), &shape, most.order);
            longest.meet(most.times[0] / 1e3, &shape, most.order);
        }
        print(&shape, &sizes);
    }
    println!();
    growth.print("the highest for each tab of most against 100");
    ratio.print("the highest of proved against second");
    let Worst { most, of } = longest;
    println!("the longest of the proved one: {} µs ({of})", number(most));
    Ok(())
}

/// The sizes that a shape may have: no more where the next one has no more tabs.
fn sizes(random: &mut Random, shape: &Shape) -> Result<Vec<Sized>, String> {
    let mut sizes: Vec<Sized> = Vec::new();
    for size in SIZES {
        let plan = shape.plan(random, size, ORDERS[0]);
        let (pieces, tabs) = (plan.vertices as usize, plan.tabs());
        if sizes.last().is_some_and(|last| last.tabs() == tabs) {
            break;
        }
        let cell = |&order| {
            let plans = (0..TABS / size).map(|_| shape.plan(random, size, order));
            let plans: Vec<Plan> = plans.collect();
            let agreed = plans.iter().try_for_each(agree);
            agreed.map_err(|why| format!("{}: {why}", shape.name))?;
            let times = medians(&plans);
            Ok(Cell { order, tabs, times })
        };
        let cells: Result<Vec<Cell>, String> = ORDERS.iter().map(cell).collect();
        let cells = cells?;
        sizes.push(Sized { pieces, cells });
    }
    Ok(sizes)
}

/// The median nanoseconds of one call of each finder: a sample goes over all plans, again and again.
fn medians(plans: &[Plan]) -> [f64; 2] {
    let mut times = [Vec::new(), Vec::new()];
    let most = plans.iter().map(|plan| plan.vertices).max();
    let mut table = vec![0; most.unwrap_or(0) as usize];
    let start = now();
    for sample in 0..SAMPLES {
        if sample > 0 && now() - start > ENOUGH {
            break;
        }
        for (find, times) in FINDERS.iter().zip(&mut times) {
            let all = time(TIME, || {
                for plan in black_box(plans) {
                    black_box(find(plan, &mut table));
                }
            });
            times.push(all / plans.len() as f64);
        }
    }
    times.map(|times| median(&times))
}

/// Both finders give the same groups.
fn agree(plan: &Plan) -> Result<(), String> {
    let told = FINDERS.map(|find| {
        let mut table = vec![0; plan.vertices as usize];
        let answer = find(plan, &mut table);
        (answer, table)
    });
    if told[0] == told[1] && told[0].0.number == 0 {
        return Ok(());
    }
    let [proved, second] = told;
    Err(format!(
        "the proved one {proved:?}, the second {second:?}, for {plan:?}"
    ))
}

/// A row: each cell has a number for each order, or nothing at a size that the shape does not come to.
fn print(shape: &Shape, sizes: &[Sized]) {
    let (few, most) = (&sizes[0], &sizes[sizes.len() - 1]);
    let growth = few.cells.iter().zip(&most.cells);
    let mut cells = vec![
        shape.name.to_string(),
        whole(most.pieces),
        whole(most.tabs()),
    ];
    cells.extend(sizes.iter().map(|size| size.times(0)));
    cells.resize(3 + SIZES.len(), String::new());
    cells.push(numbers(growth.map(|(few, most)| most.growth(few))));
    cells.push(most.times(1));
    cells.push(numbers(most.cells.iter().map(Cell::ratio)));
    row(&cells);
}
