//! How much processor time a proved function takes on shapes beside the second one, and how that grows: for each tab, at three sizes, with the
//! tabs numbered up, down and shuffled.

use crate::plan::Plan;
use crate::random::Random;
use crate::shapes::{ORDERS, Order, Shape};
use crate::table::{head, number, numbers, row, whole};

const SIZES: [usize; 3] = [100, 1000, 4000];
/// How many tabs the plans of a shape, size and order have together: so many that a processor which has seen them all does not know each again.
pub const TABS: usize = 12_000;

/// The tabs of a shape in an order at a size, and the median nanoseconds of one call of the proved function and of the second one.
pub struct Cell {
    pub order: Order,
    pub tabs: usize,
    pub times: [f64; 2],
}

impl Cell {
    /// Nanoseconds of the proved function and of the second one for each tab.
    fn each(&self) -> [f64; 2] {
        self.times.map(|time| time / self.tabs as f64)
    }

    pub fn ratio(&self) -> f64 {
        self.times[0] / self.times[1]
    }

    /// The time for each tab against that of another size.
    pub fn growth(&self, before: &Cell) -> f64 {
        self.each()[0] / before.each()[0]
    }
}

/// The largest number so far, and what it belongs to.
#[derive(Default)]
pub struct Worst {
    pub most: f64,
    pub of: String,
}

impl Worst {
    pub fn meet(&mut self, x: f64, shape: &Shape, order: Order) {
        if x > self.most {
            self.most = x;
            self.of = format!("{}, {}", shape.name, order.name());
        }
    }

    pub fn print(&self, what: &str) {
        println!("{what}: × {} ({})", number(self.most), self.of);
    }
}

/// Prints a table with a row for each shape, then the worst of all: `measure` gives the median nanoseconds of both functions over some plans.
pub fn table(
    name: &str,
    shapes: &[Shape],
    measure: impl Fn(Vec<Plan>) -> Result<[f64; 2], String>,
) -> Result<(), String> {
    head(&[
        name,
        "pieces",
        "tabs",
        "proved, ns for each tab, at 100",
        "at 1,000",
        "at most",
        "most against 100",
        "second, at most",
        "proved against second",
    ]);
    let mut random = Random::new(1);
    let (mut growth, mut ratio) = (Worst::default(), Worst::default());
    for shape in shapes {
        let mut pieces = 0;
        let mut cells = |size| -> Result<Vec<Cell>, String> {
            let cell = |&order| {
                let plans = (0..TABS / size).map(|_| shape.plan(&mut random, size, order));
                let plans: Vec<Plan> = plans.collect();
                pieces = plans[0].vertices as usize;
                let tabs = plans[0].tabs();
                let times = measure(plans).map_err(|why| format!("{}: {why}", shape.name))?;
                Ok(Cell { order, tabs, times })
            };
            ORDERS.iter().map(cell).collect()
        };
        let [few, some, most] = [cells(SIZES[0])?, cells(SIZES[1])?, cells(SIZES[2])?];
        for (few, most) in few.iter().zip(&most) {
            growth.meet(most.growth(few), shape, most.order);
            ratio.meet(most.ratio(), shape, most.order);
        }
        print(shape, pieces, [&few, &some, &most]);
    }
    println!();
    growth.print("the highest of most against 100");
    ratio.print("the highest of proved against second");
    Ok(())
}

/// A row: each cell has a number for each order.
fn print(shape: &Shape, pieces: usize, [few, some, most]: [&[Cell]; 3]) {
    let proved = |cells: &[Cell]| numbers(cells.iter().map(|cell| cell.each()[0]));
    let growth = few.iter().zip(most).map(|(few, most)| most.growth(few));
    row(&[
        shape.name.to_string(),
        whole(pieces),
        whole(most[0].tabs),
        proved(few),
        proved(some),
        proved(most),
        numbers(growth),
        numbers(most.iter().map(|cell| cell.each()[1])),
        numbers(most.iter().map(Cell::ratio)),
    ]);
}
