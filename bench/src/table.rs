//! Tables in Markdown, ready for docs/BENCHMARKS.md.

/// The head of a table, with these columns.
pub fn head(columns: &[&str]) {
    row(columns);
    println!("|{}", "---|".repeat(columns.len()));
}

pub fn row<Word: AsRef<str>>(cells: &[Word]) {
    let cells = cells.iter().map(|cell| format!(" {} |", cell.as_ref()));
    println!("|{}", cells.collect::<String>());
}

/// A measured number with three digits that count, but all before the point.
pub fn number(x: f64) -> String {
    let after = match x {
        x if x >= 999.5 => return whole(x.round() as usize),
        x if x >= 99.95 => 0,
        x if x >= 9.995 => 1,
        x if x >= 0.9995 => 2,
        _ => 3,
    };
    format!("{x:.after$}")
}

/// Several, one after the other.
pub fn numbers(all: impl Iterator<Item = f64>) -> String {
    all.map(number).collect::<Vec<_>>().join(", ")
}

/// A whole number below a million, with a comma after the thousands.
pub fn whole(n: usize) -> String {
    match n {
        0..1000 => n.to_string(),
        _ => format!("{},{:03}", n / 1000, n % 1000),
    }
}
