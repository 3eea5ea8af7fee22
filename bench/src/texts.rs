//! The second check of a plan text and a verdict text, and random texts to read.

use crate::plan::{Case, Plan};
use crate::random::Random;
use crate::reader;
use crate::second::{self, Answer};

/// The answer to a plan text and a verdict text.
pub fn check(plan: &[u8], verdict: &[u8]) -> Answer {
    judge(plan, verdict).unwrap_or_else(|refused| refused)
}

fn judge(plan: &[u8], verdict: &[u8]) -> Result<Answer, Answer> {
    let plan = read_plan(plan)?;
    let (kind, list) = read_verdict(verdict)?;
    Ok(second::check(&plan, kind, &list))
}

/// The plan of a text, if it is in the form and admitted.
pub fn read_plan(text: &[u8]) -> Result<Plan, Answer> {
    let mut ends = vec![0; reader::TABLE];
    let counts = reader::read_plan(text, &mut ends)?;
    let mut excluded = ends.split_off(2 * counts.tabs);
    excluded.truncate(counts.slugs);
    Ok(Plan {
        vertices: counts.vertices,
        ends,
        excluded,
    })
}

fn read_verdict(text: &[u8]) -> Result<(u16, Vec<u16>), Answer> {
    let mut list = vec![0; reader::LIST];
    let (kind, length) = reader::read_verdict(text, &mut list)?;
    list.truncate(length);
    Ok((kind, list))
}

/// The texts of a case, some of them damaged.
pub fn random_texts(random: &mut Random, case: &Case) -> [Vec<u8>; 2] {
    let columns = if case.kind == 0 { 3 } else { 1 };
    let plan = random_plan(random, &case.plan, 4);
    let mut verdict = write(case.kind, &case.list, columns);
    if random.once_in(8) {
        verdict = format!("{:>5}{:>5}\n", 2, random.below(22)).into_bytes();
    }
    while random.once_in(4) {
        damage(random, &mut verdict);
    }
    [plan, verdict]
}

/// The text of a plan; one of so many has a byte changed, one of twice so many its lines.
pub fn random_plan(random: &mut Random, plan: &Plan, times: usize) -> Vec<u8> {
    let mut lines = plan_rows(plan);
    while random.once_in(2 * times) {
        change(random, &mut lines, plan);
    }
    let mut text = text_of(&lines);
    while random.once_in(times) {
        damage(random, &mut text);
    }
    text
}

/// The text of a plan, also of one that has none: an end too many stands alone on its line.
pub fn write_plan(plan: &Plan) -> Vec<u8> {
    text_of(&plan_rows(plan))
}

/// The numbers of each line.
type Rows = Vec<Vec<u32>>;

fn plan_rows(plan: &Plan) -> Rows {
    let tabs = plan.ends.chunks(2);
    let counts = [plan.vertices as usize, tabs.len(), plan.excluded.len()];
    let columns = if counts[2] == 0 { 2 } else { 3 };
    let mut rows = vec![counts[..columns].iter().map(|&n| n as u32).collect()];
    let numbers = |row: &[u16]| row.iter().map(|&n| n as u32).collect();
    rows.extend(tabs.chain(plan.excluded.chunks(1)).map(numbers));
    rows
}

fn text_of(rows: &Rows) -> Vec<u8> {
    let mut text = String::new();
    for row in rows {
        row.iter()
            .for_each(|number| text += &format!("{number:>5}"));
        text += "\n";
    }
    text.into_bytes()
}

/// A third column that the form does not have or that tells a wrong count, lines too few or too many or in other places, a line with another
/// number of columns, or a number above 65,535 that looks like the right one in sixteen bits.
fn change(random: &mut Random, rows: &mut Rows, plan: &Plan) {
    let at = random.below(rows.len()).max(random.below(rows.len()));
    match random.below(12) {
        0 => third(rows, 0),
        1 => third(rows, plan.vertices as u32 + 1 + random.below(3) as u32),
        2 => rows[0].truncate(2),
        3 => third(rows, plan.excluded.len() as u32 + 1),
        4 => third(rows, plan.excluded.len().saturating_sub(1) as u32),
        5 => rows[0].push(random.below(3) as u32),
        6 => rows[at].push(random.below(plan.vertices as usize + 1) as u32),
        7 if rows.len() > 1 => _ = rows.remove(at),
        8 => rows.push(vec![random.below(plan.vertices as usize + 1) as u32]),
        9 => {
            let behind = plan.excluded.len().min(rows.len() - 1);
            rows[1..].rotate_right(behind);
        }
        10 => _ = rows[at].pop(),
        _ => {
            let column = random.below(rows[at].len().max(1));
            rows[at]
                .iter_mut()
                .skip(column)
                .take(1)
                .for_each(|n| *n += 65536);
        }
    }
}

/// A header with this third column.
fn third(rows: &mut Rows, count: u32) {
    rows[0].truncate(2);
    rows[0].push(count);
}

/// A header with a number and the count of the lines, then the lines.
pub fn write(first: u16, numbers: &[u16], columns: usize) -> Vec<u8> {
    let rows = numbers.chunks(columns);
    let mut text = format!("{first:>5}{:>5}\n", rows.len());
    for row in rows {
        for number in row {
            text += &format!("{number:>5}");
        }
        text += "\n";
    }
    text.into_bytes()
}

/// Lines of one number each, without a header.
pub fn lines(numbers: &[u16]) -> Vec<u8> {
    let lines = numbers.iter().map(|number| format!("{number:>5}\n"));
    lines.collect::<String>().into_bytes()
}

/// A byte more, less or changed, or the end cut off.
pub fn damage(random: &mut Random, text: &mut Vec<u8>) {
    const BYTES: &[u8] = b"  01239\n\r\t-+x\0\xff";
    let byte = BYTES[random.below(BYTES.len())];
    let at = random.below(text.len() + 1);
    match random.below(4) {
        0 => text.truncate(at),
        1 => text.insert(at, byte),
        _ if at == text.len() => text.push(byte),
        2 => _ = text.remove(at),
        _ => text[at] = byte,
    }
}
