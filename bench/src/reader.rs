//! A second reader of plan and verdict texts: simple, unproved, and written from document 01 and note 2 of document 02 alone. Like the proved one it
//! fills a lent table, and leaves it as it was where it refuses; so it goes over the lines twice.

use crate::second::{self, Answer};

const WIDTH: usize = 5;

/// The numbers that the longest plan text lists, and the longest verdict text.
pub const TABLE: usize = 9_000;
pub const LIST: usize = 12_000;

/// How many pieces, tabs and slugs a plan text lists.
pub struct Counts {
    pub vertices: u16,
    pub tabs: usize,
    pub slugs: usize,
}

fn refused(number: u16) -> Answer {
    Answer { number, place: 0 }
}

/// The number in a column: blanks, then digits without zeros in front.
fn column(bytes: &[u8]) -> Option<u16> {
    let blanks = bytes.iter().take_while(|&&b| b == b' ').count();
    let digits = &bytes[blanks..];
    if digits.is_empty() || (digits.len() > 1 && digits[0] == b'0') {
        return None;
    }
    let mut number = 0u32;
    for &b in digits {
        if !b.is_ascii_digit() {
            return None;
        }
        number = 10 * number + (b - b'0') as u32;
    }
    number.try_into().ok()
}

const fn size(columns: usize) -> usize {
    columns * WIDTH + 1
}

/// The numbers of a line with so many columns, if it is in the form.
fn line<const COLUMNS: usize>(bytes: &[u8]) -> Option<[u16; COLUMNS]> {
    if bytes.len() != size(COLUMNS) || bytes[COLUMNS * WIDTH] != b'\n' {
        return None;
    }
    let mut numbers = [0; COLUMNS];
    for (number, bytes) in numbers.iter_mut().zip(bytes.chunks_exact(WIDTH)) {
        *number = column(bytes)?;
    }
    Some(numbers)
}

/// The numbers of a text's lines.
fn lines<const COLUMNS: usize>(text: &[u8]) -> impl Iterator<Item = Option<[u16; COLUMNS]>> {
    text.chunks(size(COLUMNS)).map(line)
}

/// Fills the front of a table with the numbers of lines that are in the form.
fn store<const COLUMNS: usize>(text: &[u8], table: &mut [u16]) {
    for (numbers, places) in lines::<COLUMNS>(text).zip(table.chunks_exact_mut(COLUMNS)) {
        places.copy_from_slice(&numbers.expect("a line in the form"));
    }
}

/// The counts of a plan's first line, and the text behind it: two columns where there is no slug, else three.
fn plan_header(text: &[u8]) -> Option<(Counts, &[u8])> {
    let front = |columns| text.split_at_checked(size(columns));
    let short = front(2).and_then(|(first, rest)| Some((line(first)?, rest)));
    let ([vertices, tabs, slugs], rest) = match short {
        Some(([vertices, tabs], rest)) => ([vertices, tabs, 0], rest),
        None => {
            let (first, rest) = front(3)?;
            let numbers: [u16; 3] = line(first)?;
            (1..=numbers[0])
                .contains(&numbers[2])
                .then_some((numbers, rest))?
        }
    };
    let counts = Counts {
        vertices,
        tabs: tabs as usize,
        slugs: slugs as usize,
    };
    Some((counts, rest))
}

/// Reads a plan text into a table: the ends of the tabs, and directly behind them the slugs.
pub fn read_plan(text: &[u8], table: &mut [u16]) -> Result<Counts, Answer> {
    let (counts, rest) = plan_header(text).ok_or(refused(7))?;
    second::admit_counts(counts.vertices, counts.tabs)?;
    if table.len() < 2 * counts.tabs + counts.slugs {
        return Err(refused(6));
    }
    if rest.len() != counts.tabs * size(2) + counts.slugs * size(1) {
        return Err(refused(7));
    }
    let (tabs, slugs) = rest.split_at(counts.tabs * size(2));
    judge_lines(&counts, tabs, slugs)?;
    store::<2>(tabs, table);
    store::<1>(slugs, &mut table[2 * counts.tabs..]);
    Ok(counts)
}

/// 7 for any line, then the first tab with 4 or 5, the first slug with 18, and 19.
fn judge_lines(counts: &Counts, tabs: &[u8], slugs: &[u8]) -> Result<(), Answer> {
    let vertices = counts.vertices;
    let mut answer = Ok(());
    for (tab, ends) in lines::<2>(tabs).enumerate() {
        let ends = ends.ok_or(refused(7))?;
        answer = answer.and_then(|()| second::admit_tab(vertices, ends, tab));
    }
    let mut before = None;
    for (position, slug) in lines::<1>(slugs).enumerate() {
        let [slug] = slug.ok_or(refused(7))?;
        answer = answer.and_then(|()| second::admit_slug(vertices, before, slug, position));
        before = Some(slug);
    }
    answer.and_then(|()| second::admit_kept(vertices, counts.slugs))
}

/// Reads a verdict text into a list: its kind, and how many numbers the list has.
pub fn read_verdict(text: &[u8], list: &mut [u16]) -> Result<(u16, usize), Answer> {
    let (first, rest) = text.split_at_checked(size(2)).ok_or(refused(8))?;
    let [kind, count] = line(first).ok_or(refused(8))?;
    let (rows, columns) = match (kind, count) {
        (0, 0..=4000) => (count as usize, 3),
        (1, 0..=2) => (count as usize, 1),
        (2, 1..=7 | 18 | 19) => (0, 1),
        _ => return Err(refused(8)),
    };
    let length = if kind == 2 { 1 } else { rows * columns };
    if list.len() < length {
        return Err(refused(6));
    }
    let fit = match columns {
        3 => lines::<3>(rest).all(|row| row.is_some()),
        _ => lines::<1>(rest).all(|row| row.is_some()),
    };
    if rest.len() != rows * size(columns) || !fit {
        return Err(refused(8));
    }
    match kind {
        0 => store::<3>(rest, list),
        1 => store::<1>(rest, list),
        _ => list[0] = count,
    }
    Ok((kind, length))
}
