//! The proved check, the proved writer with the pieces that would fall, and the proved finder of groups, from their static libraries.

use crate::fallen::Fallen;
use crate::plan::Plan;
use crate::second::Answer;
use crate::writer::Verdict;

unsafe extern "C" {
    fn hearthtansy_check(
        vertices: u16,
        ends: *const u16,
        ends_length: usize,
        excluded: *const u16,
        excluded_length: usize,
        kind: u16,
        list: *const u16,
        list_length: usize,
    ) -> u32;

    fn hearthtansy_check_texts(
        plan: *const u8,
        plan_length: usize,
        verdict: *const u8,
        verdict_length: usize,
    ) -> u32;

    fn hearthtansy_verdict(
        vertices: u16,
        ends: *const u16,
        ends_length: usize,
        excluded: *const u16,
        excluded_length: usize,
        rows: *mut u16,
        rows_length: usize,
        fallen: *mut u64,
        fallen_count: *mut u16,
    ) -> u64;

    fn hearthtansy_verdict_text(
        plan: *const u8,
        plan_length: usize,
        text: *mut u8,
        text_length: usize,
    ) -> u64;

    fn hearthtansy_fallen_text(
        plan: *const u8,
        plan_length: usize,
        text: *mut u8,
        text_length: usize,
    ) -> usize;

    fn hearthtansy_groups(
        vertices: u16,
        ends: *const u16,
        ends_length: usize,
        excluded: *const u16,
        excluded_length: usize,
        table: *mut u16,
        table_length: usize,
    ) -> u32;

    fn hearthtansy_groups_text(
        plan: *const u8,
        plan_length: usize,
        text: *mut u8,
        text_length: usize,
    ) -> usize;
}

/// The exported functions, in the order of their addresses and names below.
#[derive(Clone, Copy)]
pub enum Exported {
    Check,
    CheckTexts,
    Verdict,
    VerdictText,
    FallenText,
    Groups,
    GroupsText,
}

pub const EXPORTED: [(*const (), &str); 7] = [
    (hearthtansy_check as *const (), "hearthtansy_check"),
    (
        hearthtansy_check_texts as *const (),
        "hearthtansy_check_texts",
    ),
    (hearthtansy_verdict as *const (), "hearthtansy_verdict"),
    (
        hearthtansy_verdict_text as *const (),
        "hearthtansy_verdict_text",
    ),
    (
        hearthtansy_fallen_text as *const (),
        "hearthtansy_fallen_text",
    ),
    (hearthtansy_groups as *const (), "hearthtansy_groups"),
    (
        hearthtansy_groups_text as *const (),
        "hearthtansy_groups_text",
    ),
];

/// An answer from number x 65,536 + place.
fn answer(told: u32) -> Answer {
    Answer {
        number: (told >> 16) as u16,
        place: told as u16,
    }
}

pub fn check(plan: &Plan, kind: u16, list: &[u16]) -> Answer {
    // SAFETY: all lists are lent for the call, with their own lengths, and are only read.
    let told = unsafe {
        hearthtansy_check(
            plan.vertices,
            plan.ends.as_ptr(),
            plan.ends.len(),
            plan.excluded.as_ptr(),
            plan.excluded.len(),
            kind,
            list.as_ptr(),
            list.len(),
        )
    };
    answer(told)
}

pub fn check_texts(plan: &[u8], verdict: &[u8]) -> Answer {
    // SAFETY: both texts are lent for the call, with their own lengths, and are only read.
    let told = unsafe {
        hearthtansy_check_texts(plan.as_ptr(), plan.len(), verdict.as_ptr(), verdict.len())
    };
    answer(told)
}

pub fn verdict(plan: &Plan, rows: &mut [u16], fallen: &mut Fallen) -> Verdict {
    // SAFETY: all lists are lent for the call, with their own lengths; only the rows, the words and the count are written.
    let told = unsafe {
        hearthtansy_verdict(
            plan.vertices,
            plan.ends.as_ptr(),
            plan.ends.len(),
            plan.excluded.as_ptr(),
            plan.excluded.len(),
            rows.as_mut_ptr(),
            rows.len(),
            fallen.words.as_mut_ptr(),
            &mut fallen.count,
        )
    };
    [48, 32, 16, 0].map(|bits| (told >> bits) as u16)
}

/// How many bytes of the text are written.
pub fn verdict_text(plan: &[u8], text: &mut [u8]) -> usize {
    // SAFETY: both texts are lent for the call, with their own lengths; only the second is written.
    let written = unsafe {
        hearthtansy_verdict_text(plan.as_ptr(), plan.len(), text.as_mut_ptr(), text.len())
    };
    written as usize
}

/// How many bytes of the text are written.
pub fn fallen_text(plan: &[u8], text: &mut [u8]) -> usize {
    // SAFETY: both texts are lent for the call, with their own lengths; only the second is written.
    unsafe { hearthtansy_fallen_text(plan.as_ptr(), plan.len(), text.as_mut_ptr(), text.len()) }
}

pub fn groups(plan: &Plan, table: &mut [u16]) -> Answer {
    // SAFETY: all lists are lent for the call, with their own lengths; only the table is written.
    let told = unsafe {
        hearthtansy_groups(
            plan.vertices,
            plan.ends.as_ptr(),
            plan.ends.len(),
            plan.excluded.as_ptr(),
            plan.excluded.len(),
            table.as_mut_ptr(),
            table.len(),
        )
    };
    answer(told)
}

/// How many bytes of the text are written.
pub fn groups_text(plan: &[u8], text: &mut [u8]) -> usize {
    // SAFETY: both texts are lent for the call, with their own lengths; only the second is written.
    unsafe { hearthtansy_groups_text(plan.as_ptr(), plan.len(), text.as_mut_ptr(), text.len()) }
}
