//! How much stack each exported function takes at the largest inputs, beside what the headers ask for.
//!
//! Each call is made on a stack of its own: a block of memory, painted before, to whose upper end the stack pointer is set for the
//! call alone. What the call takes is the distance from there down to the lowest byte that has lost its paint. That includes the
//! arguments behind the sixth, which do not go in registers, the return address, and what `memcpy` and `memset` of this machine's C
//! library take, and nothing else of the caller. A byte that is written with the paint's own value would not show, so each call is made on two paints.
//! What a function sets aside below its lowest write does not show, and needs no memory.

use crate::archive::{self, Exported};
use crate::damage::number;
use crate::fallen::Fallen;
use crate::group_shapes::grouped;
use crate::grow::{Family, grow};
use crate::plan::{Case, Plan};
use crate::random::Random;
use crate::shapes::{ORDERS, Order, shapes};
use crate::slugs;
use crate::table::{head, row, whole};
use crate::texts;
use std::arch::asm;

const HEADERS: &str = concat!(
    include_str!("../../include/hearthtansy.h"),
    include_str!("../../include/hearthtansy_writer.h")
);
const PIECES: usize = 1000;
const TABS: usize = 4000;
/// Damaged ones of each verdict and each plan.
const DAMAGED: usize = 8;
/// Slugs of a plan that has any; each has four tabs.
const SLUGS: usize = 125;
/// How many arguments go in registers.
const REGISTERS: usize = 6;
/// The block, in words of 16 bytes, and its two paints.
const WORDS: usize = 1 << 14;
const PAINTS: [u128; 2] = [
    u128::from_ne_bytes([0x5a; 16]),
    u128::from_ne_bytes([0xc3; 16]),
];

/// The deepest use of a function, and over how many inputs.
pub struct Use {
    pub name: &'static str,
    pub bytes: usize,
    pub inputs: usize,
}

/// Prints a table: the deepest use of each function; then what a plan text takes while it is read. More than a header asks for is an error.
pub fn run() -> Result<(), String> {
    head(&["function", "stack, bytes", "its header asks for", "inputs"]);
    let mut done = Ok(());
    for Use {
        name,
        bytes,
        inputs,
    } in measure()?
    {
        let asked = asked(name)?;
        let [taken, header, inputs] = [bytes, asked, inputs].map(whole);
        row(&[format!("`{name}`"), taken, header, inputs]);
        if asked < bytes {
            done = Err(format!("{name} takes more stack than its header asks for"));
        }
    }
    let bytes = whole(reading()?);
    println!("\n`hearthtansy_check_texts`, a plan text refused at its last byte: {bytes}");
    done
}

/// What the check of a plan text that is refused at its last byte takes: its tables, and reading.
fn reading() -> Result<usize, String> {
    let mut stack = Stack::new();
    let case = grow(&mut Random::new(1), Family::Short, PIECES, TABS);
    let [mut plan, verdict] = texts_of(&case);
    *plan.last_mut().expect("a text has a last byte") = b' ';
    stack.check_texts(&plan, &verdict)?;
    Ok(stack.uses[Exported::CheckTexts as usize].bytes)
}

/// The bytes of stack that a function's header asks for.
fn asked(name: &str) -> Result<usize, String> {
    let define = format!("#define {}_STACK ", name.to_uppercase());
    let mut bytes = HEADERS
        .lines()
        .filter_map(|line| line.strip_prefix(&define));
    let bytes = bytes.next().and_then(|bytes| bytes.parse().ok());
    bytes.ok_or(format!("no header says how much stack {name} takes"))
}

/// The deepest use of each function over firm, weak, refused, damaged and rejected inputs of 1,000 pieces and 4,000 tabs, without slugs and with.
fn measure() -> Result<Vec<Use>, String> {
    let mut random = Random::new(1);
    let mut stack = Stack::new();
    for family in [Family::Short, Family::Long, Family::Far] {
        let case = grow(&mut random, family, PIECES, TABS);
        stack.verdicts(&mut random, &case)?;
        let mut kept = grow(&mut random, family, PIECES - SLUGS, TABS - 4 * SLUGS);
        slugs::put_many(&mut random, &mut kept, SLUGS as u16);
        stack.verdicts(&mut random, &kept)?;
        stack.plans(&mut random, &kept.plan)?;
        stack.plan_groups(&mut random, &kept.plan)?;
    }
    for shape in shapes() {
        for order in ORDERS {
            let plan = shape.plan(&mut random, TABS, order);
            stack.plans(&mut random, &plan)?;
        }
    }
    for shape in grouped() {
        let plan = shape.plan(&mut random, TABS, Order::Shuffled);
        stack.plan_groups(&mut random, &plan)?;
    }
    Ok(stack.uses)
}

/// A block of memory that calls are made on, and what they have taken so far, in the order of `archive::EXPORTED`.
struct Stack {
    block: Vec<u128>,
    uses: Vec<Use>,
}

impl Stack {
    fn new() -> Stack {
        let unused = |&(_, name)| Use {
            name,
            bytes: 0,
            inputs: 0,
        };
        Stack {
            block: vec![0; WORDS],
            uses: archive::EXPORTED.iter().map(unused).collect(),
        }
    }

    /// Makes a call on each paint and keeps what it took, if that is the most so far.
    fn call(&mut self, which: Exported, words: &[usize]) -> Result<u64, String> {
        let (address, _) = archive::EXPORTED[which as usize];
        let mut told = [0; 2];
        for (paint, told) in PAINTS.into_iter().zip(&mut told) {
            self.block.fill(paint);
            let top = self.arguments(words);
            // SAFETY: the words are what the function asks for, and the block is not used meanwhile but as its stack.
            *told = unsafe { on_stack(top, address, in_registers(words)) };
            let bytes = self.taken(paint)?;
            let deepest = &mut self.uses[which as usize].bytes;
            *deepest = bytes.max(*deepest);
        }
        self.uses[which as usize].inputs += 1;
        if told[0] != told[1] {
            return Err(format!("two answers to one input: {told:?}"));
        }
        Ok(told[0])
    }

    /// Puts the words behind the sixth at the end of the block, two to each of its own. What they leave of it is the stack below them.
    fn arguments(&mut self, words: &[usize]) -> *mut u128 {
        let behind = words.get(REGISTERS..).unwrap_or(&[]).chunks(2);
        let first = WORDS - behind.len();
        for (place, pair) in self.block[first..].iter_mut().zip(behind) {
            let [low, high] = [0, 1].map(|i| pair.get(i).map_or(0, |&word| word as u128));
            *place = high << 64 | low;
        }
        // the end of the block, if nothing is put there
        self.block.as_mut_ptr().wrapping_add(first)
    }

    /// How many bytes there are from the lowest one that has lost its paint to the end of the block.
    fn taken(&self, paint: u128) -> Result<usize, String> {
        let kept = self.block.iter().take_while(|&&word| word == paint).count();
        let Some(word) = self.block.get(kept) else {
            return Ok(0);
        };
        if kept == 0 {
            return Err("the block is too small for a stack".to_string());
        }
        let (is, was) = (word.to_ne_bytes(), paint.to_ne_bytes());
        let more = is.iter().zip(was).take_while(|(is, was)| *is == was);
        Ok((WORDS - kept) * 16 - more.count())
    }

    fn check(&mut self, case: &Case) -> Result<u64, String> {
        let mut words = plan_words(&case.plan);
        let list = &case.list;
        words.extend([case.kind as usize, list.as_ptr() as usize, list.len()]);
        self.call(Exported::Check, &words)
    }

    fn check_texts(&mut self, plan: &[u8], verdict: &[u8]) -> Result<(), String> {
        let [text, length] = [verdict.as_ptr() as usize, verdict.len()];
        let words = [plan.as_ptr() as usize, plan.len(), text, length];
        self.call(Exported::CheckTexts, &words)?;
        Ok(())
    }

    /// A verdict as it is, damaged, and of other kinds, as numbers and as texts.
    fn verdicts(&mut self, random: &mut Random, case: &Case) -> Result<(), String> {
        self.both(case)?;
        for _ in 0..DAMAGED {
            let mut damaged = case.clone();
            number(random, &mut damaged);
            self.both(&damaged)?;
        }
        let [plan, verdict] = texts_of(case);
        for _ in 0..DAMAGED {
            let [mut plan, mut verdict] = [plan.clone(), verdict.clone()];
            texts::damage(random, &mut verdict);
            self.check_texts(&plan, &verdict)?;
            texts::damage(random, &mut plan);
            self.check_texts(&plan, &verdict)?;
        }
        let last = case.plan.tabs() as u16 - 1;
        for kind in 0..4 {
            for list in [vec![], vec![last], vec![0, last], vec![last, 0, 0]] {
                let case = case.clone();
                self.both(&Case { kind, list, ..case })?;
            }
        }
        Ok(())
    }

    /// A verdict as numbers and as texts.
    fn both(&mut self, case: &Case) -> Result<(), String> {
        self.check(case)?;
        let [plan, verdict] = texts_of(case);
        self.check_texts(&plan, &verdict)
    }

    fn verdict(&mut self, plan: &Plan, rows: &mut [u16]) -> Result<u64, String> {
        let mut fallen = Fallen::default();
        let mut words = plan_words(plan);
        words.extend([rows.as_mut_ptr() as usize, rows.len()]);
        words.extend([
            fallen.words.as_mut_ptr() as usize,
            &raw mut fallen.count as usize,
        ]);
        self.call(Exported::Verdict, &words)
    }

    fn verdict_text(&mut self, plan: &[u8], text: &mut [u8]) -> Result<usize, String> {
        let [written, length] = [text.as_mut_ptr() as usize, text.len()];
        let words = [plan.as_ptr() as usize, plan.len(), written, length];
        Ok(self.call(Exported::VerdictText, &words)? as usize)
    }

    fn fallen_text(&mut self, plan: &[u8], text: &mut [u8]) -> Result<usize, String> {
        let [written, length] = [text.as_mut_ptr() as usize, text.len()];
        let words = [plan.as_ptr() as usize, plan.len(), written, length];
        Ok(self.call(Exported::FallenText, &words)? as usize)
    }

    fn groups(&mut self, plan: &Plan, table: &mut [u16]) -> Result<(), String> {
        let mut words = plan_words(plan);
        words.extend([table.as_mut_ptr() as usize, table.len()]);
        self.call(Exported::Groups, &words)?;
        Ok(())
    }

    fn groups_text(&mut self, plan: &[u8], text: &mut [u8]) -> Result<usize, String> {
        let [written, length] = [text.as_mut_ptr() as usize, text.len()];
        let words = [plan.as_ptr() as usize, plan.len(), written, length];
        Ok(self.call(Exported::GroupsText, &words)? as usize)
    }

    /// The groups of a plan as it is, with too little space, refused and damaged, as numbers and as texts.
    fn plan_groups(&mut self, random: &mut Random, plan: &Plan) -> Result<(), String> {
        let mut table = vec![0; plan.vertices as usize];
        self.groups(plan, &mut table)?;
        self.groups(plan, &mut table[1..])?;
        let text = texts::write_plan(plan);
        let mut written = vec![0; 11 * table.len()];
        let length = self.groups_text(&text, &mut written)?;
        self.groups_text(&text, &mut written[..length - 1])?;
        for _ in 0..DAMAGED {
            let damaged = damaged(random, plan);
            self.groups(&damaged, &mut table)?;
            let mut text = texts::write_plan(&damaged);
            texts::damage(random, &mut text);
            self.groups_text(&text, &mut written)?;
        }
        Ok(())
    }

    /// A plan as it is, with too little space, refused and damaged, and the check of what is written, as numbers and as texts.
    fn plans(&mut self, random: &mut Random, plan: &Plan) -> Result<(), String> {
        let tabs = plan.tabs();
        let mut rows = vec![0; plan.record()];
        let told = self.verdict(plan, &mut rows)?;
        let [kind, count, first, second] = [48, 32, 16, 0].map(|bits| (told >> bits) as u16);
        let cut = [first, second][..(count as usize).min(2)].to_vec();
        let list = if kind == 0 { rows.clone() } else { cut };
        let case = Case {
            plan: plan.clone(),
            kind,
            list,
        };
        if self.check(&case)? != 0 {
            return Err(format!("the verdict does not pass: {case:?}"));
        }
        self.verdict(plan, &mut rows[1..])?;
        let text = texts::write_plan(plan);
        let mut written = vec![0; 16 * tabs + 11];
        let length = self.verdict_text(&text, &mut written)?;
        self.check_texts(&text, &written[..length])?;
        self.verdict_text(&text, &mut written[..length - 1])?;
        let length = self.fallen_text(&text, &mut written)?;
        self.fallen_text(&text, &mut written[..length - 1])?;
        for _ in 0..DAMAGED {
            let damaged = damaged(random, plan);
            self.verdict(&damaged, &mut rows)?;
            let mut text = texts::write_plan(&damaged);
            self.verdict_text(&text, &mut written)?;
            self.fallen_text(&text, &mut written)?;
            texts::damage(random, &mut text);
            self.verdict_text(&text, &mut written)?;
            self.fallen_text(&text, &mut written)?;
        }
        Ok(())
    }
}

/// A plan with an end or its slugs changed.
fn damaged(random: &mut Random, plan: &Plan) -> Plan {
    let mut damaged = plan.clone();
    if random.once_in(4) {
        slugs::spoil(random, &mut damaged);
    } else {
        let at = random.below(plan.ends.len());
        damaged.ends[at] = random.below(PIECES + 1) as u16;
    }
    damaged
}

/// The texts of a plan and of a verdict, also of one that has none.
fn texts_of(case: &Case) -> [Vec<u8>; 2] {
    let columns = if case.kind == 0 { 3 } else { 1 };
    [
        texts::write_plan(&case.plan),
        texts::write(case.kind, &case.list, columns),
    ]
}

/// A plan as the first arguments of a function.
fn plan_words(plan: &Plan) -> Vec<usize> {
    let (ends, slugs) = (&plan.ends, &plan.excluded);
    vec![
        plan.vertices as usize,
        ends.as_ptr() as usize,
        ends.len(),
        slugs.as_ptr() as usize,
        slugs.len(),
    ]
}

/// The first arguments; those that are not there are 0.
fn in_registers(words: &[usize]) -> [usize; REGISTERS] {
    std::array::from_fn(|i| words.get(i).copied().unwrap_or(0))
}

/// Calls a function with these words as its first arguments, on the stack that ends at `top`; the other arguments stand there.
///
/// # Safety
/// The function must take the words as its arguments, and the block below `top` must be large enough and its own for the call.
unsafe fn on_stack(top: *mut u128, function: *const (), words: [usize; REGISTERS]) -> u64 {
    let told;
    // SAFETY: r12 keeps the stack pointer, as the convention has the function preserve it; all that it may change is named.
    unsafe {
        asm!(
            "mov r12, rsp",
            "mov rsp, {top}",
            "call {function}",
            "mov rsp, r12",
            top = in(reg) top,
            function = in(reg) function,
            in("rdi") words[0],
            in("rsi") words[1],
            in("rdx") words[2],
            in("rcx") words[3],
            in("r8") words[4],
            in("r9") words[5],
            out("r12") _,
            lateout("rax") told,
            clobber_abi("sysv64"),
        );
    }
    told
}
