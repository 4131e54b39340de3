//! Damaged copies of files: wrong bytes, wrong lengths, wrong trailers, wrong fields, sections too
//! long or empty. The same edits serve sheets, panels and trees.

use crate::files::*;
use crate::random::Random;

/// The sections of a kind of file, by the size of their records; the last is the pool.
pub struct Plan {
    sizes: &'static [usize],
    /// The bytes of the trailer, and the longest file that is allowed.
    trailer: usize,
    longest: usize,
}

pub const SHEET: Plan = Plan { sizes: &[6, 4, 2, 8, 2, 2, 1], trailer: 18, longest: 8192 };
pub const PANEL: Plan = Plan { sizes: &[8, 2, 1], trailer: 8, longest: 16384 };
pub const TREE: Plan = Plan { sizes: &[12, 8, 4, 4, 6, 1], trailer: 14, longest: 65535 };

/// A damaged copy of a file that was well laid out.
pub fn damaged(random: &mut Random, plan: &Plan, bytes: &[u8]) -> Vec<u8> {
    let mut bytes = bytes.to_vec();
    let edits = if random.chance(1, 4) { random.between(2, 3) } else { 1 };
    for _ in 0..edits {
        match random.below(24) {
            0..=11 => field(random, plan, &mut bytes),
            12..=13 => flip(random, &mut bytes),
            14 => shorten(random, &mut bytes),
            15 => lengthen(random, &mut bytes),
            16..=17 => trailer_word(random, plan, &mut bytes),
            18..=19 => remove_record(random, plan, &mut bytes),
            20 => add_records(random, plan, &mut bytes, 1),
            21 => {
                let many = *random.pick(&[8, 32, 33, 64, 65, 129, 193, 257, 513]);
                add_records(random, plan, &mut bytes, many);
            }
            22 => empty_section(random, plan, &mut bytes),
            _ => move_start(random, plan, &mut bytes),
        }
    }
    if random.chance(1, 60) {
        pad(plan, &mut bytes, random.chance(1, 2));
    }
    bytes
}

/// A number near an old one, or an odd one.
fn near(random: &mut Random, old: u16) -> u16 {
    match random.below(8) {
        0 => old.wrapping_add(1),
        1 => old.wrapping_sub(1),
        2 => 0,
        3 => 1,
        4 => random.below(8) as u16,
        5 => random.below(200) as u16,
        6 => old ^ 256,
        _ => *random.pick(&[2, 64, 65, 192, 255, 256, 32768, 65535]),
    }
}

fn put_at(bytes: &mut [u8], at: usize, number: usize) {
    bytes[at..at + 2].copy_from_slice(&(number as u16).to_le_bytes());
}

/// Start and end of each section, if the trailer says so sensibly.
fn sections(plan: &Plan, bytes: &[u8]) -> Option<Vec<(usize, usize)>> {
    let trailer = bytes.len().checked_sub(plan.trailer)?;
    let mut starts: Vec<usize> =
        (0..plan.sizes.len()).map(|i| u16_at(bytes, trailer + 2 * i) as usize).collect();
    starts.push(trailer);
    starts.is_sorted().then(|| starts.windows(2).map(|w| (w[0], w[1])).collect())
}

/// A section with a record in it, and that record's start.
fn record(random: &mut Random, plan: &Plan, bytes: &[u8]) -> Option<(usize, usize)> {
    let sections = sections(plan, bytes)?;
    let able: Vec<usize> =
        (0..sections.len()).filter(|&i| sections[i].1 - sections[i].0 >= plan.sizes[i]).collect();
    if able.is_empty() {
        return None;
    }
    let section = *random.pick(&able);
    let (start, end) = sections[section];
    let number = random.below((end - start) / plan.sizes[section]);
    Some((section, start + number * plan.sizes[section]))
}

/// One field of one record.
fn field(random: &mut Random, plan: &Plan, bytes: &mut [u8]) {
    let Some((section, at)) = record(random, plan, bytes) else {
        return flip(random, bytes);
    };
    let size = plan.sizes[section];
    // Records of 6, 8 and 12 bytes begin with two single bytes.
    let single = size == 1 || (size >= 6 && random.chance(1, 3));
    if single {
        let at = at + random.below(size.min(2));
        bytes[at] = match random.below(4) {
            0 => bytes[at] ^ 1,
            1..=2 => random.below(11) as u8,
            _ => random.below(256) as u8,
        };
    } else {
        let from = if size >= 6 { 2 } else { 0 };
        let at = at + from + 2 * random.below((size - from) / 2);
        let new = near(random, u16_at(bytes, at));
        put_at(bytes, at, new as usize);
    }
}

fn flip(random: &mut Random, bytes: &mut [u8]) {
    if bytes.is_empty() {
        return;
    }
    let at = random.below(bytes.len());
    bytes[at] ^= 1 << random.below(8);
}

/// The trailer's last word made true, if there is one.
fn mend_length(bytes: &mut [u8]) {
    let length = bytes.len();
    if length >= 2 {
        put_at(bytes, length - 2, length);
    }
}

fn shorten(random: &mut Random, bytes: &mut Vec<u8>) {
    let less =
        if random.chance(1, 2) { random.between(1, 4) } else { random.below(bytes.len() + 1) };
    bytes.truncate(bytes.len().saturating_sub(less));
    if random.chance(1, 3) {
        mend_length(bytes);
    }
}

fn lengthen(random: &mut Random, bytes: &mut Vec<u8>) {
    for _ in 0..random.between(1, 20) {
        bytes.push(random.below(3) as u8);
    }
    if random.chance(1, 2) {
        mend_length(bytes);
    }
}

fn trailer_word(random: &mut Random, plan: &Plan, bytes: &mut [u8]) {
    let Some(trailer) = bytes.len().checked_sub(plan.trailer) else {
        return;
    };
    let at = trailer + 2 * random.below(plan.trailer / 2);
    let old = u16_at(bytes, at);
    let new = match random.below(4) {
        0 => old.wrapping_add(*random.pick(&[2, 4, 6, 8, 12])),
        1 => old.wrapping_sub(*random.pick(&[2, 4, 6, 8, 12])),
        _ => near(random, old),
    };
    put_at(bytes, at, new as usize);
}

/// Replaces bytes of a section, with starts and length kept true.
fn splice(plan: &Plan, bytes: &mut Vec<u8>, section: usize, at: usize, less: usize, more: &[u8]) {
    bytes.splice(at..at + less, more.iter().copied());
    let trailer = bytes.len() - plan.trailer;
    for i in section + 1..plan.sizes.len() {
        let start = u16_at(bytes, trailer + 2 * i) as usize;
        put_at(bytes, trailer + 2 * i, start + more.len() - less);
    }
    mend_length(bytes);
}

fn remove_record(random: &mut Random, plan: &Plan, bytes: &mut Vec<u8>) {
    if let Some((section, at)) = record(random, plan, bytes) {
        splice(plan, bytes, section, at, plan.sizes[section], &[]);
    }
}

/// Copies of one record, put where it stands.
fn add_records(random: &mut Random, plan: &Plan, bytes: &mut Vec<u8>, many: usize) {
    if let Some((section, at)) = record(random, plan, bytes) {
        let size = plan.sizes[section];
        if bytes.len() + many * size <= plan.longest {
            let copy = bytes[at..at + size].repeat(many);
            splice(plan, bytes, section, at, 0, &copy);
        }
    }
}

fn empty_section(random: &mut Random, plan: &Plan, bytes: &mut Vec<u8>) {
    let section = random.below(plan.sizes.len());
    if let Some(sections) = sections(plan, bytes) {
        let (start, end) = sections[section];
        splice(plan, bytes, section, start, end - start, &[]);
    }
}

/// One start moved by one record of the section before it or after it.
fn move_start(random: &mut Random, plan: &Plan, bytes: &mut [u8]) {
    let Some(trailer) = bytes.len().checked_sub(plan.trailer) else {
        return;
    };
    let section = random.below(plan.sizes.len());
    let size = plan.sizes[section.saturating_sub(random.below(2))] as u16;
    let at = trailer + 2 * section;
    let old = u16_at(bytes, at);
    let new = if random.chance(1, 2) { old.wrapping_add(size) } else { old.wrapping_sub(size) };
    put_at(bytes, at, new as usize);
}

/// The pool made so long that the file has its longest length, or one byte more.
fn pad(plan: &Plan, bytes: &mut Vec<u8>, over: bool) {
    let longest = plan.longest.min(65534) + over as usize;
    if bytes.len() >= plan.trailer && bytes.len() < longest {
        let more = vec![b'0'; longest - bytes.len()];
        let at = bytes.len() - plan.trailer;
        splice(plan, bytes, plan.sizes.len() - 1, at, 0, &more);
    }
}

/// Changes one record of a panel so that it keeps its shape but hardly its type.
pub fn misfit(random: &mut Random, panel: &mut Panel) {
    let at = random.below(panel.records.len());
    let r = &mut panel.records[at];
    match r.kind {
        V_INT | V_BYTES if r.kind == V_INT || random.chance(1, 2) => r.kind = 1 - r.kind,
        V_CONSTR if random.chance(2, 3) => {
            r.a = if random.chance(1, 2) { r.a ^ 1 } else { random.below(9) as u16 };
        }
        V_BYTES => r.kind = V_LIST,
        kind => {
            let kinds =
                if r.count == 2 { &[V_LIST, V_PAIR, V_TUPLE][..] } else { &[V_LIST, V_TUPLE] };
            r.a = 0;
            r.kind = *random.pick(kinds);
            if r.kind == kind {
                r.kind = V_CONSTR;
            }
        }
    }
}
