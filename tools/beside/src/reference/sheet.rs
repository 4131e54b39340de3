//! Refusals 2 to 11 of a sheet, and the sheet as what follows reads it.

use super::{Refusal, canonical, laid_out, refused, refused_at, run_inside};
use crate::files::*;

/// A sheet that passed 2 to 11, with the type of every pattern.
pub struct Checked {
    pub sheet: Sheet,
    pub type_of: Vec<u16>,
}

impl Checked {
    /// The patterns in a pattern's own list.
    pub fn parts(&self, pattern: usize) -> &[u16] {
        parts(&self.sheet, pattern)
    }

    /// The text of an integer or byte string pattern.
    pub fn text(&self, pattern: usize) -> &[u8] {
        text(&self.sheet, pattern)
    }

    pub fn pattern_type(&self, pattern: usize) -> TypeRecord {
        self.sheet.types[self.type_of[pattern] as usize]
    }

    /// The field types of constructor `which` of a Data type.
    pub fn fields(&self, data: TypeRecord, which: u16) -> &[u16] {
        fields(&self.sheet, data, which)
    }
}

/// Refusals 2 to 11, in order.
pub fn check(bytes: &[u8]) -> Result<Checked, Refusal> {
    let sheet = open(bytes)?;
    if sheet.clauses.is_empty() {
        return refused(4);
    }
    if sheet.types.len() > 64
        || sheet.constructors.len() > 128
        || sheet.type_list.len() > 256
        || sheet.patterns.len() > 192
        || sheet.children.len() > 192
        || sheet.clauses.len() > 32
    {
        return refused(5);
    }
    if !types_keep_rules(&sheet) {
        return refused(6);
    }
    if let Some(place) = (0..sheet.types.len()).find(|&t| transparent(&sheet, sheet.types[t])) {
        return refused_at(7, place);
    }
    if !patterns_keep_shape(&sheet) {
        return refused(8);
    }
    if let Some(place) = (0..sheet.patterns.len()).find(|&p| bad_text(&sheet, p)) {
        return refused_at(9, place);
    }
    let mut type_of = vec![0; sheet.patterns.len()];
    for (clause, &root) in sheet.clauses.iter().enumerate() {
        if !fits(&sheet, root, sheet.subject, &mut type_of) {
            return refused_at(10, clause);
        }
    }
    for (clause, &root) in sheet.clauses.iter().enumerate() {
        let mut names = Vec::new();
        names_of(&sheet, root, &mut names);
        let all = names.len();
        names.sort();
        names.dedup();
        if names.len() < all {
            return refused_at(11, clause);
        }
    }
    Ok(Checked { sheet, type_of })
}

/// Refusals 2 and 3; the records as they stand.
pub fn open(bytes: &[u8]) -> Result<Sheet, Refusal> {
    let length = bytes.len();
    if !(18..=8192).contains(&length) || u16_at(bytes, length - 2) as usize != length {
        return refused(2);
    }
    let trailer = length - 18;
    let starts: Vec<usize> = (0..7).map(|i| u16_at(bytes, trailer + 2 * i) as usize).collect();
    if !laid_out(&starts, &[6, 4, 2, 8, 2, 2, 1], trailer) {
        return refused(3);
    }
    let section = |i: usize| &bytes[starts[i]..if i < 6 { starts[i + 1] } else { trailer }];
    let numbers = |i: usize| section(i).chunks(2).map(|b| u16_at(b, 0)).collect();
    Ok(Sheet {
        types: section(0)
            .chunks(6)
            .map(|b| TypeRecord {
                kind: b[0],
                flag: b[1],
                first: u16_at(b, 2),
                count: u16_at(b, 4),
            })
            .collect(),
        constructors: section(1)
            .chunks(4)
            .map(|b| Run { first: u16_at(b, 0), count: u16_at(b, 2) })
            .collect(),
        type_list: numbers(2),
        patterns: section(3).chunks(8).map(record_at).collect(),
        children: numbers(4),
        clauses: numbers(5),
        pool: section(6).to_vec(),
        subject: u16_at(bytes, trailer + 14),
    })
}

/// The eight bytes of a pattern or of a panel's record.
pub fn record_at(b: &[u8]) -> Record {
    Record { kind: b[0], zero: b[1], a: u16_at(b, 2), first: u16_at(b, 4), count: u16_at(b, 6) }
}

fn parts(sheet: &Sheet, pattern: usize) -> &[u16] {
    let p = sheet.patterns[pattern];
    match p.kind {
        P_ASSIGN | P_LIST | P_TAILED | P_CONSTR | P_PAIR | P_TUPLE => {
            &sheet.children[p.first as usize..][..p.count as usize]
        }
        _ => &[],
    }
}

fn text(sheet: &Sheet, pattern: usize) -> &[u8] {
    let p = sheet.patterns[pattern];
    &sheet.pool[p.first as usize..][..p.count as usize]
}

fn fields(sheet: &Sheet, data: TypeRecord, which: u16) -> &[u16] {
    let c = sheet.constructors[data.first as usize + which as usize];
    &sheet.type_list[c.first as usize..][..c.count as usize]
}

fn types_keep_rules(sheet: &Sheet) -> bool {
    let entries = sheet.type_list.len();
    let type_kept = |t: &TypeRecord| {
        let counted = match t.kind {
            INT | BYTES => t.count == 0,
            LIST => t.count == 1,
            PAIR => t.count == 2,
            TUPLE => t.count >= 2,
            DATA => t.count >= 1,
            _ => false,
        };
        let flagged = if t.kind == DATA { t.flag <= 3 } else { t.flag == 0 };
        let whole = if t.kind == DATA { sheet.constructors.len() } else { entries };
        counted && flagged && run_inside(t.first, t.count, whole)
    };
    sheet.types.iter().all(type_kept)
        && sheet.constructors.iter().all(|c| run_inside(c.first, c.count, entries))
        && sheet.type_list.iter().all(|&t| (t as usize) < sheet.types.len())
        && (sheet.subject as usize) < sheet.types.len()
}

fn transparent(sheet: &Sheet, t: TypeRecord) -> bool {
    t.kind == DATA && t.flag == 1 && t.count == 1 && fields(sheet, t, 0).len() == 1
}

fn patterns_keep_shape(sheet: &Sheet) -> bool {
    let patterns = sheet.patterns.len();
    (0..patterns).all(|p| record_kept(sheet, p))
        && sheet.children.iter().all(|&c| (c as usize) < patterns)
        && sheet.clauses.iter().all(|&r| (r as usize) < patterns)
        && linked_as_trees(sheet)
        && (0..patterns)
            .filter(|&p| sheet.patterns[p].kind == P_TAILED)
            .all(|p| tail_kept(sheet, p))
        && sheet.clauses.iter().all(|&root| depth(sheet, root) <= 12)
}

/// The fields of one pattern, with no look at its children.
fn record_kept(sheet: &Sheet, pattern: usize) -> bool {
    let p = sheet.patterns[pattern];
    let counted = match p.kind {
        P_DISCARD | P_VARIABLE => p.count == 0,
        P_ASSIGN => p.count == 1,
        P_INT | P_BYTES | P_LIST | P_CONSTR | P_TUPLE => true,
        // One for the tail, and at least one element before it.
        P_TAILED => p.count >= 2,
        P_PAIR => p.count == 2,
        _ => return false,
    };
    let uses_a = matches!(p.kind, P_VARIABLE | P_ASSIGN | P_CONSTR);
    let texts = matches!(p.kind, P_INT | P_BYTES);
    let whole = if texts { sheet.pool.len() } else { sheet.children.len() };
    p.zero == 0 && (uses_a || p.a == 0) && counted && run_inside(p.first, p.count, whole)
}

/// Every child has a larger number than its parent, each entry is in one pattern's list, and each
/// pattern is exactly one clause's root or exactly one entry.
fn linked_as_trees(sheet: &Sheet) -> bool {
    let mut entry_owners = vec![0; sheet.children.len()];
    let mut uses = vec![0; sheet.patterns.len()];
    for (p, record) in sheet.patterns.iter().enumerate() {
        if parts(sheet, p).iter().any(|&child| child as usize <= p) {
            return false;
        }
        for i in 0..parts(sheet, p).len() {
            entry_owners[record.first as usize + i] += 1;
        }
    }
    for &p in sheet.children.iter().chain(&sheet.clauses) {
        uses[p as usize] += 1;
    }
    entry_owners.iter().all(|&n| n == 1) && uses.iter().all(|&n| n == 1)
}

fn tail_kept(sheet: &Sheet, pattern: usize) -> bool {
    let tail = parts(sheet, pattern)[parts(sheet, pattern).len() - 1];
    matches!(sheet.patterns[tail as usize].kind, P_VARIABLE | P_DISCARD)
}

/// A pattern without parts is 1 deep; every part counts one deeper.
fn depth(sheet: &Sheet, pattern: u16) -> usize {
    1 + parts(sheet, pattern as usize).iter().map(|&c| depth(sheet, c)).max().unwrap_or(0)
}

fn bad_text(sheet: &Sheet, pattern: usize) -> bool {
    match sheet.patterns[pattern].kind {
        P_INT => text(sheet, pattern).len() > 64 || !canonical(text(sheet, pattern)),
        P_BYTES => text(sheet, pattern).len() > 64,
        _ => false,
    }
}

/// Whether a pattern fits a type; notes the types of the patterns met.
fn fits(sheet: &Sheet, pattern: u16, of: u16, type_of: &mut [u16]) -> bool {
    let number = pattern as usize;
    type_of[number] = of;
    let t = sheet.types[of as usize];
    let entries = || &sheet.type_list[t.first as usize..][..t.count as usize];
    let parts = parts(sheet, number);
    match sheet.patterns[number].kind {
        P_DISCARD | P_VARIABLE => true,
        P_ASSIGN => fits(sheet, parts[0], of, type_of),
        P_INT => t.kind == INT,
        P_BYTES => t.kind == BYTES,
        P_LIST => t.kind == LIST && parts.iter().all(|&p| fits(sheet, p, entries()[0], type_of)),
        P_TAILED => {
            let (&tail, elements) = parts.split_last().unwrap();
            t.kind == LIST
                && elements.iter().all(|&p| fits(sheet, p, entries()[0], type_of))
                && fits(sheet, tail, of, type_of)
        }
        P_CONSTR => {
            let which = sheet.patterns[number].a;
            t.kind == DATA && which < t.count && fit(sheet, parts, fields(sheet, t, which), type_of)
        }
        P_PAIR => t.kind == PAIR && fit(sheet, parts, entries(), type_of),
        _ => t.kind == TUPLE && fit(sheet, parts, entries(), type_of),
    }
}

/// Whether as many patterns as types fit them one by one.
fn fit(sheet: &Sheet, patterns: &[u16], types: &[u16], type_of: &mut [u16]) -> bool {
    patterns.len() == types.len()
        && patterns.iter().zip(types).all(|(&p, &t)| fits(sheet, p, t, type_of))
}

fn names_of(sheet: &Sheet, pattern: u16, names: &mut Vec<u16>) {
    let p = sheet.patterns[pattern as usize];
    if matches!(p.kind, P_VARIABLE | P_ASSIGN) {
        names.push(p.a);
    }
    for &part in parts(sheet, pattern as usize) {
        names_of(sheet, part, names);
    }
}
