//! Random types: recursive, shared, overlapping and unused ones among them.

use crate::files::*;
use crate::random::Random;

/// Types with no pattern yet, and for each the least depth of a value, if it has a finite one.
#[derive(Clone)]
pub struct Types {
    pub sheet: Sheet,
    pub least: Vec<Option<usize>>,
}

/// What a sheet mostly consists of.
#[derive(Clone, Copy, PartialEq, Eq)]
pub enum Flavour {
    Mixed,
    Lists,
    Tuples,
    Data,
    /// Data types of one constructor mostly.
    Records,
    /// A subject with one wide tuple of plain types.
    Wide,
}

pub fn types(random: &mut Random, flavour: Flavour) -> Types {
    let count = match random.below(10) {
        0 => 1,
        1..=6 => random.between(2, 6),
        7..=8 => random.between(6, 16),
        _ => random.between(16, 64),
    };
    let mut sheet = Sheet::default();
    for number in 0..count {
        let kind = kind(random, flavour, number);
        let record = match kind {
            INT | BYTES => TypeRecord { kind, flag: 0, first: 0, count: 0 },
            DATA => data(random, &mut sheet, count, flavour),
            _ => {
                let arity = match kind {
                    LIST => 1,
                    PAIR => 2,
                    _ if flavour == Flavour::Wide && number == 0 => random.between(3, 8),
                    _ => random.between(2, 4),
                };
                let run = entries(random, &mut sheet, count, arity);
                TypeRecord { kind, flag: 0, first: run.first, count: run.count }
            }
        };
        sheet.types.push(record);
    }
    for number in 0..count {
        let t = sheet.types[number];
        let transparent = t.kind == DATA
            && t.flag == 1
            && t.count == 1
            && sheet.constructors[t.first as usize].count == 1;
        if transparent && !random.chance(1, 6) {
            sheet.types[number].flag = *random.pick(&[0, 2, 3]);
        }
    }
    // Entries and constructors that nothing uses.
    if random.chance(1, 4) {
        entries(random, &mut sheet, count, 3);
    }
    if random.chance(1, 4) && sheet.constructors.len() < 128 {
        let run = entries(random, &mut sheet, count, 2);
        sheet.constructors.push(run);
    }
    sheet.subject = if random.chance(5, 6) { 0 } else { random.below(count) as u16 };
    Types::of(sheet)
}

fn kind(random: &mut Random, flavour: Flavour, number: usize) -> u8 {
    // The subject is most often type 0.
    if number == 0 && random.chance(9, 10) {
        return match flavour {
            Flavour::Lists => LIST,
            Flavour::Tuples | Flavour::Wide => *random.pick(&[TUPLE, TUPLE, PAIR]),
            Flavour::Data | Flavour::Records => DATA,
            Flavour::Mixed => *random.pick(&[LIST, PAIR, TUPLE, DATA]),
        };
    }
    if number == 1 && random.chance(3, 4) {
        return INT;
    }
    let often = match flavour {
        Flavour::Lists => LIST,
        Flavour::Tuples => TUPLE,
        Flavour::Wide => INT,
        Flavour::Data | Flavour::Records | Flavour::Mixed => DATA,
    };
    if random.chance(1, 3) {
        return often;
    }
    *random.pick(&[INT, INT, BYTES, LIST, PAIR, TUPLE, DATA, DATA])
}

/// A run of type entries: a new one, or one that shares what is there.
fn entries(random: &mut Random, sheet: &mut Sheet, types: usize, arity: usize) -> Run {
    let there = sheet.type_list.len();
    if arity == 0 {
        return Run { first: 0, count: 0 };
    }
    if there >= arity && (random.chance(1, 5) || there + arity > 256) {
        return Run { first: random.below(there - arity + 1) as u16, count: arity as u16 };
    }
    for _ in 0..arity {
        // Type 1 is most often Int: this keeps many types finite.
        let entry = if random.chance(1, 3) { 1.min(types - 1) } else { random.below(types) };
        sheet.type_list.push(entry as u16);
    }
    Run { first: there as u16, count: arity as u16 }
}

fn data(random: &mut Random, sheet: &mut Sheet, types: usize, flavour: Flavour) -> TypeRecord {
    let few = flavour == Flavour::Records && random.chance(3, 4);
    let count = if few { 1 } else { *random.pick(&[1, 1, 1, 2, 2, 2, 3, 3, 4, 7]) };
    let flag = *random.pick(&[0, 0, 0, 0, 1, 2, 2, 3]);
    let there = sheet.constructors.len();
    if there >= count && (random.chance(1, 6) || there + count > 128) {
        let first = random.below(there - count + 1) as u16;
        return TypeRecord { kind: DATA, flag, first, count: count as u16 };
    }
    if there + count > 128 {
        return TypeRecord { kind: INT, flag: 0, first: 0, count: 0 };
    }
    for _ in 0..count {
        let arity = *random.pick(&[0, 0, 1, 1, 2, 2, 3, 5]);
        let run = entries(random, sheet, types, arity);
        sheet.constructors.push(run);
    }
    TypeRecord { kind: DATA, flag, first: there as u16, count: count as u16 }
}

/// The least depth of a value of each type.
fn least(sheet: &Sheet) -> Vec<Option<usize>> {
    let mut least = vec![None; sheet.types.len()];
    loop {
        let next: Vec<Option<usize>> = (0..sheet.types.len())
            .map(|number| {
                let t = sheet.types[number];
                let all = |run: Run| -> Option<usize> {
                    let entries = &sheet.type_list[run.first as usize..][..run.count as usize];
                    entries.iter().try_fold(1, |most: usize, &e| {
                        least[e as usize].map(|depth: usize| most.max(depth + 1))
                    })
                };
                match t.kind {
                    INT | BYTES | LIST => Some(1),
                    DATA => sheet.constructors[t.first as usize..][..t.count as usize]
                        .iter()
                        .filter_map(|c| all(*c))
                        .min(),
                    _ => all(Run { first: t.first, count: t.count }),
                }
            })
            .collect();
        if next == least {
            return least;
        }
        least = next;
    }
}

impl Types {
    /// The types of a sheet that keeps the rules about them.
    pub fn of(sheet: Sheet) -> Self {
        let least = least(&sheet);
        Types { sheet, least }
    }

    pub fn record(&self, number: u16) -> TypeRecord {
        self.sheet.types[number as usize]
    }

    /// The entries of a list, pair or tuple.
    pub fn entries(&self, number: u16) -> &[u16] {
        let t = self.record(number);
        &self.sheet.type_list[t.first as usize..][..t.count as usize]
    }

    pub fn fields(&self, number: u16, which: u16) -> &[u16] {
        let c = self.sheet.constructors[(self.record(number).first + which) as usize];
        &self.sheet.type_list[c.first as usize..][..c.count as usize]
    }
}
