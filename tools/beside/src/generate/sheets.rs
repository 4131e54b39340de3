//! Random sheets.

use super::patterns::{self, Mood};
use super::types::{Flavour, Types, types};
use super::{damage, layout};
use crate::files::*;
use crate::random::Random;
use crate::reference::calls::tree_of;
use crate::reference::{Place, Refusal};

/// What a sheet is made from.
struct Draft {
    types: Types,
    mood: Mood,
    clauses: Vec<Pattern>,
}

impl Draft {
    fn laid_out(&self, random: &mut Random) -> Vec<u8> {
        layout::sheet(random, &self.types.sheet, &self.clauses).to_bytes()
    }
}

/// A sheet of any kind: most are whole, some are damaged.
pub fn any(random: &mut Random) -> Vec<u8> {
    let whole = whole(random);
    if random.chance(1, 3) { damage::damaged(random, &damage::SHEET, &whole) } else { whole }
}

/// A sheet with no damage done to it: it may still be refused, by 7 or by 9 to 14 mostly.
pub fn whole(random: &mut Random) -> Vec<u8> {
    let draft = match random.below(60) {
        0..=3 => ladder(random),
        4..=10 => crossed(random),
        11..=16 => twins(random),
        _ => plain(random),
    };
    if random.chance(4, 5) { thinned_out(random, draft) } else { draft.laid_out(random) }
}

fn plain(random: &mut Random) -> Draft {
    let flavour = *random.pick(&[
        Flavour::Mixed,
        Flavour::Lists,
        Flavour::Lists,
        Flavour::Tuples,
        Flavour::Data,
        Flavour::Records,
        Flavour::Wide,
    ]);
    let types = types(random, flavour);
    let mood = Mood::random(random);
    let clauses = clauses(random, &types, mood);
    Draft { types, mood, clauses }
}

/// A sheet over one tuple whose parts have several constructors or lengths, with many names inside
/// them: the leaves of a clause then bind in different orders.
fn crossed(random: &mut Random) -> Draft {
    let record = |kind, first, count| TypeRecord { kind, flag: 0, first, count };
    let run = |first, count| Run { first, count };
    let width = random.between(2, 6);
    let mut sheet = Sheet {
        types: vec![
            record(TUPLE, 0, width as u16),
            record(INT, 0, 0),
            record(DATA, 0, 2),
            record(DATA, 1, 3),
            record(LIST, width as u16, 1),
        ],
        constructors: vec![run(0, 0), run(width as u16, 1), run(width as u16, 2), run(1, 2)],
        type_list: (0..width).map(|_| random.between(1, 4) as u16).collect(),
        ..Sheet::default()
    };
    sheet.type_list.extend([1, 1]);
    let types = Types::of(sheet);
    let mood = Mood {
        depth: random.between(2, 4),
        wild: random.between(30, 60),
        variable: random.between(70, 100),
        assign: *random.pick(&[0, 10, 20]),
        tail: 40,
        elements: 2,
        spread: 0,
        clauses: 8,
        slip: 0,
    };
    let clauses = clauses(random, &types, mood);
    Draft { types, mood, clauses }
}

/// A sheet over a type of a few constructors whose fields are of types that look alike: paths that
/// print alike then differ in their types.
fn twins(random: &mut Random) -> Draft {
    let record = |kind, flag, first, count| TypeRecord { kind, flag, first, count };
    let constructors = random.between(2, 4);
    let mut sheet = Sheet {
        types: vec![
            record(DATA, *random.pick(&[0, 2]), 0, constructors as u16),
            record(INT, 0, 0, 0),
            record(TUPLE, 0, 0, 2),
            record(TUPLE, 0, 0, 2),
            record(LIST, 0, 0, 1),
            record(LIST, 0, 0, 1),
            // Of one constructor, plain, list-decorated and both, and with one constructor more.
            record(DATA, 0, constructors as u16, 1),
            record(DATA, 2, constructors as u16, 1),
            record(DATA, 3, constructors as u16, 1),
            record(DATA, 2, constructors as u16 - 1, 2),
        ],
        type_list: vec![1, 1],
        ..Sheet::default()
    };
    for _ in 0..constructors {
        let fields = random.between(1, 2) as u16;
        sheet.constructors.push(Run { first: sheet.type_list.len() as u16, count: fields });
        for _ in 0..fields {
            sheet.type_list.push(random.between(1, 9) as u16);
        }
    }
    sheet.constructors.push(Run { first: 0, count: 2 });
    let types = Types::of(sheet);
    let mood = Mood { depth: 4, wild: random.between(20, 50), slip: 0, ..Mood::random(random) };
    let clauses = clauses(random, &types, mood);
    Draft { types, mood, clauses }
}

fn clauses(random: &mut Random, types: &Types, mood: Mood) -> Vec<Pattern> {
    let least = if mood.clauses > 16 { mood.clauses / 2 } else { 1 + mood.clauses / 4 };
    let full = mood.clauses == 32 && random.chance(1, 2);
    let count = if full { 32 } else { random.between(least, mood.clauses) };
    let subject = types.sheet.subject;
    // Each root has its place; the rest is shared out from the first clause on.
    let mut maker = patterns::Maker { types, mood, room: 192 - count };
    let share = random.chance(1, 2);
    let mut clauses: Vec<Pattern> = vec![];
    for number in 0..count {
        let whole = maker.room;
        let part = if share { whole / (count - number) } else { whole };
        maker.room = part;
        // A relative is made of patterns that fit; a slip may not be read by its type.
        let pattern = if !clauses.is_empty() && mood.slip == 0 && random.chance(1, 2) {
            let of = random.pick(&clauses).clone();
            patterns::relative(random, &mut maker, &of, subject, mood.depth)
        } else if random.chance(9, 10) {
            maker.opened(random, subject, mood.depth)
        } else {
            maker.pattern(random, subject, mood.depth)
        };
        maker.room += whole - part;
        clauses.push(pattern);
    }
    if random.chance(2, 3) {
        clauses.sort_by_key(patterns::wildcards);
    }
    if random.chance(1, 3) {
        *clauses.last_mut().unwrap() = Pattern::Variable(0);
    }
    let twice = random.chance(1, 30);
    for clause in &mut clauses {
        let mut next = if random.chance(1, 20) { 65530 } else { random.below(4) as u16 };
        patterns::name(random, clause, &mut next, twice);
    }
    clauses
}

/// The sheet without its idle clauses, or with others in their place; where the tree is too large,
/// most often without some of them.
fn thinned_out(random: &mut Random, mut draft: Draft) -> Vec<u8> {
    let keep_large = random.chance(1, 3);
    for attempt in 0..100 {
        let bytes = draft.laid_out(random);
        match tree_of(&bytes) {
            Err(Refusal { number: 14, place: Place::Lowest(place) }) => {
                draft.clauses.remove(place as usize);
                let many = draft.mood.clauses == 32;
                let again = attempt < 50 && (many || random.chance(2, 3));
                if draft.mood.slip == 0 && again {
                    let clause = one_more(random, &draft);
                    draft.clauses.insert(random.below(place as usize + 1), clause);
                }
            }
            Err(Refusal { number: 12 | 13, .. }) if !keep_large && draft.clauses.len() > 1 => {
                let at = random.below(draft.clauses.len());
                draft.clauses.remove(at);
            }
            _ => return bytes,
        }
    }
    draft.laid_out(random)
}

/// A clause more, within the room that the others leave.
fn one_more(random: &mut Random, draft: &Draft) -> Pattern {
    let used: usize = draft.clauses.iter().map(patterns::size).sum();
    let mut maker =
        patterns::Maker { types: &draft.types, mood: draft.mood, room: (191 - used).min(30) };
    let mut clause = maker.opened(random, draft.types.sheet.subject, draft.mood.depth);
    patterns::name(random, &mut clause, &mut 0, false);
    clause
}

/// A sheet whose tree grows fast with its clauses and has many names: a tuple of Ints, each clause
/// testing some of them and naming the rest.
fn ladder(random: &mut Random) -> Draft {
    let width = random.between(3, 22);
    let sheet = Sheet {
        types: vec![
            TypeRecord { kind: TUPLE, flag: 0, first: 0, count: width as u16 },
            TypeRecord { kind: INT, flag: 0, first: 0, count: 0 },
        ],
        type_list: vec![1; width],
        ..Sheet::default()
    };
    let types = Types::of(sheet);
    let mood = Mood { depth: 2, slip: 0, ..Mood::random(random) };
    let count = (192 / (width + 1)).min(random.between(3, 32));
    let tests = random.between(1, 4);
    let named = random.chance(3, 4);
    let mut clauses = vec![];
    for _ in 0..count {
        let tested: Vec<usize> = (0..tests).map(|_| random.below(width)).collect();
        let mut clause = Pattern::Tuple(
            (0..width)
                .map(|i| {
                    if tested.contains(&i) {
                        Pattern::Int(random.between(1, 2).to_string())
                    } else if named {
                        Pattern::Variable(0)
                    } else {
                        Pattern::Discard
                    }
                })
                .collect(),
        );
        patterns::name(random, &mut clause, &mut 0, false);
        clauses.push(clause);
    }
    Draft { types, mood, clauses }
}
