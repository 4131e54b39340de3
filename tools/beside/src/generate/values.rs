//! Random values: of a type, or such that a pattern matches them or nearly does.

use super::types::Types;
use super::{byte_text, int_text};
use crate::files::*;
use crate::random::Random;

/// Makes values while there is room for them in a panel.
pub struct Maker<'a> {
    pub types: &'a Types,
    /// How many more records may be made.
    pub room: usize,
    /// That a value made for a pattern departs from it at a given part, out of 100.
    pub miss: usize,
}

impl<'a> Maker<'a> {
    pub fn new(types: &'a Types, random: &mut Random) -> Self {
        Maker { types, room: 400, miss: *random.pick(&[0, 0, 2, 10, 40]) }
    }

    /// A value of a type with at most `depth` levels; none if the type has no such value.
    pub fn value(&mut self, random: &mut Random, of: u16, depth: usize) -> Option<Value> {
        let t = self.types.record(of);
        if self.types.least[of as usize]? > depth {
            return None;
        }
        Some(match t.kind {
            INT => Value::Int(int_text(random)),
            BYTES => Value::Bytes(byte_text(random)),
            LIST => {
                let element = self.types.entries(of)[0];
                let fits = self.types.least[element as usize].is_some_and(|least| least < depth);
                let mut length = if fits { random.below(5).min(self.room) } else { 0 };
                if fits && random.chance(1, 100) {
                    length = random.below(30).min(self.room);
                }
                // Deep values are narrow.
                if depth < 20 {
                    length = length.min(2);
                }
                Value::List(self.parts(random, &vec![element; length], depth)?)
            }
            DATA => {
                let reach = |fields: &[u16]| {
                    fields.iter().all(|&f| self.types.least[f as usize].is_some_and(|l| l < depth))
                };
                let able: Vec<u16> =
                    (0..t.count).filter(|&which| reach(self.types.fields(of, which))).collect();
                // When room or depth run out, the constructor with the fewest fields.
                let which = if self.room > 40 && depth > 20 {
                    *random.pick(&able)
                } else {
                    *able.iter().min_by_key(|&&w| self.types.fields(of, w).len())?
                };
                let fields = self.types.fields(of, which).to_vec();
                Value::Constr(which, self.parts(random, &fields, depth)?)
            }
            _ => {
                let entries = self.types.entries(of).to_vec();
                let mut parts = self.parts(random, &entries, depth)?;
                if t.kind == TUPLE {
                    Value::Tuple(parts)
                } else {
                    let snd = Box::new(parts.remove(1));
                    Value::Pair(Box::new(parts.remove(0)), snd)
                }
            }
        })
    }

    fn parts(&mut self, random: &mut Random, types: &[u16], depth: usize) -> Option<Vec<Value>> {
        self.room = self.room.checked_sub(types.len())?;
        types.iter().map(|&t| self.value(random, t, depth - 1)).collect()
    }

    /// A value that a pattern matches, but for what `miss` allows.
    pub fn matching(
        &mut self,
        random: &mut Random,
        pattern: &Pattern,
        of: u16,
        depth: usize,
    ) -> Option<Value> {
        if random.chance(self.miss, 100) {
            return self.value(random, of, depth);
        }
        match pattern {
            Pattern::Discard | Pattern::Variable(_) => self.value(random, of, depth),
            Pattern::Assign(_, inside) => self.matching(random, inside, of, depth),
            Pattern::Int(text) => Some(Value::Int(text.clone())),
            Pattern::Bytes(text) => Some(Value::Bytes(text.clone())),
            Pattern::List(parts) => {
                let types = vec![self.types.entries(of)[0]; parts.len()];
                let mut elements = self.each(random, parts, &types, depth)?;
                if random.chance(self.miss, 100) {
                    elements.pop();
                }
                Some(Value::List(elements))
            }
            Pattern::Tailed(parts) => {
                let element = self.types.entries(of)[0];
                let before = parts.len() - 1;
                let types = vec![element; before];
                let mut elements = self.each(random, &parts[..before], &types, depth)?;
                for _ in 0..random.below(4) {
                    self.room = self.room.checked_sub(1)?;
                    match self.value(random, element, depth - 1) {
                        Some(more) => elements.push(more),
                        None => break,
                    }
                }
                Some(Value::List(elements))
            }
            Pattern::Constr(which, parts) => {
                let types = self.types.fields(of, *which).to_vec();
                Some(Value::Constr(*which, self.each(random, parts, &types, depth)?))
            }
            Pattern::Pair(fst, snd) => {
                let types = self.types.entries(of).to_vec();
                self.room = self.room.checked_sub(2)?;
                let fst = self.matching(random, fst, types[0], depth - 1)?;
                let snd = self.matching(random, snd, types[1], depth - 1)?;
                Some(Value::Pair(Box::new(fst), Box::new(snd)))
            }
            Pattern::Tuple(parts) => {
                let types = self.types.entries(of).to_vec();
                Some(Value::Tuple(self.each(random, parts, &types, depth)?))
            }
        }
    }

    fn each(
        &mut self,
        random: &mut Random,
        patterns: &[Pattern],
        types: &[u16],
        depth: usize,
    ) -> Option<Vec<Value>> {
        self.room = self.room.checked_sub(types.len())?;
        let both = patterns.iter().zip(types);
        both.map(|(p, &t)| self.matching(random, p, t, depth - 1)).collect()
    }
}
