//! Random patterns of a type.

use super::types::Types;
use super::{byte_text, int_text_of};
use crate::files::*;
use crate::random::Random;

/// What patterns of a sheet are like. Chances are out of 100.
#[derive(Clone, Copy)]
pub struct Mood {
    /// Levels of a pattern, at most.
    pub depth: usize,
    /// That a pattern is a variable or a discard.
    pub wild: usize,
    /// That such a one is a variable.
    pub variable: usize,
    pub assign: usize,
    /// That a list has a tail.
    pub tail: usize,
    /// Elements of a list pattern, at most.
    pub elements: usize,
    /// How many more integers there are than the few that meet again and again.
    pub spread: usize,
    /// Clauses, at most.
    pub clauses: usize,
    /// That a wrong text, arity or kind is written.
    pub slip: usize,
}

impl Mood {
    pub fn random(random: &mut Random) -> Self {
        let clauses = *random.pick(&[1, 4, 6, 6, 10, 16, 24, 32]);
        Mood {
            clauses,
            spread: if clauses > 16 { random.between(10, 40) } else { 0 },
            depth: *random.pick(&[2, 2, 3, 3, 3, 4, 4, 5, 8, 12, 12]),
            wild: *random.pick(&[5, 20, 30, 40, 50, 60, 70]),
            variable: *random.pick(&[0, 20, 50, 90, 100]),
            assign: *random.pick(&[0, 0, 5, 10, 30]),
            tail: *random.pick(&[0, 20, 40, 60, 100]),
            elements: *random.pick(&[1, 2, 3, 3, 4, 6]),
            slip: if random.chance(1, 25) { 5 } else { 0 },
        }
    }
}

/// Makes patterns while there is room for them in a sheet.
pub struct Maker<'a> {
    pub types: &'a Types,
    pub mood: Mood,
    /// How many more patterns may be made.
    pub room: usize,
}

impl Maker<'_> {
    /// A pattern of a type. Its own place is already taken from the room.
    pub fn pattern(&mut self, random: &mut Random, of: u16, depth: usize) -> Pattern {
        let mood = self.mood;
        if random.below(1000) < mood.slip {
            return self.slip(random, of, depth);
        }
        if random.chance(mood.wild, 100) {
            return wild(random, mood);
        }
        if depth > 1 && self.room > 0 && random.chance(mood.assign, 100) {
            self.room -= 1;
            // The writer of a clause gives the names.
            return Pattern::Assign(0, Box::new(self.pattern(random, of, depth - 1)));
        }
        self.opened(random, of, depth)
    }

    /// A pattern of a type that is no wildcard, if room and depth allow.
    pub fn opened(&mut self, random: &mut Random, of: u16, depth: usize) -> Pattern {
        let t = self.types.record(of);
        match t.kind {
            INT => Pattern::Int(int_text_of(random, self.mood.spread)),
            BYTES => Pattern::Bytes(byte_text(random)),
            LIST => self.list(random, of, depth),
            DATA => {
                let which = random.below(t.count as usize) as u16;
                let fields = self.types.fields(of, which).to_vec();
                match self.parts(random, &fields, depth) {
                    Some(parts) => Pattern::Constr(which, parts),
                    None => wild(random, self.mood),
                }
            }
            _ => {
                let entries = self.types.entries(of).to_vec();
                match self.parts(random, &entries, depth) {
                    Some(mut parts) if t.kind == PAIR => {
                        let snd = Box::new(parts.remove(1));
                        Pattern::Pair(Box::new(parts.remove(0)), snd)
                    }
                    Some(parts) => Pattern::Tuple(parts),
                    None => wild(random, self.mood),
                }
            }
        }
    }

    fn list(&mut self, random: &mut Random, of: u16, depth: usize) -> Pattern {
        let mut length = random.below(self.mood.elements + 1);
        if random.chance(1, 200) {
            length = random.between(7, 24);
        }
        let element = self.types.entries(of)[0];
        let tailed = random.chance(self.mood.tail, 100);
        if tailed {
            length = length.max(1);
        }
        if tailed && (depth <= 1 || self.room < length + 1) {
            return wild(random, self.mood);
        }
        // The tail's own place.
        self.room -= tailed as usize;
        let Some(mut parts) = self.parts(random, &vec![element; length], depth) else {
            return wild(random, self.mood);
        };
        if !tailed {
            return Pattern::List(parts);
        }
        parts.push(wild(random, self.mood));
        Pattern::Tailed(parts)
    }

    fn parts(&mut self, random: &mut Random, types: &[u16], depth: usize) -> Option<Vec<Pattern>> {
        if types.is_empty() {
            return Some(vec![]);
        }
        if depth <= 1 || self.room < types.len() {
            return None;
        }
        self.room -= types.len();
        Some(types.iter().map(|&t| self.pattern(random, t, depth - 1)).collect())
    }

    /// A pattern that breaks a rule: a text, a fit or a shape.
    fn slip(&mut self, random: &mut Random, of: u16, depth: usize) -> Pattern {
        match random.below(9) {
            0 => Pattern::Int(bad_int(random)),
            1 => Pattern::Bytes(vec![7; random.between(65, 70)]),
            2 => Pattern::Int("1".repeat(random.between(64, 66))),
            3 => Pattern::Tuple(vec![]),
            4 => Pattern::Constr(random.below(5) as u16, vec![]),
            5 => Pattern::List(vec![]),
            // A tail with no element before it.
            6 if self.room > 0 => {
                self.room -= 1;
                Pattern::Tailed(vec![Pattern::Discard])
            }
            // A tail that is a test.
            7 if self.room > 1 => {
                self.room -= 2;
                Pattern::Tailed(vec![Pattern::Discard, Pattern::List(vec![])])
            }
            _ => {
                // A pattern of another type.
                let other = random.below(self.types.sheet.types.len()) as u16;
                let of = if random.chance(4, 5) { other } else { of };
                self.opened(random, of, depth)
            }
        }
    }
}

/// An integer text that is not canonical.
pub fn bad_int(random: &mut Random) -> String {
    let texts = ["", "-", "-0", "00", "01", "-01", "+1", "1a", "a", " 1", "1 ", "0x1", "--1", "1-"];
    random.pick(&texts).to_string()
}

fn wild(random: &mut Random, mood: Mood) -> Pattern {
    if random.chance(mood.variable, 100) { Pattern::Variable(0) } else { Pattern::Discard }
}

/// A relative of a pattern: some of its parts are made anew or become wildcards.
pub fn relative(
    random: &mut Random,
    maker: &mut Maker,
    pattern: &Pattern,
    of: u16,
    depth: usize,
) -> Pattern {
    if depth == 0 || random.chance(1, 6) {
        return maker.pattern(random, of, depth.max(1));
    }
    let types: Vec<u16> = match pattern {
        Pattern::Assign(..) => vec![of],
        Pattern::List(parts) => vec![maker.types.entries(of)[0]; parts.len()],
        Pattern::Tailed(parts) => {
            let mut types = vec![maker.types.entries(of)[0]; parts.len() - 1];
            types.push(of);
            types
        }
        Pattern::Constr(which, _) => maker.types.fields(of, *which).to_vec(),
        Pattern::Pair(..) | Pattern::Tuple(_) => maker.types.entries(of).to_vec(),
        Pattern::Discard | Pattern::Variable(_) if random.chance(1, 3) => {
            return maker.opened(random, of, depth);
        }
        _ => return pattern.clone(),
    };
    if types.len() > maker.room {
        return wild(random, maker.mood);
    }
    maker.room -= types.len();
    let mut next = |part: &Pattern, at: usize| relative(random, maker, part, types[at], depth - 1);
    let mut all = |parts: &[Pattern]| parts.iter().enumerate().map(|(i, p)| next(p, i)).collect();
    match pattern {
        Pattern::Assign(name, inside) => Pattern::Assign(*name, Box::new(next(inside, 0))),
        Pattern::List(parts) => Pattern::List(all(parts)),
        Pattern::Tailed(parts) => {
            let (tail, elements) = parts.split_last().unwrap();
            let mut parts: Vec<Pattern> = all(elements);
            parts.push(tail.clone());
            Pattern::Tailed(parts)
        }
        Pattern::Constr(which, parts) => Pattern::Constr(*which, all(parts)),
        Pattern::Pair(fst, snd) => {
            let fst = Box::new(next(fst, 0));
            Pattern::Pair(fst, Box::new(next(snd, 1)))
        }
        Pattern::Tuple(parts) => Pattern::Tuple(all(parts)),
        plain => plain.clone(),
    }
}

/// Gives the names of a clause: all different, or now and then one twice.
pub fn name(random: &mut Random, pattern: &mut Pattern, next: &mut u16, twice: bool) {
    match pattern {
        Pattern::Variable(name) => *name = fresh(random, next, twice),
        Pattern::Assign(own, inside) => {
            *own = fresh(random, next, twice);
            name(random, inside, next, twice);
        }
        Pattern::List(parts)
        | Pattern::Tailed(parts)
        | Pattern::Constr(_, parts)
        | Pattern::Tuple(parts) => {
            parts.iter_mut().for_each(|part| name(random, part, next, twice));
        }
        Pattern::Pair(fst, snd) => {
            name(random, fst, next, twice);
            name(random, snd, next, twice);
        }
        Pattern::Discard | Pattern::Int(_) | Pattern::Bytes(_) => {}
    }
}

fn fresh(random: &mut Random, next: &mut u16, twice: bool) -> u16 {
    if !(twice && random.chance(1, 4)) {
        *next = next.wrapping_add(random.between(1, 3) as u16);
    }
    *next
}

/// The parts of a pattern.
fn parts(pattern: &Pattern) -> Vec<&Pattern> {
    match pattern {
        Pattern::Discard | Pattern::Variable(_) | Pattern::Int(_) | Pattern::Bytes(_) => vec![],
        Pattern::Assign(_, inside) => vec![inside],
        Pattern::List(parts)
        | Pattern::Tailed(parts)
        | Pattern::Constr(_, parts)
        | Pattern::Tuple(parts) => parts.iter().collect(),
        Pattern::Pair(fst, snd) => vec![fst, snd],
    }
}

/// How many patterns a pattern consists of.
pub fn size(pattern: &Pattern) -> usize {
    1 + parts(pattern).into_iter().map(size).sum::<usize>()
}

/// How much a pattern leaves open: clauses that leave little go first in a sheet.
pub fn wildcards(pattern: &Pattern) -> usize {
    let own = matches!(pattern, Pattern::Discard | Pattern::Variable(_) | Pattern::Tailed(_));
    own as usize + parts(pattern).into_iter().map(wildcards).sum::<usize>()
}
