//! Random panels for a sheet that passed refusals 2 to 11: fitting ones, misfits and damaged ones.

use super::types::Types;
use super::values::Maker;
use super::{damage, layout};
use crate::files::*;
use crate::random::Random;
use crate::reference::sheet::Checked;

/// What panels for a sheet are made from.
pub struct Panels {
    types: Types,
    clauses: Vec<Pattern>,
}

/// The deepest panel that is allowed.
const DEPTH: usize = 32;

impl Panels {
    pub fn of(checked: &Checked) -> Self {
        let clauses = checked.sheet.clauses.iter().map(|&root| pattern(checked, root)).collect();
        Panels { types: Types::of(checked.sheet.clone()), clauses }
    }

    /// A panel of the subject type, most often near to one of the clauses; none if the type has no
    /// finite value or the panel would be too large.
    pub fn fitting(&self, random: &mut Random) -> Option<Panel> {
        let value = self.value(random)?;
        Some(layout::panel(random, &value))
    }

    fn value(&self, random: &mut Random) -> Option<Value> {
        let subject = self.types.sheet.subject;
        let mut maker = Maker::new(&self.types, random);
        if random.chance(5, 6) {
            let clause = random.pick(&self.clauses).clone();
            maker.matching(random, &clause, subject, DEPTH)
        } else {
            maker.value(random, subject, DEPTH)
        }
    }

    /// Such a panel with one to three parts of another kind or with a part fewer: its walk may be stuck at any depth.
    pub fn bent(&self, random: &mut Random) -> Option<Panel> {
        let mut value = self.value(random)?;
        for _ in 0..random.between(1, 3) {
            bend(random, &mut value);
        }
        Some(layout::panel(random, &value))
    }

    /// A panel of any kind: some fit, some are of another type, some are damaged.
    pub fn any(&self, random: &mut Random) -> Vec<u8> {
        if random.chance(1, 40) {
            return nested(random).to_bytes();
        }
        let panel = if random.chance(1, 3) {
            let other = random.below(self.types.sheet.types.len()) as u16;
            let value = Maker::new(&self.types, random).value(random, other, DEPTH);
            value.map(|value| layout::panel(random, &value))
        } else {
            self.fitting(random)
        };
        let mut panel = panel.unwrap_or_else(|| nested(random));
        match random.below(4) {
            0 => panel.to_bytes(),
            1 => {
                damage::misfit(random, &mut panel);
                panel.to_bytes()
            }
            _ => damage::damaged(random, &damage::PANEL, &panel.to_bytes()),
        }
    }
}

/// Makes a value, or a part of it, one of another kind, or takes its last part away.
pub fn bend(random: &mut Random, value: &mut Value) {
    let mut parts: Vec<&mut Value> = match value {
        Value::Int(_) | Value::Bytes(_) => vec![],
        Value::List(parts) | Value::Tuple(parts) | Value::Constr(_, parts) => {
            parts.iter_mut().collect()
        }
        Value::Pair(fst, snd) => vec![fst, snd],
    };
    if !parts.is_empty() && random.chance(3, 4) {
        let at = random.below(parts.len());
        return bend(random, parts[at]);
    }
    let mut parts: Vec<Value> = parts.into_iter().map(|part| part.clone()).collect();
    if random.chance(1, 3) {
        parts.pop();
    }
    *value = match random.below(7) {
        0 => Value::Int("7".to_string()),
        1 => Value::Bytes(vec![7]),
        2..=3 => Value::List(parts),
        4 => Value::Tuple(parts),
        5 if parts.len() == 2 => {
            let snd = Box::new(parts.remove(1));
            Value::Pair(Box::new(parts.remove(0)), snd)
        }
        _ => Value::Constr(random.below(3) as u16, parts),
    };
}

/// Lists in lists, about as deep as is allowed.
fn nested(random: &mut Random) -> Panel {
    let mut value = Value::List(vec![]);
    for _ in 1..random.between(DEPTH - 1, DEPTH + 1) {
        value = Value::List(vec![value]);
    }
    layout::panel(random, &value)
}

/// A pattern of a sheet as one writes it.
fn pattern(checked: &Checked, number: u16) -> Pattern {
    let p = checked.sheet.patterns[number as usize];
    let text = || checked.text(number as usize).to_vec();
    let mut parts: Vec<Pattern> =
        checked.parts(number as usize).iter().map(|&part| pattern(checked, part)).collect();
    match p.kind {
        P_DISCARD => Pattern::Discard,
        P_VARIABLE => Pattern::Variable(p.a),
        P_ASSIGN => Pattern::Assign(p.a, Box::new(parts.remove(0))),
        P_INT => Pattern::Int(String::from_utf8(text()).unwrap()),
        P_BYTES => Pattern::Bytes(text()),
        P_LIST => Pattern::List(parts),
        P_TAILED => Pattern::Tailed(parts),
        P_CONSTR => Pattern::Constr(p.a, parts),
        P_PAIR => {
            let snd = Box::new(parts.remove(1));
            Pattern::Pair(Box::new(parts.remove(0)), snd)
        }
        _ => Pattern::Tuple(parts),
    }
}
