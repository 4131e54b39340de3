//! The meaning of a sheet, with no tree: the first clause from the top whose pattern matches the
//! panel, and where each of its names lands.

use super::panel::{Position, whole};
use super::sheet::Checked;
use super::walk::Reached;
use crate::files::*;

/// The first matching clause with its names in pattern order.
pub fn first_match(checked: &Checked, panel: &Panel) -> Option<Reached> {
    checked.sheet.clauses.iter().enumerate().find_map(|(clause, &root)| {
        let mut bound = vec![];
        matches(checked, panel, root, whole(0), &mut bound)
            .then_some(Reached { clause: clause as u16, bound })
    })
}

/// Whether a pattern matches what stands at a position; collects what its names are bound to.
fn matches(
    checked: &Checked,
    panel: &Panel,
    pattern: u16,
    at: Position,
    bound: &mut Vec<(u16, Position)>,
) -> bool {
    let p = checked.sheet.patterns[pattern as usize];
    let r = panel.record(at);
    let inside = checked.parts(pattern as usize);
    let parts = panel.parts(at);
    match p.kind {
        P_DISCARD => true,
        P_VARIABLE => {
            bound.push((p.a, at));
            true
        }
        P_ASSIGN => {
            bound.push((p.a, at));
            matches(checked, panel, inside[0], at, bound)
        }
        P_INT => r.kind == V_INT && panel.text(at.record) == checked.text(pattern as usize),
        P_BYTES => r.kind == V_BYTES && panel.text(at.record) == checked.text(pattern as usize),
        P_TAILED => {
            let (&tail, elements) = inside.split_last().unwrap();
            if r.kind != V_LIST || parts.len() < elements.len() {
                return false;
            }
            let rest = Position { dropped: at.dropped + elements.len() as u16, ..at };
            each(checked, panel, elements, &parts[..elements.len()], bound)
                && matches(checked, panel, tail, rest, bound)
        }
        P_LIST => r.kind == V_LIST && each(checked, panel, inside, parts, bound),
        P_CONSTR => r.kind == V_CONSTR && r.a == p.a && each(checked, panel, inside, parts, bound),
        P_PAIR => r.kind == V_PAIR && each(checked, panel, inside, parts, bound),
        _ => r.kind == V_TUPLE && each(checked, panel, inside, parts, bound),
    }
}

/// Whether as many patterns as parts match them one by one.
fn each(
    checked: &Checked,
    panel: &Panel,
    patterns: &[u16],
    parts: &[u16],
    bound: &mut Vec<(u16, Position)>,
) -> bool {
    patterns.len() == parts.len()
        && patterns.iter().zip(parts).all(|(&p, &r)| matches(checked, panel, p, whole(r), bound))
}
