//! The walk of any tree file over any panel, and refusal 32 with the node and the step where it is stuck.

use super::panel::{Position, whole};
use super::tree_file::Tree;
use super::{Place, Refusal};
use crate::files::*;
use crate::tree::*;

/// A clause with what its names are bound to, in the leaf's order.
#[derive(Clone, Debug, PartialEq, Eq)]
pub struct Reached {
    pub clause: u16,
    pub bound: Vec<(u16, Position)>,
}

/// A path that does not lead where its node needs it to lead: a step of it cannot be taken, or the part that it leads to is
/// of a kind that the node does not test.
struct Broken<'a>(&'a [Step]);

/// The leaf that is reached, or none; 32 where the panel has no such part, with the number of the node's record and how many
/// steps of the broken path are taken: that is the number of the step that is not, and the path's length where all are.
pub fn walk(tree: &Tree, panel: &Panel) -> Result<Option<Reached>, Refusal> {
    let mut node = 0;
    loop {
        let (kind, fields) = tree.nodes[node as usize];
        let next = match kind {
            0 => switch(tree, panel, fields),
            1 => list_switch(tree, panel, fields),
            2 => match leaf(tree, panel, fields) {
                Ok(reached) => return Ok(Some(reached)),
                Err(broken) => Err(broken),
            },
            _ => Ok(Some(fields[3])),
        };
        match next {
            Ok(Some(next)) => node = next,
            Ok(None) => return Ok(None),
            Err(Broken(path)) => {
                let place = Place::Stuck { node, step: taken(path, panel) };
                return Err(Refusal { number: 32, place });
            }
        }
    }
}

/// How many steps of a path are taken: the longest start of it that leads somewhere. The empty one leads to the root.
fn taken(path: &[Step], panel: &Panel) -> u16 {
    let longest = (0..=path.len()).rev().find(|&steps| follow(&path[..steps], panel).is_some());
    longest.expect("the root is there") as u16
}

/// The position that a path leads to from the root, if there is one.
fn follow(path: &[Step], panel: &Panel) -> Option<Position> {
    let mut at = whole(0);
    for step in path {
        let kind = match step.kind {
            S_PAIR => V_PAIR,
            S_TUPLE => V_TUPLE,
            S_CONSTR => V_CONSTR,
            _ => V_LIST,
        };
        if panel.record(at).kind != kind {
            return None;
        }
        let parts = panel.parts(at);
        if step.kind == S_LISTTAIL {
            if step.index as usize > parts.len() {
                return None;
            }
            at.dropped += step.index;
        } else {
            at = whole(*parts.get(step.index as usize)?);
        }
    }
    Some(at)
}

/// The position that a path leads to, if the part there is of this kind.
fn tested<'a>(path: &'a [Step], panel: &Panel, kind: u8) -> Result<Position, Broken<'a>> {
    follow(path, panel).filter(|&at| panel.record(at).kind == kind).ok_or(Broken(path))
}

/// The first case that holds, else the default.
fn switch<'a>(tree: &'a Tree, panel: &Panel, fields: [u16; 5]) -> Result<Option<u16>, Broken<'a>> {
    let [path, first, cases, _, default] = fields;
    let cases = &tree.cases[first as usize..][..cases as usize];
    let wanted = [V_CONSTR, V_INT, V_BYTES][cases[0].0 as usize];
    let at = tested(tree.steps_of(path), panel, wanted)?;
    let r = panel.record(at);
    let holds = |&&(_, [number, length, _]): &&(u8, [u16; 3])| {
        if wanted == V_CONSTR {
            r.a == number
        } else {
            panel.text(at.record) == tree.text(number, length)
        }
    };
    Ok(cases.iter().find(holds).map(|case| case.1[2]).or(default.checked_sub(1)))
}

/// The first case of the exact length, else the first of the largest tail number not above it,
/// else the default.
fn list_switch<'a>(
    tree: &'a Tree,
    panel: &Panel,
    fields: [u16; 5],
) -> Result<Option<u16>, Broken<'a>> {
    let [path, first, cases, tails, default] = fields;
    let all = &tree.cases[first as usize..][..cases as usize + tails as usize];
    let (cases, tails) = all.split_at(cases as usize);
    let at = tested(tree.steps_of(path), panel, V_LIST)?;
    let length = panel.parts(at).len() as u16;
    let exact = cases.iter().find(|(_, [number, ..])| *number == length);
    let largest = tails.iter().map(|(_, [number, ..])| *number).filter(|n| *n <= length).max();
    let tailed = tails.iter().find(|(_, [number, ..])| Some(*number) == largest);
    Ok(exact.or(tailed).map(|case| case.1[2]).or(default.checked_sub(1)))
}

/// The bindings in the order of the file; the first whose path cannot be followed is the one that counts.
fn leaf<'a>(tree: &'a Tree, panel: &Panel, fields: [u16; 5]) -> Result<Reached, Broken<'a>> {
    let [clause, first, count, ..] = fields;
    let mut bound = vec![];
    for &[name, path] in &tree.bindings[first as usize..][..count as usize] {
        let path = tree.steps_of(path);
        bound.push((name, follow(path, panel).ok_or(Broken(path))?));
    }
    Ok(Reached { clause, bound })
}
