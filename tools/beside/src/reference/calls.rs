//! The calls of the document, each with its own answer and every byte of what is lent to it.

use super::panel::Position;
use super::sheet::Checked;
use super::{Refusal, build, panel, refused, sheet, tree_file, walk};
use crate::files::V_BYTES;

/// What a build answers: tree length, nodes, bindings.
#[derive(Clone, Copy, Debug, PartialEq, Eq)]
pub struct BuildAnswer {
    pub length: usize,
    pub nodes: usize,
    pub bindings: usize,
}

/// Refusals 2 to 14 of a sheet, or its checked form and its tree.
pub fn tree_of(bytes: &[u8]) -> Result<(Checked, build::Built), Refusal> {
    let checked = sheet::check(bytes)?;
    let built = build::build(&checked)?;
    Ok((checked, built))
}

/// The build call: refusals 1 to 14.
pub fn build(bytes: &[u8], tree: &mut [u8], work: &mut [u8]) -> Result<BuildAnswer, Refusal> {
    tree.fill(0);
    work.fill(0);
    if tree.len() < 65536 || work.len() < 65536 {
        return refused(1);
    }
    let (checked, built) = tree_of(bytes)?;
    let file = tree_file::written(&built.root, &checked.sheet.pool);
    tree[..file.len()].copy_from_slice(&file);
    Ok(BuildAnswer { length: file.len(), nodes: built.nodes, bindings: built.bindings })
}

/// The fit check: refusals 2 to 11 of the sheet, then 21 to 25.
pub fn fit(sheet_bytes: &[u8], panel_bytes: &[u8]) -> Result<(), Refusal> {
    let checked = sheet::check(sheet_bytes)?;
    let panel = panel::check(panel_bytes)?;
    if panel::fits(&panel, 0, &checked, checked.sheet.subject) { Ok(()) } else { refused(25) }
}

/// The walk: refusal 1, 31, 21 to 24, 32 with a node and a step; a clause and the number of its bindings, or no leaf.
/// A binding is three numbers of the buffer: name, record, dropped.
pub fn walk(
    tree_bytes: &[u8],
    panel_bytes: &[u8],
    bound: &mut [u16],
) -> Result<Option<(u16, usize)>, Refusal> {
    bound.fill(0);
    if bound.len() < 576 {
        return refused(1);
    }
    let tree = tree_file::read(tree_bytes)?;
    let panel = panel::check(panel_bytes)?;
    let Some(reached) = walk::walk(&tree, &panel)? else {
        return Ok(None);
    };
    for (i, (name, at)) in reached.bound.iter().enumerate() {
        bound[3 * i..3 * i + 3].copy_from_slice(&[*name, at.record, at.dropped]);
    }
    Ok(Some((reached.clause, reached.bound.len())))
}

/// The text call: refusals 21 to 24, then 33; start and length in the panel file.
pub fn text(panel_bytes: &[u8], at: Position) -> Result<(usize, usize), Refusal> {
    let panel = panel::check(panel_bytes)?;
    match panel.records.get(at.record as usize) {
        Some(r) if r.kind <= V_BYTES && at.dropped == 0 => {
            let pool = panel.records.len() * 8 + panel.children.len() * 2;
            Ok((pool + r.first as usize, r.count as usize))
        }
        _ => refused(33),
    }
}

/// The twin of the text call: that part of the panel file, empty if refused.
pub fn text_part(panel_bytes: &[u8], at: Position) -> &[u8] {
    match text(panel_bytes, at) {
        Ok((start, length)) => &panel_bytes[start..start + length],
        Err(_) => &[],
    }
}
