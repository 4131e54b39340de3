//! The proved library beside the reference: each call on the same bytes, with buffers full of
//! other bytes before it, and its answer and every byte after it compared.
//!
//! The library is the archive that `tools/staticlib.sh` writes, for x86-64 (library.sh).

use crate::plain;
use crate::reference::panel::Position;
use crate::reference::{Place, Refusal, calls};

unsafe extern "C" {
    fn dewmycel_build(
        sheet: *const u8,
        sheet_length: usize,
        tree: *mut u8,
        tree_length: usize,
        work: *mut u8,
        work_length: usize,
    ) -> u64;
    fn dewmycel_fit(
        sheet: *const u8,
        sheet_length: usize,
        panel: *const u8,
        panel_length: usize,
    ) -> u64;
    fn dewmycel_walk(
        tree: *const u8,
        tree_length: usize,
        panel: *const u8,
        panel_length: usize,
        bound: *mut u16,
        bound_length: usize,
    ) -> u64;
    fn dewmycel_text(panel: *const u8, panel_length: usize, record: u16, dropped: u16) -> u64;
}

/// The library is here.
pub const HERE: bool = true;

/// What a buffer holds before a call: nothing that the call may leave.
const BEFORE: u8 = 0xa5;

/// Four numbers of an answer, the refusal's first.
pub fn packed(a: u64, b: u64, c: u64, d: u64) -> u64 {
    a | b << 16 | c << 32 | d << 48
}

/// The refusal number of an answer.
pub fn refusal(answer: u64) -> u16 {
    answer as u16
}

fn packed_refusal(refusal: &Refusal) -> u64 {
    let number = refusal.number.into();
    match refusal.place {
        Place::Lowest(place) => packed(number, place.into(), 0, 0),
        Place::Stuck { node, step } => packed(number, node.into(), step.into(), 0),
    }
}

pub fn build(sheet: &[u8], tree: &mut [u8], work: &mut [u8]) -> u64 {
    // SAFETY: three slices, each with its length; those that are written are lent mutably.
    unsafe {
        dewmycel_build(
            sheet.as_ptr(),
            sheet.len(),
            tree.as_mut_ptr(),
            tree.len(),
            work.as_mut_ptr(),
            work.len(),
        )
    }
}

pub fn walk(tree: &[u8], panel: &[u8], bound: &mut [u16]) -> u64 {
    // SAFETY: three slices, each with its length; the one that is written is lent mutably.
    unsafe {
        dewmycel_walk(
            tree.as_ptr(),
            tree.len(),
            panel.as_ptr(),
            panel.len(),
            bound.as_mut_ptr(),
            bound.len(),
        )
    }
}

pub fn text(panel: &[u8], record: u16, dropped: u16) -> u64 {
    // SAFETY: one slice that is read, with its length.
    unsafe { dewmycel_text(panel.as_ptr(), panel.len(), record, dropped) }
}

fn same(what: &str, ours: u64, theirs: u64) -> Result<(), String> {
    if ours == theirs {
        return Ok(());
    }
    Err(format!("{what}: the library answers {ours:#018x}, the reference {theirs:#018x}"))
}

/// The build call, on buffers of these lengths.
pub fn same_build(sheet: &[u8], tree_length: usize, work_length: usize) -> Result<(), String> {
    let (mut tree, mut work) = (vec![BEFORE; tree_length], vec![BEFORE; work_length]);
    let ours = build(sheet, &mut tree, &mut work);
    let (mut tree2, mut work2) = (vec![BEFORE; tree_length], vec![BEFORE; work_length]);
    let theirs = match calls::build(sheet, &mut tree2, &mut work2) {
        Ok(x) => packed(0, x.length as u64, x.nodes as u64, x.bindings as u64),
        Err(refusal) => packed_refusal(&refusal),
    };
    same("build", ours, theirs)?;
    if tree != tree2 {
        return Err("build: the tree buffers differ".to_string());
    }
    if work != work2 {
        return Err("build: the work buffers differ".to_string());
    }
    Ok(())
}

/// The fit check.
pub fn same_fit(sheet: &[u8], panel: &[u8]) -> Result<(), String> {
    // SAFETY: two slices that are read, each with its length.
    let ours = unsafe { dewmycel_fit(sheet.as_ptr(), sheet.len(), panel.as_ptr(), panel.len()) };
    let theirs = calls::fit(sheet, panel).err().map_or(0, |refusal| packed_refusal(&refusal));
    same("fit", ours, theirs)
}

/// The walk, with a binding buffer of this length.
pub fn same_walk(tree: &[u8], panel: &[u8], bound_length: usize) -> Result<(), String> {
    let before = u16::from_ne_bytes([BEFORE; 2]);
    let (mut bound, mut bound2) = (vec![before; bound_length], vec![before; bound_length]);
    let ours = walk(tree, panel, &mut bound);
    let theirs = match calls::walk(tree, panel, &mut bound2) {
        Ok(Some((clause, count))) => packed(0, clause.into(), count as u64, 1),
        Ok(None) => 0,
        Err(refusal) => packed_refusal(&refusal),
    };
    same("walk", ours, theirs)?;
    if bound != bound2 {
        return Err("walk: the binding buffers differ".to_string());
    }
    match refusal(ours) {
        0 | 32 => same_plain(tree, panel, ours, &bound),
        _ => Ok(()),
    }
}

/// The plain walkers on a tree and a panel that passed their checks. Where the walk is stuck those that
/// ask say so too, at the same node and step.
pub fn same_plain(tree: &[u8], panel: &[u8], answer: u64, bound: &[u16]) -> Result<(), String> {
    let stuck = refusal(answer) != 0;
    for (name, walker) in plain::ASKING.into_iter().chain((!stuck).then_some(plain::TRUSTING)) {
        let mut written = vec![0; bound.len()];
        // SAFETY: the library walked these files, so the tree and the panel passed their checks; where the walk is not
        // stuck every part that is asked for is there.
        let theirs = unsafe { walker(tree, panel, &mut written) };
        same(name, answer, theirs)?;
        if !stuck && written != bound {
            return Err(format!("{name}: the binding buffers differ"));
        }
    }
    Ok(())
}

/// The text call.
pub fn same_text(panel: &[u8], at: Position) -> Result<(), String> {
    let ours = text(panel, at.record, at.dropped);
    let theirs = match calls::text(panel, at) {
        Ok((start, length)) => packed(0, start as u64, length as u64, 0),
        Err(refusal) => packed_refusal(&refusal),
    };
    same("text", ours, theirs)
}
