//! What a sheet and its tree have in them, by name, so that a run can say what it reached.

use std::collections::{BTreeMap, BTreeSet};

use crate::files::*;
use crate::reference::sheet::Checked;
use crate::tree::*;

/// The names of what an accepted sheet and its tree have.
pub fn of(checked: &Checked, root: &Node) -> BTreeSet<&'static str> {
    let mut found = BTreeSet::new();
    let mut note = |what, there| {
        if there {
            found.insert(what);
        }
    };
    let sheet = &checked.sheet;
    let depth = sheet.clauses.iter().map(|&root| depth(checked, root)).max().unwrap_or(0);
    let kind = |kind: u8| sheet.patterns.iter().any(|p| p.kind == kind);
    note("32 clauses", sheet.clauses.len() == 32);
    note("over 16 clauses", sheet.clauses.len() > 16);
    note("over 150 patterns", sheet.patterns.len() > 150);
    note("depth 12", depth == 12);
    note("depth over 6", depth > 6);
    note("assigns", kind(P_ASSIGN));
    note("lists", kind(P_LIST));
    note("tails", kind(P_TAILED));
    note("pairs", kind(P_PAIR));
    note("an equal text twice", equal_texts(checked));
    note("a list, pair or tuple in itself", contains_itself(sheet));

    let mut seen = Seen::default();
    look(root, 0, &mut seen);
    note("list cases beside tail cases", seen.both);
    note("tail cases alone", seen.tails_alone);
    note("a switch without default", seen.no_default);
    note("a hoist below the root", seen.low_hoist);
    note("a step with true", seen.paths.iter().any(|p| p.iter().any(|step| step.flag == 1)));
    note("a step into a one-constructor type", seen.steps_into(sheet, |count| count == 1));
    note("a step into a several-constructor type", seen.steps_into(sheet, |count| count > 1));
    let shown: BTreeSet<String> = seen.paths.iter().map(|path| show_path(path)).collect();
    let whole: BTreeSet<String> = seen.paths.iter().map(|path| format!("{path:?}")).collect();
    note("two paths that print alike", shown.len() < whole.len());
    note("leaves of a clause in two orders", seen.orders.values().any(|orders| orders.len() > 1));
    found
}

fn depth(checked: &Checked, pattern: u16) -> usize {
    let parts = checked.parts(pattern as usize);
    1 + parts.iter().map(|&part| depth(checked, part)).max().unwrap_or(0)
}

/// Whether two patterns have an equal text at different places of the pool.
fn equal_texts(checked: &Checked) -> bool {
    let mut places: BTreeMap<&[u8], u16> = BTreeMap::new();
    let patterns = checked.sheet.patterns.iter().enumerate();
    patterns
        .filter(|(_, p)| matches!(p.kind, P_INT | P_BYTES))
        .any(|(number, p)| *places.entry(checked.text(number)).or_insert(p.first) != p.first)
}

/// Whether a list, pair or tuple contains itself with no data type between.
fn contains_itself(sheet: &Sheet) -> bool {
    let entries = |t: u16| -> &[u16] {
        let record = sheet.types[t as usize];
        match record.kind {
            LIST | PAIR | TUPLE => {
                &sheet.type_list[record.first as usize..][..record.count as usize]
            }
            _ => &[],
        }
    };
    (0..sheet.types.len() as u16).any(|start| {
        let mut inside: BTreeSet<u16> = BTreeSet::new();
        let mut open = entries(start).to_vec();
        while let Some(t) = open.pop() {
            if inside.insert(t) {
                open.extend(entries(t));
            }
        }
        inside.contains(&start)
    })
}

/// What a look at every node of a tree finds.
#[derive(Default)]
struct Seen {
    both: bool,
    tails_alone: bool,
    no_default: bool,
    low_hoist: bool,
    paths: Vec<Path>,
    /// The orders in which the leaves of a clause bind.
    orders: BTreeMap<u16, BTreeSet<Vec<u16>>>,
}

impl Seen {
    /// Whether a path steps into a data type with such a number of constructors.
    fn steps_into(&self, sheet: &Sheet, wanted: fn(u16) -> bool) -> bool {
        let mut steps = self.paths.iter().flat_map(|path| path.iter());
        steps.any(|step| step.kind == S_CONSTR && wanted(sheet.types[step.of as usize].count))
    }
}

fn look(node: &Node, level: usize, seen: &mut Seen) {
    match node {
        Node::Leaf { clause, bindings } => {
            let names = bindings.iter().map(|b| b.name).collect();
            seen.orders.entry(*clause).or_default().insert(names);
            seen.paths.extend(bindings.iter().map(|b| b.path.clone()));
        }
        Node::Hoist { .. } => seen.low_hoist |= level > 0,
        Node::Switch { path, default, .. } => {
            seen.paths.push(path.clone());
            seen.no_default |= default.is_none();
        }
        Node::ListSwitch { path, cases, tail_cases, default } => {
            seen.paths.push(path.clone());
            seen.no_default |= default.is_none();
            seen.both |= !cases.is_empty() && !tail_cases.is_empty();
            seen.tails_alone |= cases.is_empty();
        }
    }
    // A level is a switch passed.
    let below = level + !matches!(node, Node::Hoist { .. }) as usize;
    for child in node.children() {
        look(child, below, seen);
    }
}
