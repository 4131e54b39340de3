//! The comparison at scale: random sheets given to the reference and to the oracle, walks of random
//! panels held against the direct matcher, and counts of what was reached.

use std::collections::BTreeMap;

use crate::files::{Panel, PanelWriter};
use crate::generate::panels::{Panels, bend};
use crate::generate::{damage, sheets, trees};
#[cfg(feature = "library")]
use crate::library;
use crate::oracle;
use crate::random::Random;
use crate::reached;
use crate::reference::panel::{Position, whole};
use crate::reference::sheet::Checked;
use crate::reference::walk::Reached;
use crate::reference::{Place, Refusal, build, calls, matcher, sheet, tree_file, walk};
use crate::rows;
use crate::tree::{Node, listing};

/// How often each refusal number was given; 0 stands for none.
type Numbers = BTreeMap<u16, usize>;

/// The proved library, where the tool is built with it; else nothing is compared with it.
#[cfg(not(feature = "library"))]
mod library {
    use super::Position;

    pub const HERE: bool = false;

    pub fn same_build(_: &[u8], _: usize, _: usize) -> Result<(), String> {
        Ok(())
    }

    pub fn same_fit(_: &[u8], _: &[u8]) -> Result<(), String> {
        Ok(())
    }

    pub fn same_walk(_: &[u8], _: &[u8], _: usize) -> Result<(), String> {
        Ok(())
    }

    pub fn same_text(_: &[u8], _: Position) -> Result<(), String> {
        Ok(())
    }
}

/// The length of a buffer: the least that 01 asks, and in some cases one fewer or some more.
fn around(case: usize, least: usize) -> usize {
    match case % 64 {
        0 => least - 1,
        1 => least + 100,
        _ => least,
    }
}

#[derive(Default)]
pub struct Counts {
    library_builds: usize,
    library_walks: usize,
    library_fits: usize,
    library_texts: usize,
    sheets: Numbers,
    compared: usize,
    compared_idle: usize,
    nodes: usize,
    bindings: usize,
    /// Trees of under 10, under 100, under 500 and more nodes.
    sizes: [usize; 4],
    largest: usize,
    reached: BTreeMap<&'static str, usize>,
    by_hand: usize,
    fitting: usize,
    leaves: usize,
    no_leaves: usize,
    panels: Numbers,
    any_walks: Numbers,
    bent_walks: Numbers,
    made_walks: Numbers,
    trees: Numbers,
    tree_walks: Numbers,
    /// Walks that are stuck, by where.
    stuck: BTreeMap<&'static str, usize>,
    texts: Numbers,
    /// By case; the hand-made walks are before the first.
    pub differences: Vec<(usize, String)>,
}

impl Counts {
    /// Adds what another part of the cases gave.
    fn add(&mut self, other: Counts) {
        self.library_builds += other.library_builds;
        self.library_walks += other.library_walks;
        self.library_fits += other.library_fits;
        self.library_texts += other.library_texts;
        self.compared += other.compared;
        self.compared_idle += other.compared_idle;
        self.nodes += other.nodes;
        self.bindings += other.bindings;
        self.sizes = std::array::from_fn(|i| self.sizes[i] + other.sizes[i]);
        self.largest = self.largest.max(other.largest);
        self.fitting += other.fitting;
        self.leaves += other.leaves;
        self.no_leaves += other.no_leaves;
        add(&mut self.reached, other.reached);
        add(&mut self.sheets, other.sheets);
        add(&mut self.panels, other.panels);
        add(&mut self.any_walks, other.any_walks);
        add(&mut self.bent_walks, other.bent_walks);
        add(&mut self.made_walks, other.made_walks);
        add(&mut self.trees, other.trees);
        add(&mut self.tree_walks, other.tree_walks);
        add(&mut self.stuck, other.stuck);
        add(&mut self.texts, other.texts);
        self.differences.extend(other.differences);
    }
}

fn add<K: Ord>(counts: &mut BTreeMap<K, usize>, other: BTreeMap<K, usize>) {
    for (key, count) in other {
        *counts.entry(key).or_default() += count;
    }
}

fn number<T>(answer: &Result<T, Refusal>) -> u16 {
    answer.as_ref().err().map_or(0, |refusal| refusal.number)
}

/// Counts what a walk answers, and where it is stuck.
fn count_walk<T>(
    answer: &Result<T, Refusal>,
    tree: &tree_file::Tree,
    walks: &mut Numbers,
    stuck: &mut BTreeMap<&'static str, usize>,
) -> Result<(), String> {
    *walks.entry(number(answer)).or_default() += 1;
    if let Err(Refusal { place: Place::Stuck { node, step }, .. }) = answer {
        *stuck.entry(stuck_at(tree, *node, *step)?).or_default() += 1;
    }
    Ok(())
}

/// Where a node and a step are: a step of a node's path, or the test behind it.
fn stuck_at(tree: &tree_file::Tree, node: u16, step: u16) -> Result<&'static str, String> {
    let (kind, fields) = tree.nodes[node as usize];
    // Of a switch the length of its path; a leaf has no test.
    let length = if kind < 2 { tree.steps_of(fields[0]).len() as u16 } else { u16::MAX };
    match (kind, step) {
        (2, 0) => Ok("at a leaf, the first step of a path"),
        (2, _) => Ok("at a leaf, a later step"),
        (0 | 1, 0) if length == 0 => Ok("at a test of the root"),
        (0 | 1, _) if step == length => Ok("at a test behind steps"),
        (0 | 1, 0) => Ok("at a switch, the first step of its path"),
        (0 | 1, _) if step < length => Ok("at a switch, a later step"),
        _ => Err(format!("a walk is stuck at node {node}, step {step}, which is no place")),
    }
}

/// The hand-made walks of crates/test_walk: the reference's answer against the one written down, and the library's against the
/// reference's.
fn by_hand(counts: &mut Counts) -> Result<(), String> {
    let mut written = rows::ANSWERS.lines();
    for walk in rows::walks() {
        let ours = rows::answered(&walk);
        if written.next() != Some(ours.trim_end()) {
            return Err(format!("the reference answers otherwise than test_walk's stdout: {ours}"));
        }
        library::same_walk(&walk.tree, &walk.panel, walk.words)
            .map_err(|what| format!("{}: {what}", walk.name))?;
        counts.library_walks += 1;
        counts.by_hand += 1;
    }
    Ok(())
}

/// What a comparison is asked: the random sheets of a seed, and how many fitting panels of each are walked.
#[derive(Clone, Copy)]
pub struct Asked {
    pub cases: usize,
    pub seed: u64,
    pub panels: usize,
}

/// Fitting panels a sheet. With them 100,000 sheets give over 1,000,000 walks.
pub const PANELS: usize = 24;

/// Bent panels a sheet, whose walks are often stuck.
const BENT: usize = 6;

/// Panels a tree that no sheet has.
const MADE: usize = 6;

/// Compares random sheets and their panels, on every processor of the machine. Each case has a
/// generator of its own, so the counts are the same however many there are.
pub fn run(asked: Asked) -> Counts {
    let threads = std::thread::available_parallelism().map_or(1, |n| n.get());
    let parts = std::thread::scope(|scope| {
        let spawn = |first: usize| {
            let part = std::thread::Builder::new().stack_size(crate::STACK);
            part.spawn_scoped(scope, move || every(asked, first, threads)).expect("a thread")
        };
        let parts: Vec<_> = (0..threads).map(spawn).collect();
        parts.into_iter().map(|part| part.join().expect("its counts")).collect::<Vec<_>>()
    });
    let mut counts = Counts::default();
    if let Err(what) = by_hand(&mut counts) {
        counts.differences.push((0, format!("by hand: {what}")));
    }
    parts.into_iter().for_each(|part| counts.add(part));
    counts.differences.sort();
    counts
}

/// Every so many'th case from the first on.
fn every(asked: Asked, first: usize, many: usize) -> Counts {
    let mut counts = Counts::default();
    for case in (first..asked.cases).step_by(many) {
        let mut random = Random::of_case(asked.seed, case as u64);
        let bytes = sheets::any(&mut random);
        if let Err(what) = one(&mut random, case, asked.panels, &bytes, &mut counts) {
            let decimal: Vec<String> = bytes.iter().map(u8::to_string).collect();
            let what = format!("case {case}: {what}\nsheet: {}", decimal.join(" "));
            counts.differences.push((case, what));
        }
        // A generator of its own, so that the sheets of a seed stay what they are.
        let mut random = Random::of_case(!asked.seed, case as u64);
        if let Err(what) = made_tree(&mut random, &mut counts) {
            counts.differences.push((case, format!("case {case}: {what}")));
        }
    }
    counts
}

/// A tree that no sheet has, walked on the panel that its paths lead through and on bent copies of it.
fn made_tree(random: &mut Random, counts: &mut Counts) -> Result<(), String> {
    let mut value = trees::value(random, 4);
    let root = trees::tree(random, &value, 4);
    let file = tree_file::written(&root, trees::POOL);
    let tree = tree_file::read(&file).map_err(|_| "the reader refuses a made tree")?;
    for _ in 0..MADE {
        let panel = PanelWriter::written(&value);
        count_walk(&walk::walk(&tree, &panel), &tree, &mut counts.made_walks, &mut counts.stuck)?;
        let panel = panel.to_bytes();
        library::same_walk(&file, &panel, 576)
            .map_err(|what| format!("{what}\ntree: {file:?}\npanel: {panel:?}"))?;
        counts.library_walks += 1;
        bend(random, &mut value);
    }
    Ok(())
}

/// One sheet: what differs, if something does.
fn one(
    random: &mut Random,
    case: usize,
    fitting_panels: usize,
    bytes: &[u8],
    counts: &mut Counts,
) -> Result<(), String> {
    library::same_build(bytes, around(case, 65536), around(case / 64, 65536))?;
    counts.library_builds += 1;
    let checked = sheet::check(bytes);
    let answer = checked.as_ref().map_err(|r| *r).and_then(build::build);
    *counts.sheets.entry(number(&answer)).or_default() += 1;
    let Ok(checked) = checked else {
        return Ok(());
    };
    let Ok(built) = answer else {
        return idle(&checked, counts);
    };
    counts.compared += 1;
    counts.nodes += built.nodes;
    counts.bindings += built.bindings;
    counts.largest = counts.largest.max(built.nodes);
    let size = [10, 100, 500].iter().filter(|&&limit| built.nodes >= limit).count();
    counts.sizes[size] += 1;
    for what in reached::of(&checked, &built.root) {
        *counts.reached.entry(what).or_default() += 1;
    }
    same(&built.root, &oracle::build(&checked))?;

    let file = tree_file::written(&built.root, &checked.sheet.pool);
    let tree = tree_file::read(&file).map_err(|_| "the reader refuses a written tree")?;
    if tree.node(0) != built.root {
        return Err("the written tree reads otherwise".to_string());
    }
    let panels = Panels::of(&checked);
    for _ in 0..fitting_panels {
        let Some(panel) = panels.fitting(random) else {
            break;
        };
        counts.fitting += 1;
        fitting(bytes, &checked, &tree, &panel, counts)?;
        let panel = panel.to_bytes();
        library_on(bytes, &file, &panel, around(case, 576), counts)?;
    }
    for _ in 0..3 {
        let panel = panels.any(random);
        any_panel(random, bytes, &file, &panel, counts)?;
        library_on(bytes, &file, &panel, 576, counts)?;
    }
    for _ in 0..2 {
        damaged_tree(random, &file, &panels, counts)?;
    }
    for _ in 0..BENT {
        let Some(panel) = panels.bent(random) else {
            break;
        };
        count_walk(&walk::walk(&tree, &panel), &tree, &mut counts.bent_walks, &mut counts.stuck)?;
        library_on(bytes, &file, &panel.to_bytes(), 576, counts)?;
    }
    Ok(())
}

/// The library's fit check and walk of a panel.
fn library_on(
    sheet: &[u8],
    tree: &[u8],
    panel: &[u8],
    bound: usize,
    counts: &mut Counts,
) -> Result<(), String> {
    library::same_fit(sheet, panel)?;
    counts.library_fits += 1;
    library::same_walk(tree, panel, bound)?;
    counts.library_walks += 1;
    Ok(())
}

/// A sheet refused by 13 or 14 still has a tree of moderate size: the Rust's is the same, but for
/// the one-leaf tree, where the Rust hoists idle clauses too.
fn idle(checked: &Checked, counts: &mut Counts) -> Result<(), String> {
    let Ok(whole) = build::whole(checked) else {
        return Ok(());
    };
    let one_leaf =
        matches!(&whole.root, Node::Hoist { child, .. } if matches!(**child, Node::Leaf { .. }));
    if one_leaf && !whole.idle.is_empty() {
        return Ok(());
    }
    counts.compared_idle += 1;
    same(&whole.root, &oracle::build(checked))
}

/// Node for node, with the types of steps; and the listings to the letter.
fn same(reference: &Node, oracle: &Node) -> Result<(), String> {
    let (ours, theirs) = (listing(reference), listing(oracle));
    if ours != theirs {
        return Err(format!("listings differ\nreference:\n{ours}oracle:\n{theirs}"));
    }
    if reference != oracle {
        return Err(format!(
            "types of steps differ\nreference:\n{reference:?}\noracle:\n{oracle:?}"
        ));
    }
    Ok(())
}

/// The walk against the direct matcher: the same clause, and each name once at the same position.
fn fitting(
    sheet: &[u8],
    checked: &Checked,
    tree: &tree_file::Tree,
    panel: &Panel,
    counts: &mut Counts,
) -> Result<(), String> {
    let bytes = panel.to_bytes();
    calls::fit(sheet, &bytes).map_err(|r| format!("a fitting panel refused by {}", r.number))?;
    let sorted = |reached: Option<Reached>| {
        reached.map(|mut reached| {
            reached.bound.sort();
            reached
        })
    };
    let walked = walk::walk(tree, panel).map_err(|_| "a fitting panel is stuck")?;
    for (_, at) in walked.iter().flat_map(|reached| &reached.bound) {
        let text = calls::text(&bytes, *at);
        *counts.texts.entry(number(&text)).or_default() += 1;
        library::same_text(&bytes, *at)?;
        counts.library_texts += 1;
        if text.is_ok() && calls::text_part(&bytes, *at) != panel.text(at.record) {
            return Err("the text of a binding differs".to_string());
        }
    }
    match walked {
        Some(_) => counts.leaves += 1,
        None => counts.no_leaves += 1,
    }
    let (walked, matched) = (sorted(walked), sorted(matcher::first_match(checked, panel)));
    if walked != matched {
        return Err(format!("walk {walked:?}, matcher {matched:?}\npanel: {bytes:?}"));
    }
    Ok(())
}

/// A panel of any kind: counts what the fit check, the walk and the text call answer.
fn any_panel(
    random: &mut Random,
    sheet: &[u8],
    tree: &[u8],
    panel: &[u8],
    counts: &mut Counts,
) -> Result<(), String> {
    *counts.panels.entry(number(&calls::fit(sheet, panel))).or_default() += 1;
    let walked = calls::walk(tree, panel, &mut [0; 576]);
    let read = tree_file::read(tree).map_err(|_| "the reader refuses a written tree")?;
    count_walk(&walked, &read, &mut counts.any_walks, &mut counts.stuck)?;
    let at = if random.chance(2, 3) {
        whole(random.below(6) as u16)
    } else {
        Position { record: random.below(600) as u16, dropped: random.below(3) as u16 }
    };
    *counts.texts.entry(number(&calls::text(panel, at))).or_default() += 1;
    counts.library_texts += 1;
    library::same_text(panel, at)
}

/// A damaged tree: counts what the reader answers, and the walk where it is still read.
fn damaged_tree(
    random: &mut Random,
    tree: &[u8],
    panels: &Panels,
    counts: &mut Counts,
) -> Result<(), String> {
    let damaged = damage::damaged(random, &damage::TREE, tree);
    let read = tree_file::read(&damaged);
    *counts.trees.entry(number(&read)).or_default() += 1;
    let Some(panel) = panels.fitting(random) else {
        return Ok(());
    };
    if let Ok(tree) = read {
        let walked = walk::walk(&tree, &panel);
        count_walk(&walked, &tree, &mut counts.tree_walks, &mut counts.stuck)?;
    }
    counts.library_walks += 1;
    library::same_walk(&damaged, &panel.to_bytes(), 576)
}

fn show(numbers: &Numbers) -> String {
    let shown: Vec<String> = numbers
        .iter()
        .map(|(number, count)| match number {
            0 => format!("accepted {count}"),
            n => format!("{n}: {count}"),
        })
        .collect();
    shown.join(", ")
}

impl std::fmt::Display for Counts {
    fn fmt(&self, f: &mut std::fmt::Formatter) -> std::fmt::Result {
        let c = self;
        writeln!(f, "sheets by refusal number: {}", show(&c.sheets))?;
        writeln!(
            f,
            "trees compared with the Rust: {} accepted, {} more refused by 13 or 14",
            c.compared, c.compared_idle
        )?;
        let [small, medium, large, huge] = c.sizes;
        writeln!(
            f,
            "their nodes: {}, bindings: {}; under 10 nodes {small}, under 100 {medium}, under 500 {large}, more {huge}, the largest {}",
            c.nodes, c.bindings, c.largest
        )?;
        let reached: Vec<String> = c.reached.iter().map(|(w, n)| format!("{w} {n}")).collect();
        writeln!(f, "accepted sheets with: {}", reached.join(", "))?;
        writeln!(
            f,
            "walks of fitting panels compared with the matcher: {} ({} at a leaf, {} no leaf)",
            c.fitting, c.leaves, c.no_leaves
        )?;
        writeln!(f, "fit checks of any panels: {}", show(&c.panels))?;
        writeln!(f, "walks of any panels: {}", show(&c.any_walks))?;
        writeln!(f, "damaged trees: {}", show(&c.trees))?;
        writeln!(f, "walks of damaged trees that are still read: {}", show(&c.tree_walks))?;
        writeln!(f, "walks of bent panels: {}", show(&c.bent_walks))?;
        writeln!(f, "walks of trees that no sheet has: {}", show(&c.made_walks))?;
        let stuck: Vec<String> = c.stuck.iter().map(|(w, n)| format!("{w} {n}")).collect();
        writeln!(f, "walks stuck: {}", stuck.join(", "))?;
        writeln!(f, "hand-made walks of test_walk: {}", c.by_hand)?;
        writeln!(f, "text calls: {}", show(&c.texts))?;
        if library::HERE {
            writeln!(
                f,
                "the library against the reference, answers and every byte: {} builds, {} fit checks, {} walks, {} text calls; the plain walkers too where a walk ends",
                c.library_builds, c.library_fits, c.library_walks, c.library_texts
            )?;
        }
        writeln!(f, "differences: {}", c.differences.len())
    }
}
