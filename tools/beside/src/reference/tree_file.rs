//! The tree file: its bytes as the document has them, and the reader's conditions (31).

use super::{Refusal, laid_out, refused, run_inside};
use crate::files::{put, u16_at};
use crate::tree::*;

/// The bytes of a tree.
pub fn written(root: &Node, pool: &[u8]) -> Vec<u8> {
    let mut writer = Writer::default();
    writer.node(root);

    let mut steps: Vec<Step> = vec![];
    let mut out = vec![];
    let mut starts = vec![0];
    for (kind, fields) in &writer.nodes {
        out.extend([*kind, 0]);
        fields.iter().for_each(|f| put(&mut out, *f));
    }
    starts.push(out.len());
    for (kind, fields) in &writer.cases {
        out.extend([*kind, 0]);
        fields.iter().for_each(|f| put(&mut out, *f));
    }
    starts.push(out.len());
    for (name, path) in &writer.bindings {
        put(&mut out, *name);
        put(&mut out, *path);
    }
    starts.push(out.len());
    for path in &writer.paths {
        put(&mut out, if path.is_empty() { 0 } else { steps.len() });
        put(&mut out, path.len());
        steps.extend(path.iter());
    }
    starts.push(out.len());
    for step in &steps {
        out.extend([step.kind, step.flag]);
        put(&mut out, step.index as usize);
        put(&mut out, step.of as usize);
    }
    starts.push(out.len());
    out.extend_from_slice(pool);
    for start in starts {
        put(&mut out, start);
    }
    let length = out.len() + 2;
    put(&mut out, length);
    out
}

/// The records of the file while they are laid out, by first use in node order.
#[derive(Default)]
struct Writer {
    nodes: Vec<(u8, [usize; 5])>,
    cases: Vec<(u8, [usize; 3])>,
    bindings: Vec<(usize, usize)>,
    paths: Vec<Path>,
}

impl Writer {
    /// Lays out a node and all below it, in pre-order; answers its number.
    fn node(&mut self, node: &Node) -> usize {
        let at = self.nodes.len();
        self.nodes.push((0, [0; 5]));
        self.nodes[at] = match node {
            Node::Leaf { clause, bindings } => {
                let (first, count) = self.run(bindings);
                (2, [*clause as usize, first, count, 0, 0])
            }
            Node::Hoist { clause, bindings, child } => {
                let (first, count) = self.run(bindings);
                (3, [*clause as usize, first, count, self.node(child), 0])
            }
            Node::Switch { path, cases, default } => {
                (0, self.switch(path, cases, &[], default.as_deref()))
            }
            Node::ListSwitch { path, cases, tail_cases, default } => {
                (1, self.switch(path, cases, tail_cases, default.as_deref()))
            }
        };
        at
    }

    fn switch(
        &mut self,
        path: &Path,
        cases: &[(Test, Node)],
        tail_cases: &[(Test, Node)],
        default: Option<&Node>,
    ) -> [usize; 5] {
        let path = self.path(path);
        let first = self.cases.len();
        self.cases.extend(cases.iter().chain(tail_cases).map(|(test, _)| case_record(test)));
        for (i, (_, child)) in cases.iter().chain(tail_cases).enumerate() {
            self.cases[first + i].1[2] = self.node(child);
        }
        let default = default.map_or(0, |node| self.node(node) + 1);
        [path, first, cases.len(), tail_cases.len(), default]
    }

    fn run(&mut self, bindings: &[Binding]) -> (usize, usize) {
        let first = if bindings.is_empty() { 0 } else { self.bindings.len() };
        for binding in bindings {
            let path = self.path(&binding.path);
            self.bindings.push((binding.name as usize, path));
        }
        (first, bindings.len())
    }

    fn path(&mut self, path: &Path) -> usize {
        self.paths.iter().position(|known| known == path).unwrap_or_else(|| {
            self.paths.push(path.clone());
            self.paths.len() - 1
        })
    }
}

/// Kind, number or text start, text length, and a place for the child.
fn case_record(test: &Test) -> (u8, [usize; 3]) {
    match test {
        Test::Constr(n) => (0, [*n as usize, 0, 0]),
        Test::Int(text) => (1, [text.start as usize, text.bytes.len(), 0]),
        Test::Bytes(text) => (2, [text.start as usize, text.bytes.len(), 0]),
        Test::List(n) => (3, [*n as usize, 0, 0]),
        Test::ListWithTail(n) => (4, [*n as usize, 0, 0]),
    }
}

/// A tree file that a reader takes, with its records as they stand.
pub struct Tree {
    pub nodes: Vec<(u8, [u16; 5])>,
    pub cases: Vec<(u8, [u16; 3])>,
    pub bindings: Vec<[u16; 2]>,
    pub paths: Vec<[u16; 2]>,
    pub steps: Vec<Step>,
    pub pool: Vec<u8>,
}

/// The reader: refusal 31, or the records.
pub fn read(bytes: &[u8]) -> Result<Tree, Refusal> {
    let length = bytes.len();
    if length < 14 || u16_at(bytes, length - 2) as usize != length {
        return refused(31);
    }
    let trailer = length - 14;
    let starts: Vec<usize> = (0..6).map(|i| u16_at(bytes, trailer + 2 * i) as usize).collect();
    if !laid_out(&starts, &[12, 8, 4, 4, 6, 1], trailer) {
        return refused(31);
    }
    let section = |i: usize| &bytes[starts[i]..if i < 5 { starts[i + 1] } else { trailer }];
    // The zero bytes of nodes and cases.
    if section(0).chunks(12).chain(section(1).chunks(8)).any(|b| b[1] != 0) {
        return refused(31);
    }
    let tree = Tree {
        nodes: section(0)
            .chunks(12)
            .map(|b| (b[0], [2, 4, 6, 8, 10].map(|at| u16_at(b, at))))
            .collect(),
        cases: section(1).chunks(8).map(|b| (b[0], [2, 4, 6].map(|at| u16_at(b, at)))).collect(),
        bindings: section(2).chunks(4).map(|b| [u16_at(b, 0), u16_at(b, 2)]).collect(),
        paths: section(3).chunks(4).map(|b| [u16_at(b, 0), u16_at(b, 2)]).collect(),
        steps: section(4)
            .chunks(6)
            .map(|b| Step { kind: b[0], flag: b[1], index: u16_at(b, 2), of: u16_at(b, 4) })
            .collect(),
        pool: section(5).to_vec(),
    };
    if tree.records_kept() && tree.in_pre_order() { Ok(tree) } else { refused(31) }
}

impl Tree {
    /// What each record is asked by itself, used or not: the child of a case outside every switch's
    /// run must be a node too, though it is nobody's child.
    fn records_kept(&self) -> bool {
        self.nodes.iter().all(|node| self.node_kept(node))
            && self.cases.iter().all(|&(kind, [start, count, child])| {
                (child as usize) < self.nodes.len()
                    && match kind {
                        0 | 3 | 4 => count == 0,
                        1 | 2 => run_inside(start, count, self.pool.len()),
                        _ => false,
                    }
            })
            && self.bindings.iter().all(|&[_, path]| (path as usize) < self.paths.len())
            && self.paths.iter().all(|&[first, count]| run_inside(first, count, self.steps.len()))
            && self
                .steps
                .iter()
                .all(|s| s.kind <= S_LISTTAIL && s.flag <= (s.kind == S_CONSTR) as u8)
    }

    fn node_kept(&self, &(kind, fields): &(u8, [u16; 5])) -> bool {
        match kind {
            0 | 1 => {
                let [path, first, cases, tails, _] = fields.map(|f| f as usize);
                let all = cases + tails;
                if path >= self.paths.len() || all == 0 || first + all > self.cases.len() {
                    return false;
                }
                let (heads, rest) = self.cases[first..first + all].split_at(cases);
                if kind == 0 {
                    tails == 0 && heads[0].0 <= 2 && heads.iter().all(|c| c.0 == heads[0].0)
                } else {
                    heads.iter().all(|c| c.0 == 3) && rest.iter().all(|c| c.0 == 4)
                }
            }
            2 | 3 => {
                let [_, first, count, child, unused] = fields;
                count <= 192
                    && run_inside(first, count, self.bindings.len())
                    && unused == 0
                    && (kind == 3 || child == 0)
            }
            _ => false,
        }
    }

    /// The children of a node, in order: of a switch cases, tail cases, default.
    pub fn children(&self, node: usize) -> Vec<usize> {
        let (kind, fields) = self.nodes[node];
        let [_, first, cases, tails, last] = fields.map(|f| f as usize);
        match kind {
            0 | 1 => self.cases[first..first + cases + tails]
                .iter()
                .map(|(_, [_, _, child])| *child as usize)
                .chain(last.checked_sub(1))
                .collect(),
            3 => vec![fields[3] as usize],
            _ => vec![],
        }
    }

    /// Node 0 is there and each other node is a child exactly once, in pre-order.
    fn in_pre_order(&self) -> bool {
        // The nodes still to come, the next one last.
        let mut to_come = vec![0];
        let mut next = 0;
        while let Some(node) = to_come.pop() {
            if node != next || node >= self.nodes.len() {
                return false;
            }
            next += 1;
            to_come.extend(self.children(node).into_iter().rev());
        }
        next == self.nodes.len()
    }

    pub fn steps_of(&self, path: u16) -> &[Step] {
        let [first, count] = self.paths[path as usize];
        &self.steps[first as usize..][..count as usize]
    }

    pub fn text(&self, start: u16, length: u16) -> &[u8] {
        &self.pool[start as usize..][..length as usize]
    }

    /// The tree as a plain value, from node `at` on.
    pub fn node(&self, at: usize) -> Node {
        let (kind, fields) = self.nodes[at];
        let path = |number: u16| Path::new(self.steps_of(number).to_vec());
        let [clause, first, count, child, _] = fields;
        let bindings = || {
            self.bindings[first as usize..][..count as usize]
                .iter()
                .map(|&[name, p]| Binding { name, path: path(p) })
                .collect()
        };
        match kind {
            2 => Node::Leaf { clause, bindings: bindings() },
            3 => Node::Hoist {
                clause,
                bindings: bindings(),
                child: Box::new(self.node(child as usize)),
            },
            _ => {
                let [of, first, cases, tails, default] = fields;
                let mut heads: Vec<(Test, Node)> = self.cases[first as usize..]
                    [..cases as usize + tails as usize]
                    .iter()
                    .map(|case| (self.test(case), self.node(case.1[2] as usize)))
                    .collect();
                let tail_cases = heads.split_off(cases as usize);
                let default = default.checked_sub(1).map(|n| Box::new(self.node(n as usize)));
                if kind == 0 {
                    Node::Switch { path: path(of), cases: heads, default }
                } else {
                    Node::ListSwitch { path: path(of), cases: heads, tail_cases, default }
                }
            }
        }
    }

    pub fn test(&self, &(kind, [number, length, _]): &(u8, [u16; 3])) -> Test {
        let text = || Text { start: number, bytes: self.text(number, length).to_vec() };
        match kind {
            0 => Test::Constr(number),
            1 => Test::Int(text()),
            2 => Test::Bytes(text()),
            3 => Test::List(number),
            _ => Test::ListWithTail(number),
        }
    }
}
