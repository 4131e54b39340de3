//! The tree by the document's rules 1 to 7, and refusals 12 to 14.
//!
//! A tree can be exponential in its sheet. Building stops as soon as more than 1,024 nodes are
//! there, since the count of the whole can then only be higher.

use std::rc::Rc;

use super::sheet::Checked;
use super::{Refusal, refused, refused_at};
use crate::files::*;
use crate::tree::*;

/// A tree within 12 and 13, of a sheet without idle clauses.
pub struct Built {
    pub root: Node,
    pub nodes: usize,
    pub bindings: usize,
}

/// Refusals 12, 13 and 14, in order.
pub fn build(checked: &Checked) -> Result<Built, Refusal> {
    let Whole { root, idle } = whole(checked)?;
    let (nodes, bindings) = (root.nodes(), root.bindings());
    if bindings > 4096 {
        return refused(13);
    }
    if let Some(&clause) = idle.first() {
        return refused_at(14, clause);
    }
    Ok(Built { root, nodes, bindings })
}

/// A tree of at most 1,024 nodes, whatever its bindings, and the clauses that have no leaf in it.
/// These are not hoisted.
pub struct Whole {
    pub root: Node,
    pub idle: Vec<usize>,
}

/// Refusal 12, or the whole tree.
pub fn whole(checked: &Checked) -> Result<Whole, Refusal> {
    let clauses = checked.sheet.clauses.len();
    let mut builder = Builder {
        checked,
        nodes: 0,
        leaves: vec![0; clauses],
        first_bindings: vec![vec![]; clauses],
    };
    let Some(tree) = builder.tree(builder.first_matrix()) else {
        return refused(12);
    };
    let scopes = scopes(&tree, clauses);
    let root = hoisted(tree, &mut vec![], &scopes, &builder.first_bindings);
    if root.nodes() > 1024 {
        return refused(12);
    }
    let idle = (0..clauses).filter(|&clause| builder.leaves[clause] == 0).collect();
    Ok(Whole { root, idle })
}

/// A row: its clause, what is bound so far, and for each column a pattern or a wildcard.
#[derive(Clone)]
struct Row {
    clause: u16,
    bindings: Vec<Binding>,
    cells: Vec<Option<u16>>,
}

/// Columns by their paths, and the rows over them.
struct Matrix {
    columns: Vec<Path>,
    rows: Vec<Row>,
}

/// What a pattern becomes: bindings and columns.
#[derive(Clone, Default)]
struct Mapped {
    bindings: Vec<Binding>,
    columns: Vec<(Path, u16)>,
}

/// Path order: by the indices, first step first.
fn indices(path: &Path) -> Vec<u16> {
    path.iter().map(|step| step.index).collect()
}

/// The union of columns, sorted.
fn union<'a>(all: impl Iterator<Item = &'a Mapped>) -> Vec<Path> {
    let mut columns: Vec<Path> = vec![];
    for (path, _) in all.flat_map(|mapped| &mapped.columns) {
        if !columns.contains(path) {
            columns.push(path.clone());
        }
    }
    columns.sort_by_key(indices);
    columns
}

/// The cells of a row over some columns.
fn cells<'a>(columns: &'a [Path], mapped: &'a Mapped) -> impl Iterator<Item = Option<u16>> + 'a {
    columns
        .iter()
        .map(|column| mapped.columns.iter().find(|(path, _)| path == column).map(|(_, p)| *p))
}

struct Builder<'a> {
    checked: &'a Checked,
    nodes: usize,
    /// How many leaves each clause has.
    leaves: Vec<usize>,
    /// The bindings of each clause's first non-empty leaf in building order.
    first_bindings: Vec<Vec<Binding>>,
}

impl Builder<'_> {
    fn first_matrix(&self) -> Matrix {
        let clauses = &self.checked.sheet.clauses;
        let mapped: Vec<Mapped> =
            clauses.iter().map(|&root| self.map(root, &Rc::new(vec![]))).collect();
        let columns = union(mapped.iter());
        let rows = (0..clauses.len())
            .map(|clause| Row {
                clause: clause as u16,
                bindings: mapped[clause].bindings.clone(),
                cells: cells(&columns, &mapped[clause]).collect(),
            })
            .collect();
        Matrix { columns, rows }
    }

    /// Rule 1.
    fn map(&self, pattern: u16, path: &Path) -> Mapped {
        let p = self.checked.sheet.patterns[pattern as usize];
        let mut mapped = Mapped::default();
        if matches!(p.kind, P_VARIABLE | P_ASSIGN) {
            mapped.bindings.push(Binding { name: p.a, path: path.clone() });
        }
        match p.kind {
            P_DISCARD | P_VARIABLE => {}
            P_ASSIGN => {
                let inside = self.map(self.checked.parts(pattern as usize)[0], path);
                mapped.bindings.extend(inside.bindings);
                mapped.columns = inside.columns;
            }
            P_PAIR | P_TUPLE => mapped = self.open(pattern, path),
            P_CONSTR if self.checked.pattern_type(pattern as usize).count == 1 => {
                mapped = self.open(pattern, path);
            }
            _ => mapped.columns.push((path.clone(), pattern)),
        }
        mapped
    }

    /// The parts of a pattern, each with the step to it, mapped one after the other.
    fn open(&self, pattern: u16, path: &Path) -> Mapped {
        let number = pattern as usize;
        let kind = self.checked.sheet.patterns[number].kind;
        let of = self.checked.type_of[number];
        let t = self.checked.pattern_type(number);
        let parts = self.checked.parts(number);
        let mut mapped = Mapped::default();
        for (i, &part) in parts.iter().enumerate() {
            let tail = kind == P_TAILED && i + 1 == parts.len();
            let step_kind = match kind {
                P_PAIR => S_PAIR,
                P_TUPLE => S_TUPLE,
                P_CONSTR => S_CONSTR,
                _ if tail => S_LISTTAIL,
                _ => S_LIST,
            };
            // True only for a list-decorated type of one constructor.
            let flag = kind == P_CONSTR && t.count == 1 && t.flag & 2 == 2;
            let mut steps = path.to_vec();
            steps.push(Step { kind: step_kind, flag: flag as u8, index: i as u16, of });
            let inside = self.map(part, &Rc::new(steps));
            mapped.bindings.extend(inside.bindings);
            mapped.columns.extend(inside.columns);
        }
        mapped
    }

    /// Rules 3 to 5. None if the tree has more than 1,024 nodes.
    fn tree(&mut self, matrix: Matrix) -> Option<Node> {
        self.nodes += 1;
        if self.nodes > 1024 {
            return None;
        }
        let Some(column) = chosen(&matrix) else {
            let Row { clause, bindings, .. } = matrix.rows.into_iter().next().unwrap();
            self.leaves[clause as usize] += 1;
            if self.first_bindings[clause as usize].is_empty() {
                self.first_bindings[clause as usize] = bindings.clone();
            }
            return Some(Node::Leaf { clause, bindings });
        };
        let path = matrix.columns[column].clone();
        let (default, cases) = self.split(&matrix, column);
        let default =
            if default.rows.is_empty() { None } else { Some(Box::new(self.tree(default)?)) };
        let on_lists = matches!(cases[0].0, Test::List(_) | Test::ListWithTail(_));
        let (tails, heads): (Vec<_>, Vec<_>) =
            cases.into_iter().partition(|(test, _)| matches!(test, Test::ListWithTail(_)));
        let mut cases = vec![];
        for (test, matrix) in heads {
            cases.push((test, self.tree(matrix)?));
        }
        let mut tail_cases = vec![];
        for (test, matrix) in tails {
            tail_cases.push((test, self.tree(matrix)?));
        }
        Some(if on_lists {
            Node::ListSwitch { path, cases, tail_cases, default }
        } else {
            Node::Switch { path, cases, default }
        })
    }

    /// Rule 4: the default matrix and the cases in order of first meeting.
    fn split(&self, matrix: &Matrix, column: usize) -> (Matrix, Vec<(Test, Matrix)>) {
        let path = &matrix.columns[column];
        let lengths = |wanted: fn(&Test) -> Option<u16>| {
            let tests = matrix.rows.iter().filter_map(|row| row.cells[column]);
            tests.filter_map(|p| wanted(&self.test(p))).max()
        };
        let longest_tailless = lengths(|t| if let Test::List(n) = t { Some(*n) } else { None });
        let longest_tailed =
            lengths(|t| if let Test::ListWithTail(n) = t { Some(*n) } else { None });

        // Rows by number, each with its opened part in a case.
        let mut default: Vec<usize> = vec![];
        let mut cases: Vec<(Test, Vec<(usize, Mapped)>)> = vec![];
        for (number, row) in matrix.rows.iter().enumerate() {
            let Some(pattern) = row.cells[column] else {
                default.push(number);
                for (_, rows) in &mut cases {
                    rows.push((number, Mapped::default()));
                }
                continue;
            };
            let test = self.test(pattern);
            let opened = match test {
                Test::Int(_) | Test::Bytes(_) => Mapped::default(),
                _ => self.open(pattern, path),
            };
            let joins: Vec<Test> = match test {
                Test::ListWithTail(k) => {
                    let tailless = longest_tailless.map_or(k..k, |longest| k..longest + 1);
                    let tailed = k..longest_tailed.unwrap() + 1;
                    tailless.map(Test::List).chain(tailed.map(Test::ListWithTail)).collect()
                }
                test => vec![test],
            };
            for test in joins {
                let at = cases.iter().position(|(met, _)| *met == test).unwrap_or_else(|| {
                    let so_far = default.iter().map(|&n| (n, Mapped::default())).collect();
                    cases.push((test, so_far));
                    cases.len() - 1
                });
                cases[at].1.push((number, opened.clone()));
            }
        }
        let defaults = default.into_iter().map(|n| (n, Mapped::default())).collect();
        (
            specialized(matrix, column, defaults),
            cases
                .into_iter()
                .map(|(test, rows)| (test, specialized(matrix, column, rows)))
                .collect(),
        )
    }

    fn test(&self, pattern: u16) -> Test {
        let number = pattern as usize;
        let p = self.checked.sheet.patterns[number];
        let text = || Text { start: p.first, bytes: self.checked.text(number).to_vec() };
        match p.kind {
            P_INT => Test::Int(text()),
            P_BYTES => Test::Bytes(text()),
            P_LIST => Test::List(p.count),
            P_TAILED => Test::ListWithTail(p.count - 1),
            _ => Test::Constr(p.a),
        }
    }
}

/// Rule 3: the column with the most rows before its first wildcard, the leftmost of those; none
/// if every column begins with a wildcard.
fn chosen(matrix: &Matrix) -> Option<usize> {
    let counts: Vec<usize> = (0..matrix.columns.len())
        .map(|c| matrix.rows.iter().take_while(|row| row.cells[c].is_some()).count())
        .collect();
    let highest = *counts.iter().max()?;
    if highest == 0 { None } else { counts.iter().position(|&n| n == highest) }
}

/// The matrix of some rows after a column is tested: the columns that were opened, sorted, and
/// then the rest.
fn specialized(matrix: &Matrix, column: usize, rows: Vec<(usize, Mapped)>) -> Matrix {
    let mut columns = union(rows.iter().map(|(_, mapped)| mapped));
    let rows = rows
        .into_iter()
        .map(|(number, mapped)| {
            let old = &matrix.rows[number];
            let rest = old.cells.iter().enumerate().filter(|(c, _)| *c != column).map(|(_, p)| *p);
            Row {
                clause: old.clause,
                bindings: old.bindings.iter().chain(&mapped.bindings).cloned().collect(),
                cells: cells(&columns, &mapped).chain(rest).collect(),
            }
        })
        .collect();
    columns.extend(
        matrix
            .columns
            .iter()
            .enumerate()
            .filter(|(c, _)| *c != column)
            .map(|(_, path)| path.clone()),
    );
    Matrix { columns, rows }
}

/// A step of a place in the tree.
#[derive(Clone, Copy, Debug, PartialEq, Eq)]
enum Turn {
    Case(usize),
    Fallback,
}

/// The children of a switch with the turns to them, in visiting order.
fn turns(node: &Node) -> Vec<Turn> {
    let (cases, default) = match node {
        Node::Switch { cases, default, .. } => (cases.len(), default),
        Node::ListSwitch { cases, tail_cases, default, .. } => {
            (cases.len() + tail_cases.len(), default)
        }
        _ => return vec![],
    };
    (0..cases).map(Turn::Case).chain(default.as_ref().map(|_| Turn::Fallback)).collect()
}

/// Rule 6: the scope of each clause that has a leaf.
fn scopes(tree: &Node, clauses: usize) -> Vec<Option<Vec<Turn>>> {
    let mut scopes = vec![None; clauses];
    visit(tree, &mut vec![], &mut scopes);
    scopes
}

/// Visits the leaves from a place on; answers the clause of the last one.
fn visit(node: &Node, place: &mut Vec<Turn>, scopes: &mut [Option<Vec<Turn>>]) -> u16 {
    let mut last = 0;
    if let Node::Leaf { clause, .. } = node {
        last = *clause;
    }
    for (child, turn) in node.children().into_iter().zip(turns(node)) {
        place.push(turn);
        last = visit(child, place, scopes);
        place.pop();
    }
    // A leaf is noted at its place; after the last child of a switch the last visited leaf is
    // noted once more, at the place of the switch.
    let scope = &mut scopes[last as usize];
    *scope = Some(match scope.take() {
        None => place.clone(),
        Some(old) => {
            old.into_iter().zip(place.iter()).take_while(|(a, b)| a == *b).map(|(a, _)| a).collect()
        }
    });
    last
}

/// Rule 7: each clause hoisted at its scope, the highest clause innermost.
fn hoisted(
    node: Node,
    place: &mut Vec<Turn>,
    scopes: &[Option<Vec<Turn>>],
    first_bindings: &[Vec<Binding>],
) -> Node {
    let turns = turns(&node);
    let mut below = |child: Node, turn: Turn| {
        place.push(turn);
        let child = hoisted(child, place, scopes, first_bindings);
        place.pop();
        child
    };
    let mut all = |cases: Vec<(Test, Node)>, turns: &[Turn]| -> Vec<(Test, Node)> {
        cases.into_iter().zip(turns).map(|((test, n), &turn)| (test, below(n, turn))).collect()
    };
    let mut node = match node {
        Node::Switch { path, cases, default } => Node::Switch {
            path,
            cases: all(cases, &turns),
            default: default.map(|n| Box::new(below(*n, Turn::Fallback))),
        },
        Node::ListSwitch { path, cases, tail_cases, default } => {
            let before = cases.len();
            Node::ListSwitch {
                path,
                cases: all(cases, &turns),
                tail_cases: all(tail_cases, &turns[before..]),
                default: default.map(|n| Box::new(below(*n, Turn::Fallback))),
            }
        }
        leaf => leaf,
    };
    for clause in (0..scopes.len()).rev() {
        if scopes[clause].as_ref() == Some(place) {
            node = Node::Hoist {
                clause: clause as u16,
                bindings: first_bindings[clause].clone(),
                child: Box::new(node),
            };
        }
    }
    node
}
