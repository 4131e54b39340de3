//! The decision tree as a plain value, and its listing.
//!
//! The reference builds it from a sheet, the oracle's host from the Rust's answer; the listing is
//! the one of the scope document, to the letter.

use std::fmt::Write;
use std::rc::Rc;

/// A step of a path. `of` is the type of the part stepped from.
#[derive(Clone, Copy, Debug, PartialEq, Eq, Hash)]
pub struct Step {
    pub kind: u8,
    pub flag: u8,
    pub index: u16,
    pub of: u16,
}

// Kinds of steps.
pub const S_PAIR: u8 = 0;
pub const S_TUPLE: u8 = 1;
pub const S_CONSTR: u8 = 2;
pub const S_LIST: u8 = 3;
pub const S_LISTTAIL: u8 = 4;

pub type Path = Rc<Vec<Step>>;

/// A text of the pool: its start there, and its bytes.
#[derive(Clone, Debug)]
pub struct Text {
    pub start: u16,
    pub bytes: Vec<u8>,
}

#[derive(Clone, Debug)]
pub enum Test {
    Constr(u16),
    Int(Text),
    Bytes(Text),
    List(u16),
    ListWithTail(u16),
}

/// Two tests are equal if they ask the same, wherever their texts stand.
impl PartialEq for Test {
    fn eq(&self, other: &Self) -> bool {
        match (self, other) {
            (Test::Constr(a), Test::Constr(b))
            | (Test::List(a), Test::List(b))
            | (Test::ListWithTail(a), Test::ListWithTail(b)) => a == b,
            (Test::Int(a), Test::Int(b)) | (Test::Bytes(a), Test::Bytes(b)) => a.bytes == b.bytes,
            _ => false,
        }
    }
}

#[derive(Clone, Debug, PartialEq)]
pub struct Binding {
    pub name: u16,
    pub path: Path,
}

#[derive(Clone, Debug, PartialEq)]
pub enum Node {
    Switch {
        path: Path,
        cases: Vec<(Test, Node)>,
        default: Option<Box<Node>>,
    },
    ListSwitch {
        path: Path,
        cases: Vec<(Test, Node)>,
        tail_cases: Vec<(Test, Node)>,
        default: Option<Box<Node>>,
    },
    Leaf {
        clause: u16,
        bindings: Vec<Binding>,
    },
    Hoist {
        clause: u16,
        bindings: Vec<Binding>,
        child: Box<Node>,
    },
}

impl Node {
    /// Cases, tail cases, default: the children in the order of the file.
    pub fn children(&self) -> Vec<&Node> {
        match self {
            Node::Switch { cases, default, .. } => {
                cases.iter().map(|(_, n)| n).chain(default.as_deref()).collect()
            }
            Node::ListSwitch { cases, tail_cases, default, .. } => {
                cases.iter().chain(tail_cases).map(|(_, n)| n).chain(default.as_deref()).collect()
            }
            Node::Leaf { .. } => vec![],
            Node::Hoist { child, .. } => vec![child],
        }
    }

    pub fn nodes(&self) -> usize {
        1 + self.children().into_iter().map(Node::nodes).sum::<usize>()
    }

    /// Bindings in leaves and hoists together.
    pub fn bindings(&self) -> usize {
        let own = match self {
            Node::Leaf { bindings, .. } | Node::Hoist { bindings, .. } => bindings.len(),
            _ => 0,
        };
        own + self.children().into_iter().map(Node::bindings).sum::<usize>()
    }
}

pub fn show_path(path: &[Step]) -> String {
    if path.is_empty() {
        return ".".to_string();
    }
    let steps: Vec<String> = path
        .iter()
        .map(|step| match step.kind {
            S_PAIR => format!("pair_{}", step.index),
            S_TUPLE => format!("tuple_{}", step.index),
            S_CONSTR => format!("constr_{}_{}", step.index, step.flag == 1),
            S_LIST => format!("list_{}", step.index),
            _ => format!("listtail_{}", step.index),
        })
        .collect();
    steps.join(".")
}

fn show_test(test: &Test) -> String {
    match test {
        Test::Constr(i) => format!("Constr({i})"),
        Test::Int(text) => format!("Int({})", String::from_utf8_lossy(&text.bytes)),
        Test::Bytes(text) => {
            let hex: String = text.bytes.iter().map(|b| format!("{b:02x}")).collect();
            format!("Bytes({hex})")
        }
        Test::List(i) => format!("List({i})"),
        Test::ListWithTail(i) => format!("ListWithTail({i})"),
    }
}

fn show_bindings(bindings: &[Binding]) -> String {
    bindings.iter().map(|b| format!(" n{}={}", b.name, show_path(&b.path))).collect()
}

/// The listing of a whole tree. Every line ends in a newline.
pub fn listing(tree: &Node) -> String {
    let mut out = format!("tree {} {}\n", tree.nodes(), tree.bindings());
    list_node(tree, 0, &mut out);
    out
}

/// Lists a node that has the number `at`, and all below it; answers the next free number.
fn list_node(node: &Node, at: usize, out: &mut String) -> usize {
    // The numbers of the children, and where the subtree ends.
    let mut next = at + 1;
    let mut numbers = Vec::new();
    for child in node.children() {
        numbers.push(next);
        next += child.nodes();
    }
    match node {
        Node::Leaf { clause, bindings } => {
            writeln!(out, "{at} leaf {clause}{}", show_bindings(bindings)).unwrap();
        }
        Node::Hoist { clause, bindings, .. } => {
            let child = numbers[0];
            writeln!(out, "{at} hoist {clause} then {child}{}", show_bindings(bindings)).unwrap();
        }
        Node::Switch { path, cases, default } => {
            list_switch(out, at, "switch", path, &[cases, &[]], default.is_some(), &numbers);
        }
        Node::ListSwitch { path, cases, tail_cases, default } => {
            let tests: [&[(Test, Node)]; 2] = [cases, tail_cases];
            list_switch(out, at, "listswitch", path, &tests, default.is_some(), &numbers);
        }
    }
    for (child, number) in node.children().into_iter().zip(numbers) {
        list_node(child, number, out);
    }
    next
}

fn list_switch(
    out: &mut String,
    at: usize,
    word: &str,
    path: &[Step],
    tests: &[&[(Test, Node)]; 2],
    default: bool,
    numbers: &[usize],
) {
    write!(out, "{at} {word} {}", show_path(path)).unwrap();
    for ((test, _), number) in tests[0].iter().chain(tests[1]).zip(numbers) {
        write!(out, " {}:{number}", show_test(test)).unwrap();
    }
    if default {
        write!(out, " else {}", numbers[numbers.len() - 1]).unwrap();
    }
    out.push('\n');
}
