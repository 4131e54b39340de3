//! The oracle: a sheet turned into the Rust's own types and patterns, `TreeGen::build_tree` run on
//! them unchanged, and its answer as a plain tree.
//!
//! It is asked only about sheets that pass refusals 2 to 11, and only when their tree is known to
//! be small, since the Rust knows no limit. The caller runs it on a large stack.

use std::cell::RefCell;
use std::rc::Rc;

use host::ast::{
    CallArg, DataType, DataTypeKey, Decorator, DecoratorKind, Pattern, RecordConstructor,
    RecordConstructorArg, TypedClause, TypedDataType, TypedPattern,
};
use host::expr::{Type, TypeVar, TypedExpr};
use host::gen_uplc::decision_tree::{
    Assigned, CaseTest, DecisionTree, Path as RustPath, TreeGen, get_tipo_by_path,
};
use host::gen_uplc::interner::AirInterner;
use host::tipo::PatternConstructor;
use indexmap::IndexMap;

use crate::files::*;
use crate::reference::sheet::Checked;
use crate::tree::*;

/// The Rust's tree of a sheet.
pub fn build(checked: &Checked) -> Node {
    let ready = Ready::of(checked);
    let data_types = ready.data_types();
    Reader { types: &ready.types, subject: ready.subject.clone() }.node(&ready.tree(&data_types))
}

/// A sheet in the Rust's own types and patterns: what a compiler has at hand when it asks for a tree.
pub struct Ready {
    types: Types,
    subject: Rc<Type>,
    named: Vec<(DataTypeKey, TypedDataType)>,
    clauses: Vec<TypedClause>,
    wild_card: TypedPattern,
}

impl Ready {
    pub fn of(checked: &Checked) -> Self {
        let types = Types::of(&checked.sheet);
        let subject = types.all[checked.sheet.subject as usize].clone();
        let named = types.data_types(checked);
        let roots = checked.sheet.clauses.iter();
        let clauses = roots
            .map(|&root| TypedClause { pattern: types.pattern(checked, root), then: TypedExpr })
            .collect();
        let wild_card = TypedPattern::Discard { name: "_".to_string() };
        Ready { types, subject, named, clauses, wild_card }
    }

    pub fn data_types(&self) -> IndexMap<&DataTypeKey, &TypedDataType> {
        self.named.iter().map(|(key, data)| (key, data)).collect()
    }

    /// The Rust's own answer: nothing is done here but its calls.
    pub fn tree<'a>(
        &'a self,
        data_types: &IndexMap<&'a DataTypeKey, &'a TypedDataType>,
    ) -> DecisionTree<'a> {
        let mut interner = AirInterner::new();
        TreeGen::new(&mut interner, data_types, &self.wild_card)
            .build_tree(&self.subject, &self.clauses)
    }
}

/// The Rust's type for each type number. A list, pair or tuple that contains itself is closed by a
/// linked type variable.
struct Types {
    all: Vec<Rc<Type>>,
    links: Vec<Rc<RefCell<TypeVar>>>,
}

/// The links close circles of counted references: they are cut at the end.
impl Drop for Types {
    fn drop(&mut self) {
        for link in &self.links {
            link.replace(TypeVar::Unbound { id: 0 });
        }
    }
}

/// How far a type is made.
#[derive(Clone)]
enum Progress {
    NotBegun,
    /// Begun, with the type variable that stands for it meanwhile, if one was asked for.
    Begun(Option<Rc<RefCell<TypeVar>>>),
    Made(Rc<Type>),
}

fn data_name(number: usize) -> String {
    format!("T{number}")
}

fn constructor_name(number: usize) -> String {
    format!("C{number}")
}

impl Types {
    fn of(sheet: &Sheet) -> Self {
        let mut progress = vec![Progress::NotBegun; sheet.types.len()];
        let mut links = vec![];
        let all =
            (0..sheet.types.len()).map(|t| make(sheet, t, &mut progress, &mut links)).collect();
        Types { all, links }
    }

    /// The type number of a type that the Rust answered: each number has a type of its own.
    fn number(&self, tipo: &Rc<Type>) -> u16 {
        self.all.iter().position(|known| Rc::ptr_eq(known, tipo)).expect("a type of the sheet")
            as u16
    }

    fn data_types(&self, checked: &Checked) -> Vec<(DataTypeKey, TypedDataType)> {
        let types = checked.sheet.types.iter().enumerate().filter(|(_, t)| t.kind == DATA);
        types
            .map(|(number, t)| {
                let key =
                    DataTypeKey { module_name: "sheet".into(), defined_type: data_name(number) };
                let list = Decorator { kind: DecoratorKind::List };
                let constructors = (0..t.count)
                    .map(|which| RecordConstructor {
                        name: constructor_name(which as usize),
                        arguments: self
                            .fields(checked, number, which)
                            .into_iter()
                            .map(|tipo| RecordConstructorArg { tipo })
                            .collect(),
                    })
                    .collect();
                let data = DataType {
                    decorators: if t.flag & 2 == 2 { vec![list] } else { vec![] },
                    constructors,
                    name: data_name(number),
                    opaque: t.flag & 1 == 1,
                };
                (key, data)
            })
            .collect()
    }

    fn fields(&self, checked: &Checked, data: usize, which: u16) -> Vec<Rc<Type>> {
        let fields = checked.fields(checked.sheet.types[data], which);
        fields.iter().map(|&t| self.all[t as usize].clone()).collect()
    }

    fn pattern(&self, checked: &Checked, number: u16) -> TypedPattern {
        let p = checked.sheet.patterns[number as usize];
        let text = || checked.text(number as usize).to_vec();
        let mut parts: Vec<TypedPattern> =
            checked.parts(number as usize).iter().map(|&c| self.pattern(checked, c)).collect();
        match p.kind {
            P_DISCARD => Pattern::Discard { name: "_".to_string() },
            P_VARIABLE => Pattern::Var { name: p.a.to_string() },
            P_ASSIGN => {
                Pattern::Assign { name: p.a.to_string(), pattern: Box::new(parts.remove(0)) }
            }
            P_INT => Pattern::Int { value: String::from_utf8(text()).unwrap() },
            P_BYTES => Pattern::ByteArray { value: text() },
            P_LIST => Pattern::List { elements: parts, tail: None },
            P_TAILED => {
                let tail = parts.pop().map(Box::new);
                Pattern::List { elements: parts, tail }
            }
            P_CONSTR => {
                let data = checked.type_of[number as usize] as usize;
                let args = self.fields(checked, data, p.a);
                let ret = self.all[data].clone();
                Pattern::Constructor {
                    arguments: parts.into_iter().map(|value| CallArg { value }).collect(),
                    constructor: PatternConstructor::Record {
                        name: constructor_name(p.a as usize),
                    },
                    tipo: if args.is_empty() { ret } else { Rc::new(Type::Fn { args, ret }) },
                }
            }
            P_PAIR => {
                let snd = Box::new(parts.remove(1));
                Pattern::Pair { fst: Box::new(parts.remove(0)), snd }
            }
            _ => Pattern::Tuple { elems: parts },
        }
    }
}

/// Makes a type and those it contains; data types are known by name and contain nothing.
fn make(
    sheet: &Sheet,
    number: usize,
    progress: &mut [Progress],
    links: &mut Vec<Rc<RefCell<TypeVar>>>,
) -> Rc<Type> {
    match &mut progress[number] {
        Progress::Made(made) => return made.clone(),
        Progress::Begun(variable) => {
            let open = || Rc::new(RefCell::new(TypeVar::Unbound { id: number as u64 }));
            let tipo = variable.get_or_insert_with(open).clone();
            return Rc::new(Type::Var { tipo });
        }
        Progress::NotBegun => progress[number] = Progress::Begun(None),
    }
    let t = sheet.types[number];
    let app =
        |module: &str, name: String, args| Type::App { module: module.to_string(), name, args };
    let mut entries = || -> Vec<Rc<Type>> {
        let entries = &sheet.type_list[t.first as usize..][..t.count as usize];
        entries.iter().map(|&e| make(sheet, e as usize, progress, links)).collect()
    };
    let made = Rc::new(match t.kind {
        INT => app("", "Int".to_string(), vec![]),
        BYTES => app("", "ByteArray".to_string(), vec![]),
        LIST => app("", "List".to_string(), entries()),
        PAIR => {
            let mut both = entries();
            let snd = both.remove(1);
            Type::Pair { fst: both.remove(0), snd }
        }
        TUPLE => Type::Tuple { elems: entries() },
        _ => app("sheet", data_name(number), vec![]),
    });
    let begun = std::mem::replace(&mut progress[number], Progress::Made(made.clone()));
    if let Progress::Begun(Some(variable)) = begun {
        variable.replace(TypeVar::Link { tipo: made.clone() });
        links.push(variable);
    }
    made
}

/// Turns the Rust's answer into a plain tree.
struct Reader<'a> {
    types: &'a Types,
    subject: Rc<Type>,
}

impl Reader<'_> {
    fn node(&self, tree: &DecisionTree) -> Node {
        let boxed =
            |default: &Option<Box<DecisionTree>>| default.as_ref().map(|n| Box::new(self.node(n)));
        match tree {
            DecisionTree::Switch { path, cases, default } => Node::Switch {
                path: self.path(path),
                cases: self.cases(cases),
                default: boxed(default),
            },
            DecisionTree::ListSwitch { path, cases, tail_cases, default } => Node::ListSwitch {
                path: self.path(path),
                cases: self.cases(cases),
                tail_cases: self.cases(tail_cases),
                default: boxed(default),
            },
            DecisionTree::HoistedLeaf(name, assigns) => {
                Node::Leaf { clause: clause(name), bindings: self.bindings(assigns) }
            }
            DecisionTree::HoistThen { name, assigns, pattern, .. } => Node::Hoist {
                clause: clause(name),
                bindings: self.bindings(assigns),
                child: Box::new(self.node(pattern)),
            },
        }
    }

    fn cases(&self, cases: &[(CaseTest, DecisionTree)]) -> Vec<(Test, Node)> {
        let text = |bytes: &[u8]| Text { start: 0, bytes: bytes.to_vec() };
        cases
            .iter()
            .map(|(test, tree)| {
                let test = match test {
                    CaseTest::Constr(i) => Test::Constr(*i as u16),
                    CaseTest::Int(i) => Test::Int(text(i.as_bytes())),
                    CaseTest::Bytes(bytes) => Test::Bytes(text(bytes)),
                    CaseTest::List(n) => Test::List(*n as u16),
                    CaseTest::ListWithTail(n) => Test::ListWithTail(*n as u16),
                    CaseTest::Wild => panic!("a case without a test"),
                };
                (test, self.node(tree))
            })
            .collect()
    }

    fn bindings(&self, assigns: &[Assigned]) -> Vec<Binding> {
        assigns
            .iter()
            .map(|a| Binding { name: a.assigned.parse().unwrap(), path: self.path(&a.path) })
            .collect()
    }

    /// A path with the type that each step starts from: the one that a constructor's step carries,
    /// else what the Rust's own `get_tipo_by_path` gives for the steps before.
    fn path(&self, path: &[RustPath]) -> Path {
        let steps = path.iter().enumerate().map(|(at, step)| {
            let before = get_tipo_by_path(self.subject.clone(), &path[..at]);
            let of = match step {
                RustPath::Constr(tipo, ..) => match tipo.as_ref() {
                    Type::Fn { ret, .. } => self.types.number(ret),
                    _ => self.types.number(tipo),
                },
                _ => self.types.number(&before),
            };
            let (kind, index, flag) = match step {
                RustPath::Pair(i) => (S_PAIR, *i, false),
                RustPath::Tuple(i) => (S_TUPLE, *i, false),
                RustPath::Constr(_, i, b) => (S_CONSTR, *i, *b),
                RustPath::List(i) => (S_LIST, *i, false),
                RustPath::ListTail(i) => (S_LISTTAIL, *i, false),
                RustPath::OpaqueConstr(_) => panic!("a step that no accepted sheet has"),
            };
            Step { kind, flag: flag as u8, index: index as u16, of }
        });
        Rc::new(steps.collect())
    }
}

/// The clause of a name like `__clause_then_3_id_3`.
fn clause(name: &str) -> u16 {
    let number = name.strip_prefix("__clause_then_").and_then(|rest| rest.split("_id_").next());
    number.and_then(|n| n.parse().ok()).expect("the name of a clause")
}
