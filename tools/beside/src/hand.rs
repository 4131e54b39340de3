//! Sheets and panels made by hand: the scope document's proved cases, and others at the limits.

use crate::files::*;

/// A named sheet or panel file.
pub struct Hand {
    pub name: &'static str,
    pub about: &'static str,
    pub bytes: Vec<u8>,
    pub sheet: bool,
}

fn int(text: &str) -> Pattern {
    Pattern::Int(text.to_string())
}

fn tuple(fst: Pattern, snd: Pattern) -> Pattern {
    Pattern::Tuple(vec![fst, snd])
}

const INT_TYPE: TypeRecord = TypeRecord { kind: INT, flag: 0, first: 0, count: 0 };

/// Subject List of Int: type 0 the list, type 1 Int.
fn ints_in_list() -> Sheet {
    let list = TypeRecord { kind: LIST, flag: 0, first: 0, count: 1 };
    Sheet { types: vec![list, INT_TYPE], type_list: vec![1], ..Sheet::default() }
}

/// Subject Int: type 0.
fn one_int() -> Sheet {
    Sheet { types: vec![INT_TYPE], ..Sheet::default() }
}

/// Subject a tuple of two Ints: type 0 the tuple, type 1 Int.
fn two_ints() -> Sheet {
    let tuple = TypeRecord { kind: TUPLE, flag: 0, first: 0, count: 2 };
    Sheet { types: vec![tuple, INT_TYPE], type_list: vec![1, 1], ..Sheet::default() }
}

/// Subject a type of two constructors without fields: type 0.
fn two_constructors() -> Sheet {
    let data = TypeRecord { kind: DATA, flag: 0, first: 0, count: 2 };
    let none = Run { first: 0, count: 0 };
    Sheet { types: vec![data], constructors: vec![none, none], ..Sheet::default() }
}

/// A sheet over the given types with the given clauses.
pub fn sheet_of(types: Sheet, clauses: &[Pattern]) -> Vec<u8> {
    let mut writer = SheetWriter::new(types);
    for clause in clauses {
        writer.clause(clause);
    }
    writer.sheet.to_bytes()
}

fn panel_of_ints(numbers: &[&str]) -> Vec<u8> {
    let elements = numbers.iter().map(|n| Value::Int(n.to_string())).collect();
    PanelWriter::written(&Value::List(elements)).to_bytes()
}

fn sheet(name: &'static str, about: &'static str, bytes: Vec<u8>) -> Hand {
    Hand { name, about, bytes, sheet: true }
}

fn panel(name: &'static str, about: &'static str, bytes: Vec<u8>) -> Hand {
    Hand { name, about, bytes, sheet: false }
}

/// The proved cases, in the document's order.
pub fn proved() -> Vec<Hand> {
    use Pattern::*;
    let p1 = [Tailed(vec![int("1"), Variable(1)]), List(vec![Variable(2), int("2")]), Discard];
    vec![
        sheet("P1", "[1, ..n1]; [n2, 2]; _", sheet_of(ints_in_list(), &p1)),
        panel("P2", "panel [1,2] for P1", panel_of_ints(&["1", "2"])),
        panel("P3", "panel [5,2] for P1", panel_of_ints(&["5", "2"])),
        panel("P4", "panel [] for P1", panel_of_ints(&[])),
        panel("P5", "panel [5,2,7] for P1", panel_of_ints(&["5", "2", "7"])),
        sheet("P6", "7; _", sheet_of(one_int(), &[int("7"), Discard])),
        sheet("P7", "7", sheet_of(one_int(), &[int("7")])),
        panel(
            "P7-panel",
            "panel 8 for P7",
            PanelWriter::written(&Value::Int("8".into())).to_bytes(),
        ),
        sheet("P8", "_; 7", sheet_of(one_int(), &[Discard, int("7")])),
        sheet(
            "P9",
            "constructor 1; constructor 0; _",
            sheet_of(two_constructors(), &[Constr(1, vec![]), Constr(0, vec![]), Discard]),
        ),
        sheet(
            "P10",
            "(1,2); (_,2)",
            sheet_of(two_ints(), &[tuple(int("1"), int("2")), tuple(Discard, int("2"))]),
        ),
        sheet(
            "P11",
            "(1,2); (3,4)",
            sheet_of(two_ints(), &[tuple(int("1"), int("2")), tuple(int("3"), int("4"))]),
        ),
        sheet("P12", "no clause", sheet_of(one_int(), &[])),
        sheet(
            "extra",
            "(1,1); (1,2); (2,3)",
            sheet_of(
                two_ints(),
                &[tuple(int("1"), int("1")), tuple(int("1"), int("2")), tuple(int("2"), int("3"))],
            ),
        ),
    ]
}

/// Subject a list of itself: type 0.
fn lists_in_lists() -> Sheet {
    let list = TypeRecord { kind: LIST, flag: 0, first: 0, count: 1 };
    Sheet { types: vec![list], type_list: vec![0], ..Sheet::default() }
}

/// A list in a list and so on, to a depth.
fn nested<T>(depth: usize, list: fn(Vec<T>) -> T) -> T {
    (1..depth).fold(list(vec![]), |inside, _| list(vec![inside]))
}

fn one_int_for_each(clauses: usize) -> Vec<u8> {
    let ints: Vec<Pattern> = (1..=clauses).map(|n| int(&n.to_string())).collect();
    sheet_of(one_int(), &ints)
}

/// Clauses over a tuple of Ints: each tests columns of its own for 1, as many as `tests` says, and
/// names as many of the others as `names` says. The last, if it is there, tests none.
///
/// A clause with t columns above a tree of N nodes makes a tree of t + 1 + t N nodes, so that the
/// sizes of such a sheet are known: it has N nodes, a hoist for each clause, and for each name as
/// many bindings as its clause has leaves, which is the product of the t above it, and one more.
fn staircase(tests: &[usize], names: &[usize], last: bool) -> Vec<u8> {
    let width: usize = tests.iter().sum();
    let tuple = TypeRecord { kind: TUPLE, flag: 0, first: 0, count: width as u16 };
    let types =
        Sheet { types: vec![tuple, INT_TYPE], type_list: vec![1; width], ..Sheet::default() };
    let own = tests.iter().scan(0, |from, t| {
        *from += t;
        Some(*from - t..*from)
    });
    let clauses: Vec<Pattern> = own
        .chain(last.then_some(0..0))
        .enumerate()
        .map(|(clause, own)| {
            let mut left = names.get(clause).copied().unwrap_or(0);
            let column = |column: usize| {
                if own.contains(&column) {
                    int("1")
                } else if left > 0 {
                    left -= 1;
                    Pattern::Variable(column as u16)
                } else {
                    Pattern::Discard
                }
            };
            Pattern::Tuple((0..width).map(column).collect())
        })
        .collect();
    sheet_of(types, &clauses)
}

/// A clause whose leaves bind in different orders: its hoist has the order of the default's leaf,
/// which is built first and listed last.
fn orders() -> Vec<u8> {
    let types = Sheet {
        types: vec![
            TypeRecord { kind: TUPLE, flag: 0, first: 0, count: 3 },
            INT_TYPE,
            TypeRecord { kind: DATA, flag: 0, first: 0, count: 2 },
        ],
        constructors: vec![Run { first: 0, count: 1 }; 2],
        type_list: vec![1, 2, 2],
        ..Sheet::default()
    };
    let constr = |which, inside| Pattern::Constr(which, vec![inside]);
    use Pattern::{Discard, Tuple, Variable};
    sheet_of(
        types,
        &[
            Tuple(vec![int("1"), Discard, constr(1, int("5"))]),
            Tuple(vec![int("2"), constr(0, int("5")), Discard]),
            Tuple(vec![Discard, constr(0, Variable(1)), constr(1, Variable(2))]),
        ],
    )
}

/// A tail after one element beside a list of 187: a case for every length between.
fn long_list() -> Vec<u8> {
    let clauses = [
        Pattern::Tailed(vec![int("1"), Pattern::Variable(1)]),
        Pattern::List(vec![Pattern::Discard; 187]),
    ];
    sheet_of(ints_in_list(), &clauses)
}

/// Cases at the limits, and one where the order of bindings tells.
pub fn limits() -> Vec<Hand> {
    let list = |depth| sheet_of(lists_in_lists(), &[nested(depth, Pattern::List)]);
    let integer = |text| sheet_of(one_int(), &[int(text)]);
    let deep = |depth| PanelWriter::written(&nested(depth, Value::List)).to_bytes();
    let long = |length| {
        let elements = vec![Value::List(vec![]); length];
        PanelWriter::written(&Value::List(elements)).to_bytes()
    };
    let steps = [4, 2, 2, 3, 3, 2];
    vec![
        sheet("orders", "(1,_,C1 5); (2,C0 5,_); (_,C0 n1,C1 n2)", orders()),
        sheet("patterns-192", "(1, 1, .. 1), a tuple of 191", staircase(&[191], &[], false)),
        sheet("long-list", "[1, ..n1]; a list of 187", long_list()),
        sheet("clauses-32", "1; 2; .. 32", one_int_for_each(32)),
        sheet("clauses-33", "1; 2; .. 33", one_int_for_each(33)),
        sheet("nodes-1024", "a tree of 1,024 nodes", staircase(&steps, &[], true)),
        sheet("nodes-1025", "a tree of 1,025 nodes", staircase(&[6, 4, 8, 3], &[], false)),
        sheet(
            "bindings-4096",
            "a tree of 4,096 bindings",
            staircase(&steps, &[0, 0, 1, 2, 0, 14, 7], true),
        ),
        sheet(
            "bindings-4097",
            "a tree of 4,097 bindings",
            staircase(&steps, &[0, 2, 0, 2, 0, 14, 7], true),
        ),
        sheet("depth-12", "a list pattern 12 deep", list(12)),
        sheet("depth-13", "a list pattern 13 deep", list(13)),
        sheet("minus-zero", "-0", integer("-0")),
        sheet("leading-zero", "01", integer("01")),
        panel("panel-depth-32", "panel 32 deep for depth-12", deep(32)),
        panel("panel-depth-33", "panel 33 deep for depth-12", deep(33)),
        panel("panel-512", "panel of 512 records for depth-12", long(511)),
        panel("panel-513", "panel of 513 records for depth-12", long(512)),
    ]
}
