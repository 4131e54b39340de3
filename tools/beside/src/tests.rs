//! The scope document's own cases, asked of the reference and of the Rust.

use crate::reference::{Place, Refusal, build, calls, sheet};
use crate::tree::listing;
use crate::{compare, hand, oracle, rows, walked};

fn bytes(name: &str) -> Vec<u8> {
    let mut all = hand::proved().into_iter().chain(hand::limits());
    all.find(|hand| hand.name == name).expect(name).bytes
}

/// The listing of a sheet, once the Rust and the reference agree on it.
fn agreed(name: &str) -> String {
    let (checked, built) = calls::tree_of(&bytes(name)).expect(name);
    let ours = listing(&built.root);
    assert_eq!(ours, listing(&oracle::build(&checked)), "{name}");
    ours
}

fn refusal(name: &str) -> Refusal {
    calls::tree_of(&bytes(name)).err().expect(name)
}

const P1: &str = "\
tree 16 6
0 hoist 0 then 1 n1=listtail_1
1 hoist 2 then 2
2 listswitch . List(1):3 List(2):6 ListWithTail(1):12 else 15
3 switch list_0 Int(1):4 else 5
4 leaf 0 n1=listtail_1
5 leaf 2
6 switch list_0 Int(1):7 else 8
7 leaf 0 n1=listtail_1
8 switch list_1 Int(2):9 else 11
9 hoist 1 then 10 n2=list_0
10 leaf 1 n2=list_0
11 leaf 2
12 switch list_0 Int(1):13 else 14
13 leaf 0 n1=listtail_1
14 leaf 2
15 leaf 2
";

#[test]
fn the_listing_of_the_document() {
    assert_eq!(agreed("P1"), P1);
}

#[test]
fn the_walks_of_the_document() {
    let walk = |sheet, panel| walked(&bytes(sheet), &bytes(panel));
    assert_eq!(walk("P1", "P2"), "leaf 0\nn1 record 0 dropped 1 list 1\n");
    assert_eq!(walk("P1", "P3"), "leaf 1\nn2 record 1 dropped 0 int 5\n");
    assert_eq!(walk("P1", "P4"), "leaf 2\n");
    assert_eq!(walk("P1", "P5"), "leaf 2\n");
    assert_eq!(walk("P7", "P7-panel"), "no leaf\n");
    assert_eq!(walk("P7", "P2"), "refused 25 0\n");
}

#[test]
fn the_other_trees_of_the_document() {
    assert!(
        agreed("P6").contains("0 hoist 1 then 1\n1 switch . Int(7):2 else 4\n2 hoist 0 then 3\n")
    );
    assert!(agreed("P9").ends_with("6 leaf 2\n"));
    assert!(agreed("P10").contains("1 switch tuple_1 "));
    assert!(agreed("P11").contains("1 switch tuple_0 "));
    assert!(agreed("extra").contains("2 hoist 1 then 3\n3 switch tuple_1 "));
    assert_eq!(refusal("P8"), Refusal { number: 14, place: Place::Lowest(1) });
    assert_eq!(refusal("P12"), Refusal { number: 4, place: Place::Lowest(0) });
}

#[test]
fn a_hoist_binds_in_the_order_of_the_leaf_built_first() {
    let orders = agreed("orders");
    assert!(
        orders.contains("0 hoist 2 then 1 n1=tuple_1.constr_0_false n2=tuple_2.constr_0_false\n")
    );
    assert!(orders.contains(" leaf 2 n2=tuple_2.constr_0_false n1=tuple_1.constr_0_false\n"));
}

#[test]
fn the_limits() {
    assert!(agreed("patterns-192").starts_with("tree 193 0\n"));
    assert!(agreed("long-list").starts_with("tree 380 189\n"));
    assert!(agreed("clauses-32").starts_with("tree 65 0\n"));
    assert!(agreed("nodes-1024").starts_with("tree 1024 0\n"));
    assert!(agreed("bindings-4096").starts_with("tree 1024 4096\n"));
    assert!(agreed("depth-12").starts_with("tree 14 0\n"));
    let refusals = [
        ("clauses-33", 5),
        ("nodes-1025", 12),
        ("bindings-4097", 13),
        ("depth-13", 8),
        ("minus-zero", 9),
        ("leading-zero", 9),
    ];
    for (name, number) in refusals {
        assert_eq!(refusal(name), Refusal { number, place: Place::Lowest(0) }, "{name}");
    }
}

/// The hand-made walks of `crates/test_walk`: the reference gives the answers that are written down there.
#[test]
fn the_rows_of_test_walk() {
    let ours: String = rows::walks().iter().map(rows::answered).collect();
    for (ours, written) in ours.lines().zip(rows::ANSWERS.lines()) {
        assert_eq!(ours, written);
    }
    assert_eq!(ours, rows::ANSWERS);
}

/// The Rust has no limits: its trees just past them have just that size.
#[test]
fn just_past_the_limits() {
    let rust = |name| oracle::build(&sheet::check(&bytes(name)).ok().unwrap());
    assert_eq!(rust("nodes-1025").nodes(), 1025);
    assert_eq!(rust("bindings-4097").bindings(), 4097);
    let checked = sheet::check(&bytes("bindings-4097")).ok().unwrap();
    assert!(build::whole(&checked).ok().unwrap().root == rust("bindings-4097"));
}

#[test]
fn random_sheets() {
    let counts = compare::run(compare::Asked { cases: 300, seed: 1, panels: 8 });
    assert!(counts.differences.is_empty(), "{}", counts.differences[0].1);
}
