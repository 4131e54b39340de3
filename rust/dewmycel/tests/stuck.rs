//! Refusals and their places, of the library itself: 32 with a node and a step, and others.
use dewmycel::{Place, Refusal};

/// A hoist and its leaf, each with n1=tuple_0 n2=tuple_1.pair_1 n3=pair_0.
const TREE: [u8; 98] = [
    3, 0, 0, 0, 0, 0, 3, 0, 1, 0, 0, 0, // 0 hoist 0 then 1
    2, 0, 0, 0, 3, 0, 3, 0, 0, 0, 0, 0, // 1 leaf 0
    1, 0, 0, 0, 2, 0, 1, 0, 3, 0, 2, 0, // the hoist's bindings: name, path
    1, 0, 0, 0, 2, 0, 1, 0, 3, 0, 2, 0, // the leaf's
    0, 0, 1, 0, 1, 0, 2, 0, 3, 0, 1, 0, // paths: first step, count
    1, 0, 0, 0, 0, 0, // tuple_0
    1, 0, 1, 0, 0, 0, // tuple_1
    0, 0, 1, 0, 0, 0, // pair_1
    0, 0, 0, 0, 0, 0, // pair_0
    0, 0, 24, 0, 24, 0, 48, 0, 60, 0, 84, 0, 98, 0, // trailer
];

/// The tuple (5,5).
const PANEL: [u8; 37] = [
    4, 0, 0, 0, 0, 0, 2, 0, // 0 tuple
    0, 0, 0, 0, 0, 0, 1, 0, // 1 integer
    0, 0, 0, 0, 0, 0, 1, 0, // 2 integer
    1, 0, 2, 0,    // parts
    b'5', // pool
    0, 0, 24, 0, 28, 0, 37, 0, // trailer
];

/// The first binding can be followed, the second cannot at its second step, the third not at its first.
#[test]
fn the_first_binding_that_sticks_decides() {
    let mut bound = [7; dewmycel::BOUND_WORDS];
    let refusal = dewmycel::walk(&TREE, &PANEL, &mut bound).unwrap_err();
    let place = Place::Stuck { node: 1, step: 1 };
    assert_eq!(refusal, Refusal { number: 32, place });
    assert_eq!(
        refusal.to_string(),
        "refusal 32: a part that the tree asks for is of another kind, or is not there, at node 1, step 1"
    );
    assert_eq!(bound, [0; dewmycel::BOUND_WORDS]);
}

#[test]
fn other_refusals_have_one_number_for_their_place() {
    let mut bound = [7; dewmycel::BOUND_WORDS];
    let refusal = dewmycel::walk(&TREE, &[], &mut bound).unwrap_err();
    let place = Place::Lowest(0);
    assert_eq!(refusal, Refusal { number: 21, place });
    assert_eq!(
        refusal.to_string(),
        "refusal 21: the panel is under 8 or over 16,384 bytes, or says another length"
    );
    let refusal = dewmycel::walk(&TREE[..97], &PANEL, &mut bound).unwrap_err();
    assert_eq!(refusal, Refusal { number: 31, place });
}
