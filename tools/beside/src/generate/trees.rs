//! Random trees that no sheet has: their paths lead through a given value, and some lead astray, so that walks are stuck
//! at any node and step.

use crate::files::*;
use crate::random::Random;
use crate::tree::*;

/// The texts of tests: each digit is one.
pub const POOL: &[u8] = b"0123456789";

/// A value of a few levels, its texts of one digit.
pub fn value(random: &mut Random, depth: usize) -> Value {
    let digit = random.below(3);
    if depth == 0 || random.chance(1, 4) {
        return match random.chance(2, 3) {
            true => Value::Int(digit.to_string()),
            false => Value::Bytes(vec![POOL[digit]]),
        };
    }
    let many = random.below(4);
    let mut parts: Vec<Value> = (0..many).map(|_| value(random, depth - 1)).collect();
    match random.below(4) {
        0 => Value::List(parts),
        1 => Value::Tuple(parts),
        2 if many == 2 => {
            let snd = Box::new(parts.remove(1));
            Value::Pair(Box::new(parts.remove(0)), snd)
        }
        _ => Value::Constr(digit as u16, parts),
    }
}

/// A tree for a value, of at most so many switches one inside the other.
pub fn tree(random: &mut Random, value: &Value, depth: usize) -> Node {
    let clause = random.below(9) as u16;
    if depth == 0 || random.chance(1, 8) {
        return Node::Leaf { clause, bindings: bindings(random, value) };
    }
    if random.chance(1, 4) {
        let child = Box::new(tree(random, value, depth));
        return Node::Hoist { clause, bindings: bindings(random, value), child };
    }
    let (path, part) = path(random, value);
    let cases = |random: &mut Random, most: usize, test: &dyn Fn(u16) -> Test| {
        let many = random.between(1, most);
        (0..many).map(|_| (test(random.below(3) as u16), tree(random, value, depth - 1))).collect()
    };
    let text = |n: u16| Text { start: n, bytes: vec![POOL[n as usize]] };
    // The kind of the part, or any.
    let kind = if random.chance(7, 8) { part.map_or(0, kind) } else { random.below(6) as u8 };
    if kind == V_LIST {
        let listed = cases(random, 2, &Test::List);
        let tail_cases = cases(random, 3, &Test::ListWithTail);
        let default = default(random, value, depth);
        return Node::ListSwitch { path, cases: listed, tail_cases, default };
    }
    let cases = match kind {
        V_INT => cases(random, 3, &|n| Test::Int(text(n))),
        V_BYTES => cases(random, 3, &|n| Test::Bytes(text(n))),
        _ => cases(random, 3, &Test::Constr),
    };
    Node::Switch { path, cases, default: default(random, value, depth) }
}

fn default(random: &mut Random, value: &Value, depth: usize) -> Option<Box<Node>> {
    random.chance(4, 5).then(|| Box::new(tree(random, value, depth - 1)))
}

fn bindings(random: &mut Random, value: &Value) -> Vec<Binding> {
    let many = random.below(5);
    (0..many).map(|name| Binding { name: name as u16, path: path(random, value).0 }).collect()
}

fn kind(value: &Value) -> u8 {
    match value {
        Value::Int(_) => V_INT,
        Value::Bytes(_) => V_BYTES,
        Value::List(_) => V_LIST,
        Value::Pair(..) => V_PAIR,
        Value::Tuple(_) => V_TUPLE,
        Value::Constr(..) => V_CONSTR,
    }
}

/// A path into a value and the part that it leads to, which is none where a step leads astray; other steps may follow it.
fn path<'a>(random: &mut Random, value: &'a Value) -> (Path, Option<&'a Value>) {
    let step = |kind, index: usize| Step { kind, flag: 0, index: index as u16, of: 0 };
    let mut steps = vec![];
    let mut at = Some(value);
    while random.chance(3, 4) && steps.len() < 6 {
        let (kind, parts): (u8, Vec<&Value>) = match at {
            Some(Value::List(parts)) => (S_LIST, parts.iter().collect()),
            Some(Value::Tuple(parts)) => (S_TUPLE, parts.iter().collect()),
            Some(Value::Constr(_, parts)) => (S_CONSTR, parts.iter().collect()),
            Some(Value::Pair(fst, snd)) => (S_PAIR, vec![fst, snd]),
            _ => (S_LIST, vec![]),
        };
        if parts.is_empty() || random.chance(1, 12) {
            // A part that is not there, or of another kind; where there is no part any more, any step.
            let any = if random.chance(1, 2) { kind } else { random.below(5) as u8 };
            steps.push(step(any, parts.len() + random.below(2)));
            at = None;
            continue;
        }
        let mut index = random.below(parts.len());
        if kind == S_LIST && random.chance(1, 3) {
            // A tail, then an element of what is left.
            let dropped = random.below(index + 1);
            steps.push(step(S_LISTTAIL, dropped));
            index -= dropped;
            at = Some(parts[dropped + index]);
        } else {
            at = Some(parts[index]);
        }
        steps.push(step(kind, index));
    }
    (Path::new(steps), at)
}
