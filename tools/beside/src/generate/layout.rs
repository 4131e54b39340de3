//! Sheets and panels laid out at random: any numbering that the rules allow, lists in any order,
//! texts shared, overlapping or repeated in the pool.

use crate::files::*;
use crate::random::Random;

/// A node of a pattern or value on its way into a file.
struct Flat {
    kind: u8,
    a: u16,
    text: Option<Vec<u8>>,
    parts: Vec<usize>,
}

/// The records, the child list and the pool, and the numbers of the roots.
struct Laid {
    records: Vec<Record>,
    children: Vec<u16>,
    roots: Vec<u16>,
}

/// A sheet over some types with some clauses.
pub fn sheet(random: &mut Random, types: &Sheet, clauses: &[Pattern]) -> Sheet {
    let mut flats = vec![];
    let roots: Vec<usize> = clauses.iter().map(|c| flat_pattern(c, &mut flats)).collect();
    let mut pool = junk(random);
    let laid = lay_out(random, &flats, &roots, &mut pool);
    Sheet {
        patterns: laid.records,
        children: laid.children,
        clauses: laid.roots,
        pool,
        ..types.clone()
    }
}

/// A panel with a value.
pub fn panel(random: &mut Random, value: &Value) -> Panel {
    let mut flats = vec![];
    let root = flat_value(value, &mut flats);
    let mut pool = junk(random);
    let laid = lay_out(random, &flats, &[root], &mut pool);
    Panel { records: laid.records, children: laid.children, pool }
}

fn junk(random: &mut Random) -> Vec<u8> {
    let length = if random.chance(1, 4) { random.below(6) } else { 0 };
    (0..length).map(|_| *random.pick(b"012-a")).collect()
}

fn flat_pattern(pattern: &Pattern, out: &mut Vec<Flat>) -> usize {
    let (kind, a, text, parts): (u8, u16, Option<Vec<u8>>, Vec<&Pattern>) = match pattern {
        Pattern::Discard => (P_DISCARD, 0, None, vec![]),
        Pattern::Variable(name) => (P_VARIABLE, *name, None, vec![]),
        Pattern::Assign(name, inside) => (P_ASSIGN, *name, None, vec![inside]),
        Pattern::Int(text) => (P_INT, 0, Some(text.clone().into_bytes()), vec![]),
        Pattern::Bytes(text) => (P_BYTES, 0, Some(text.clone()), vec![]),
        Pattern::List(parts) => (P_LIST, 0, None, parts.iter().collect()),
        Pattern::Tailed(parts) => (P_TAILED, 0, None, parts.iter().collect()),
        Pattern::Constr(which, parts) => (P_CONSTR, *which, None, parts.iter().collect()),
        Pattern::Pair(fst, snd) => (P_PAIR, 0, None, vec![fst, snd]),
        Pattern::Tuple(parts) => (P_TUPLE, 0, None, parts.iter().collect()),
    };
    let at = out.len();
    out.push(Flat { kind, a, text, parts: vec![] });
    out[at].parts = parts.into_iter().map(|part| flat_pattern(part, out)).collect();
    at
}

fn flat_value(value: &Value, out: &mut Vec<Flat>) -> usize {
    let (kind, a, text, parts): (u8, u16, Option<Vec<u8>>, Vec<&Value>) = match value {
        Value::Int(text) => (V_INT, 0, Some(text.clone().into_bytes()), vec![]),
        Value::Bytes(text) => (V_BYTES, 0, Some(text.clone()), vec![]),
        Value::List(parts) => (V_LIST, 0, None, parts.iter().collect()),
        Value::Pair(fst, snd) => (V_PAIR, 0, None, vec![fst, snd]),
        Value::Tuple(parts) => (V_TUPLE, 0, None, parts.iter().collect()),
        Value::Constr(which, parts) => (V_CONSTR, *which, None, parts.iter().collect()),
    };
    let at = out.len();
    out.push(Flat { kind, a, text, parts: vec![] });
    out[at].parts = parts.into_iter().map(|part| flat_value(part, out)).collect();
    at
}

fn lay_out(random: &mut Random, flats: &[Flat], roots: &[usize], pool: &mut Vec<u8>) -> Laid {
    // Numbers: pre-order, or any order in which parents go before their children.
    let scattered = random.chance(2, 3);
    let mut number = vec![0u16; flats.len()];
    let mut order = vec![];
    let mut open: Vec<usize> = roots.iter().rev().copied().collect();
    while !open.is_empty() {
        let at = if scattered { random.below(open.len()) } else { open.len() - 1 };
        let flat = open.remove(at);
        number[flat] = order.len() as u16;
        order.push(flat);
        open.extend(flats[flat].parts.iter().rev());
    }
    // Lists, in the order of their owners or in any.
    let mut owners = order.clone();
    if random.chance(1, 2) {
        random.shuffle(&mut owners);
    }
    let mut children = vec![];
    let mut runs = vec![(0, 0); flats.len()];
    for owner in owners {
        let flat = &flats[owner];
        if !flat.parts.is_empty() {
            runs[owner] = (children.len() as u16, flat.parts.len() as u16);
            children.extend(flat.parts.iter().map(|&part| number[part]));
        }
        if let Some(text) = &flat.text {
            runs[owner] = pooled(random, pool, text);
        }
    }
    let records = order
        .iter()
        .map(|&flat| {
            let (first, count) = runs[flat];
            Record { kind: flats[flat].kind, zero: 0, a: flats[flat].a, first, count }
        })
        .collect();
    Laid { records, children, roots: roots.iter().map(|&root| number[root]).collect() }
}

/// A place for a text: any where it stands already, or a new one.
fn pooled(random: &mut Random, pool: &mut Vec<u8>, text: &[u8]) -> (u16, u16) {
    if text.is_empty() {
        return (0, 0);
    }
    let places: Vec<usize> = if pool.len() < text.len() {
        vec![]
    } else {
        (0..=pool.len() - text.len()).filter(|&at| pool[at..].starts_with(text)).collect()
    };
    let full = pool.len() > 3500;
    let start = if !places.is_empty() && (full || random.chance(2, 3)) {
        *random.pick(&places)
    } else {
        pool.extend_from_slice(text);
        pool.len() - text.len()
    };
    (start as u16, text.len() as u16)
}
