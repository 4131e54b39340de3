//! The hand-made walks of `crates/test_walk`: its file `stdin` has trees and panels as rows of bytes, its file `stdout` the answers,
//! by hand. The reference is held to these answers too, and the library's calls are compared on these bytes.

use std::fmt::Write;

use crate::reference::calls;

const ROWS: &str = include_str!("../../../crates/test_walk/stdin");

/// The answers to `ROWS`, a line for each walk.
pub const ANSWERS: &str = include_str!("../../../crates/test_walk/stdout");

/// A walk of a tree file on a panel file, with so many words for bindings.
pub struct Walk {
    pub name: &'static str,
    pub tree: Vec<u8>,
    pub panel: Vec<u8>,
    pub words: usize,
}

/// The number of four hexadecimal digits at `at` of a row.
fn number(row: &str, at: usize) -> usize {
    usize::from_str_radix(&row[at..at + 4], 16).expect("four digits")
}

/// The bytes that a row has from `at` on: two digits each, parted by blanks, up to the first that is none.
fn bytes(row: &str, at: usize) -> Vec<u8> {
    row[at..].split(' ').map_while(|word| u8::from_str_radix(word, 16).ok()).collect()
}

fn put(file: &mut [u8], at: usize, bytes: &[u8]) {
    file[at..at + bytes.len()].copy_from_slice(bytes);
}

/// Copies of a record from `at` on; the word at `counts` is one more in each than in the last.
fn put_copies(file: &mut [u8], row: &str) {
    let [at, many, size, counts] = [1, 6, 11, 16].map(|i| number(row, i));
    let record = bytes(row, 21);
    for k in 0..many {
        let to = at + k * size;
        put(file, to, &record);
        let word = u16::from_le_bytes([file[to + counts], file[to + counts + 1]]) + k as u16;
        put(file, to + counts, &word.to_le_bytes());
    }
}

/// Every walk of the rows, in order.
pub fn walks() -> Vec<Walk> {
    let (mut tree, mut panel) = (vec![0; 1 << 16], vec![0; 1 << 16]);
    // The tree as the next walk has it.
    let mut tried = tree.clone();
    let mut walks = vec![];
    for row in ROWS.lines() {
        match row.as_bytes()[0] {
            b';' => continue,
            b'p' => put(&mut panel, number(row, 1), &bytes(row, 6)),
            b'=' => put(&mut tried, number(row, 1), &bytes(row, 6)),
            b't' => {
                put(&mut tree, number(row, 1), &bytes(row, 6));
                put(&mut tried, number(row, 1), &bytes(row, 6));
            }
            b'*' => {
                put_copies(&mut tree, row);
                tried.clone_from(&tree);
            }
            kind => {
                let words = match kind {
                    b'-' => 575,
                    b'+' => 577,
                    _ => 576,
                };
                walks.push(Walk {
                    name: &row[11..],
                    tree: tried[..number(row, 1)].to_vec(),
                    panel: panel[..number(row, 6)].to_vec(),
                    words,
                });
                tried.clone_from(&tree);
            }
        }
    }
    walks
}

/// What the reference answers, as the program `test_walk` says it: of many bindings the first three and the last.
pub fn answered(walk: &Walk) -> String {
    let mut bound = vec![7; walk.words];
    let mut out = format!("{}: ", walk.name);
    match calls::walk(&walk.tree, &walk.panel, &mut bound) {
        Err(refusal) => write!(out, "{refusal}").unwrap(),
        Ok(None) => out.push_str("no leaf"),
        Ok(Some((clause, count))) => {
            write!(out, "leaf {clause}").unwrap();
            for (k, b) in bound.chunks(3).take(count).enumerate() {
                if k == 3 {
                    out.push_str(" ..");
                }
                if k < 3 || k == count - 1 {
                    write!(out, " ({}, {}, {})", b[0], b[1], b[2]).unwrap();
                }
            }
        }
    }
    out + "\n"
}
