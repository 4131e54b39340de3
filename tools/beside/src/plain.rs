//! Plain walkers, to be timed beside the library's walk: they take the same bytes of a tree and a panel and give the
//! same answer, but trust that both files passed their checks. They write the words of the bindings only: the caller
//! has cleared the rest of the buffer.
//!
//! They are made three times from one text: one that asks of each part that it is there and of its kind, as the walk's
//! answer 32 has it, and says at which node and step it is not; that one as safe Rust is, where each index is held against its slice; and one that asks nothing.

use crate::files::{V_BYTES, V_CONSTR, V_INT, V_LIST, V_PAIR, V_TUPLE};
use crate::library::packed;
use crate::tree::{S_CONSTR, S_LIST, S_LISTTAIL, S_PAIR};

type Walker = unsafe fn(&[u8], &[u8], &mut [u16]) -> u64;

/// Those that answer 32 with its node and step where the walk is stuck, by name.
pub const ASKING: [(&str, Walker); 2] =
    [("the plain walker", asking), ("the plain walker with indexes checked", indexed)];

/// The one that must not be given a stuck walk, by name.
pub const TRUSTING: (&str, Walker) = ("the plain walker that asks nothing", trusting);

/// The walk with no check but those that its answer asks for.
///
/// # Safety
/// The tree and the panel pass their checks, and `bound` has three words for each binding.
#[inline(never)]
pub unsafe fn asking(tree: &[u8], panel: &[u8], bound: &mut [u16]) -> u64 {
    Walk::<true, false>::of(tree, panel).answer(bound)
}

/// The same as safe Rust has it.
#[inline(never)]
pub fn indexed(tree: &[u8], panel: &[u8], bound: &mut [u16]) -> u64 {
    Walk::<true, true>::of(tree, panel).answer(bound)
}

/// The walk without any check.
///
/// # Safety
/// The tree and the panel pass their checks, the walk is not stuck, and `bound` has three words for each binding.
#[inline(never)]
pub unsafe fn trusting(tree: &[u8], panel: &[u8], bound: &mut [u16]) -> u64 {
    Walk::<false, false>::of(tree, panel).answer(bound)
}

/// Bytes that are read with their indexes checked, or not.
#[derive(Clone, Copy)]
struct Bytes<'a, const CHECKED: bool>(&'a [u8]);

impl<'a, const CHECKED: bool> Bytes<'a, CHECKED> {
    fn part(self, at: usize, length: usize) -> &'a [u8] {
        if CHECKED {
            return &self.0[at..][..length];
        }
        // SAFETY: the walkers' callers vouch for the files.
        unsafe { self.0.get_unchecked(at..at + length) }
    }

    fn byte(self, at: usize) -> u8 {
        self.part(at, 1)[0]
    }

    fn word(self, at: usize) -> usize {
        let part = self.part(at, 2);
        u16::from_le_bytes([part[0], part[1]]) as usize
    }
}

/// A record and how many elements are dropped of it.
#[derive(Clone, Copy)]
struct At {
    record: usize,
    dropped: usize,
}

/// A tree and a panel, with the starts of their sections.
struct Walk<'a, const ASKS: bool, const CHECKED: bool> {
    tree: Bytes<'a, CHECKED>,
    cases: usize,
    bindings: usize,
    paths: usize,
    steps: usize,
    texts: usize,
    panel: Bytes<'a, CHECKED>,
    children: usize,
    panel_texts: usize,
}

/// A path is stuck: a part is not there, or is of another kind. How many steps were taken.
struct Stuck(usize);

impl<'a, const ASKS: bool, const CHECKED: bool> Walk<'a, ASKS, CHECKED> {
    fn of(tree: &'a [u8], panel: &'a [u8]) -> Self {
        let (t, p) = (Bytes(tree), Bytes(panel));
        let (of_tree, of_panel) = (tree.len() - 14, panel.len() - 8);
        Walk {
            tree: t,
            cases: t.word(of_tree + 2),
            bindings: t.word(of_tree + 4),
            paths: t.word(of_tree + 6),
            steps: t.word(of_tree + 8),
            texts: t.word(of_tree + 10),
            panel: p,
            children: p.word(of_panel + 2),
            panel_texts: p.word(of_panel + 4),
        }
    }

    /// Stuck after so many steps, where it is asked and what is asked does not hold.
    fn ask(
        &self,
        taken: impl FnOnce() -> usize,
        holds: impl FnOnce() -> bool,
    ) -> Result<(), Stuck> {
        if ASKS && !holds() { Err(Stuck(taken())) } else { Ok(()) }
    }

    /// The clause and the number of its bindings, packed as the library packs them; 0 for no leaf; 32 with node and step.
    fn answer(&self, bound: &mut [u16]) -> u64 {
        let mut node = 0;
        loop {
            let at = 12 * node;
            let field = |i: usize| self.tree.word(at + 2 + 2 * i);
            let next = match self.tree.byte(at) {
                0 => self.switch(field(0), field(1), field(2)),
                1 => self.list_switch(field(0), field(1), field(2), field(3)),
                2 => match self.bind(field(1), field(2), bound) {
                    Ok(()) => return packed(0, field(0) as u64, field(2) as u64, 1),
                    Err(stuck) => Err(stuck),
                },
                _ => Ok(Some(field(3))),
            };
            node = match next {
                Ok(Some(child)) => child,
                Ok(None) if field(4) > 0 => field(4) - 1,
                Ok(None) => return 0,
                Err(Stuck(step)) => return packed(32, node as u64, step as u64, 0),
            };
        }
    }

    fn follow(&self, path: usize) -> Result<At, Stuck> {
        let path = self.paths + 4 * path;
        let (first, count) = (self.tree.word(path), self.tree.word(path + 2));
        let mut at = At { record: 0, dropped: 0 };
        for taken in 0..count {
            let step = self.steps + 6 * (first + taken);
            let (kind, index) = (self.tree.byte(step), self.tree.word(step + 2));
            let record = 8 * at.record;
            let parts = || self.panel.word(record + 6);
            self.ask(|| taken, || self.panel.byte(record) == stepped_from(kind))?;
            let part = if kind >= S_LIST { at.dropped + index } else { index };
            if kind == S_LISTTAIL {
                self.ask(|| taken, || part <= parts())?;
                at.dropped = part;
            } else {
                self.ask(|| taken, || part < parts())?;
                let child = self.panel.word(record + 4) + part;
                at = At { record: self.panel.word(self.children + 2 * child), dropped: 0 };
            }
        }
        Ok(at)
    }

    /// How many steps a path has.
    fn length(&self, path: usize) -> usize {
        self.tree.word(self.paths + 4 * path + 2)
    }

    /// The child of the first case that holds.
    fn switch(&self, path: usize, first: usize, cases: usize) -> Result<Option<usize>, Stuck> {
        let record = 8 * self.follow(path)?.record;
        let field = |i: usize| self.panel.word(record + 2 + 2 * i);
        let kind = self.panel.byte(record);
        let asked = || kind == asked_by(self.tree.byte(self.cases + 8 * first));
        self.ask(|| self.length(path), asked)?;
        let mut all = (first..first + cases).map(|case| self.cases + 8 * case);
        let found = if kind == V_CONSTR {
            all.find(|case| self.tree.word(case + 2) == field(0))
        } else {
            let text = self.panel.part(self.panel_texts + field(1), field(2));
            all.find(|case| {
                let (start, length) = (self.tree.word(case + 2), self.tree.word(case + 4));
                text == self.tree.part(self.texts + start, length)
            })
        };
        Ok(found.map(|case| self.tree.word(case + 6)))
    }

    /// The child of the first case of the exact length, else of the first of the largest tail number not above it.
    fn list_switch(
        &self,
        path: usize,
        first: usize,
        cases: usize,
        tails: usize,
    ) -> Result<Option<usize>, Stuck> {
        let at = self.follow(path)?;
        self.ask(|| self.length(path), || self.panel.byte(8 * at.record) == V_LIST)?;
        let length = self.panel.word(8 * at.record + 6) - at.dropped;
        let mut best = None;
        for case in first..first + cases + tails {
            let case_at = self.cases + 8 * case;
            let number = self.tree.word(case_at + 2);
            if case < first + cases {
                if number == length {
                    return Ok(Some(self.tree.word(case_at + 6)));
                }
            } else if number <= length && best.is_none_or(|(most, _)| number > most) {
                best = Some((number, case_at));
            }
        }
        Ok(best.map(|(_, case_at)| self.tree.word(case_at + 6)))
    }

    /// Name, record and dropped elements of each binding.
    fn bind(&self, first: usize, count: usize, bound: &mut [u16]) -> Result<(), Stuck> {
        for (i, words) in bound.chunks_exact_mut(3).take(count).enumerate() {
            let binding = self.bindings + 4 * (first + i);
            let at = self.follow(self.tree.word(binding + 2))?;
            words.copy_from_slice(&[
                self.tree.word(binding) as u16,
                at.record as u16,
                at.dropped as u16,
            ]);
        }
        Ok(())
    }
}

/// The kind of record that a step of this kind leaves.
fn stepped_from(step: u8) -> u8 {
    match step {
        S_PAIR => V_PAIR,
        S_CONSTR => V_CONSTR,
        S_LIST | S_LISTTAIL => V_LIST,
        _ => V_TUPLE,
    }
}

/// The kind of record that a case of this kind asks for.
fn asked_by(case: u8) -> u8 {
    match case {
        0 => V_CONSTR,
        1 => V_INT,
        _ => V_BYTES,
    }
}
