//! Safe calls of Dewmycel, the proved pattern-match compiler of a line that programs metering devices.
//!
//! Each function here hands slices to the proved call of the same name in `libdewmycel.a` and takes its
//! answer apart. The proved calls ask nothing of the bytes, so these are safe for every input; what they
//! promise is in `include/dewmycel.h`, word for word in the crate `dewmycel`'s contracts.
#![no_std]
#![warn(missing_docs)]

use core::fmt;

mod raw {
    // A slice is a pointer and a length. The library is compiled with the C calling convention.
    extern "C" {
        pub fn dewmycel_build(
            sheet: *const u8,
            sheet_length: usize,
            tree: *mut u8,
            tree_length: usize,
            work: *mut u8,
            work_length: usize,
        ) -> u64;
        pub fn dewmycel_fit(
            sheet: *const u8,
            sheet_length: usize,
            panel: *const u8,
            panel_length: usize,
        ) -> u64;
        pub fn dewmycel_walk(
            tree: *const u8,
            tree_length: usize,
            panel: *const u8,
            panel_length: usize,
            bound: *mut u16,
            bound_length: usize,
        ) -> u64;
        pub fn dewmycel_text(
            panel: *const u8,
            panel_length: usize,
            record: u16,
            dropped: u16,
        ) -> u64;
    }
}

/// The least length of the tree buffer of [`build`], in bytes.
pub const TREE_BYTES: usize = 65_536;
/// The least length of the work buffer of [`build`], in bytes.
pub const WORK_BYTES: usize = 65_536;
/// The least length of the binding buffer of [`walk`], in words.
pub const BOUND_WORDS: usize = 576;

/// The place of a refusal.
#[derive(Clone, Copy, Debug, PartialEq, Eq)]
pub enum Place {
    /// The lowest type, pattern or clause at fault, for the refusals that name one; else 0.
    Lowest(u16),
    /// Where a walk is stuck, which is refusal 32.
    Stuck {
        /// The number of the node in the tree file: a switch, a list switch or a leaf.
        node: u16,
        /// The step of its path that could not be taken, from 0; the path's length where all could, and the part
        /// there is of a kind that the node does not test. Of a leaf the path is that of its first binding that
        /// cannot be followed.
        step: u16,
    },
}

/// A refusal: its number, and its place.
#[derive(Clone, Copy, Debug, PartialEq, Eq)]
pub struct Refusal {
    /// The number, from 1 on.
    pub number: u16,
    /// The place: one number, and of 32 two.
    pub place: Place,
}

impl Refusal {
    /// What the number says, in a sentence.
    pub fn sentence(&self) -> &'static str {
        match self.number {
            1 => "a writable buffer is smaller than its least size",
            2 => "the sheet is under 18 or over 8,192 bytes, or says another length",
            3 => "the sheet's sections do not rise, pass the trailer, or cut a record",
            4 => "the sheet has no clause",
            5 => "the sheet has too many types, constructors, type entries, patterns, children or clauses",
            6 => "a type, constructor, type entry or the subject breaks the format",
            7 => "a type is opaque, not list-decorated, with one constructor of one field",
            8 => "a pattern, child or root breaks the format, or patterns nest deeper than 12",
            9 => "an integer is not canonical, or a text is over 64 bytes",
            10 => "a pattern does not fit its type",
            11 => "a clause binds a name twice",
            12 => "the tree would have over 1,024 nodes",
            13 => "the tree would have over 4,096 bindings",
            14 => "a clause has no leaf in the tree",
            21 => "the panel is under 8 or over 16,384 bytes, or says another length",
            22 => "the panel's sections are wrong, or it has no record or over 512",
            23 => "a record of the panel breaks the format, or records nest deeper than 32",
            24 => "an integer of the panel is not canonical, or a text is over 64 bytes",
            25 => "the panel does not fit the sheet's subject type",
            31 => "the bytes are not a tree file",
            32 => "a part that the tree asks for is of another kind, or is not there",
            33 => "the position is not an integer or a byte string of the panel with nothing dropped",
            _ => "a number that the format's document does not have",
        }
    }

    /// What the lowest place counts, where the number names one.
    pub fn place_is(&self) -> Option<&'static str> {
        match self.number {
            7 => Some("type"),
            9 => Some("pattern"),
            10 | 11 | 14 => Some("clause"),
            _ => None,
        }
    }
}

impl fmt::Display for Refusal {
    fn fmt(&self, f: &mut fmt::Formatter<'_>) -> fmt::Result {
        write!(f, "refusal {}: {}", self.number, self.sentence())?;
        match (self.place, self.place_is()) {
            (Place::Stuck { node, step }, _) => write!(f, ", at node {node}, step {step}"),
            (Place::Lowest(lowest), Some(what)) => write!(f, " ({what} {lowest})"),
            (Place::Lowest(_), None) => Ok(()),
        }
    }
}

impl core::error::Error for Refusal {}

fn word(answer: u64, i: u32) -> u16 {
    (answer >> (16 * i)) as u16
}

/// The number of a refusal whose place is a node and a step.
const STUCK: u16 = 32;

fn accepted(answer: u64) -> Result<u64, Refusal> {
    let place = match word(answer, 0) {
        0 => return Ok(answer),
        STUCK => Place::Stuck {
            node: word(answer, 1),
            step: word(answer, 2),
        },
        _ => Place::Lowest(word(answer, 1)),
    };
    Err(Refusal {
        number: word(answer, 0),
        place,
    })
}

/// A tree that was built: the file, and how many nodes and bindings it has.
#[derive(Clone, Copy, Debug, PartialEq, Eq)]
pub struct Built<'a> {
    /// The tree file, the front of the buffer that was lent.
    pub tree: &'a [u8],
    /// Nodes of the tree.
    pub nodes: u16,
    /// Bindings in its leaves and hoists together.
    pub bindings: u16,
}

/// Builds the decision tree of a sheet: refusals 1 to 14.
///
/// `tree` and `work` need [`TREE_BYTES`] and [`WORK_BYTES`]. Afterwards `work` is all zero, and `tree` is
/// the file and zeros behind it, or all zero if the sheet was refused.
pub fn build<'a>(sheet: &[u8], tree: &'a mut [u8], work: &mut [u8]) -> Result<Built<'a>, Refusal> {
    // SAFETY: three slices, each with its own length; those that are written are lent mutably, so they
    // overlap nothing.
    let answer = accepted(unsafe {
        raw::dewmycel_build(
            sheet.as_ptr(),
            sheet.len(),
            tree.as_mut_ptr(),
            tree.len(),
            work.as_mut_ptr(),
            work.len(),
        )
    })?;
    Ok(Built {
        tree: &tree[..word(answer, 1) as usize],
        nodes: word(answer, 2),
        bindings: word(answer, 3),
    })
}

/// Whether a panel fits a sheet's subject type: refusals 2 to 11, 21 to 25.
pub fn fit(sheet: &[u8], panel: &[u8]) -> Result<(), Refusal> {
    // SAFETY: two slices that are only read, each with its own length.
    accepted(unsafe { raw::dewmycel_fit(sheet.as_ptr(), sheet.len(), panel.as_ptr(), panel.len()) })
        .map(|_| ())
}

/// A name bound at a leaf, to a record of the panel with so many list elements dropped.
#[derive(Clone, Copy, Debug, PartialEq, Eq)]
pub struct Binding {
    /// The name's number.
    pub name: u16,
    /// The record of the panel.
    pub record: u16,
    /// How many elements of that list are before the part; 0 for what is no list.
    pub dropped: u16,
}

/// The leaf at which a walk ended.
#[derive(Clone, Copy, Debug, PartialEq, Eq)]
pub struct Leaf<'a> {
    /// The clause.
    pub clause: u16,
    bound: &'a [u16],
}

impl<'a> Leaf<'a> {
    /// The names bound there, in the leaf's order.
    pub fn bindings(&self) -> impl ExactSizeIterator<Item = Binding> + 'a {
        self.bound.chunks_exact(3).map(|b| Binding {
            name: b[0],
            record: b[1],
            dropped: b[2],
        })
    }
}

/// Walks a tree on a panel: refusals 1, 31, 21 to 24, and 32 with the node and the step ([`Place::Stuck`]). `None` where
/// the walk ends without a leaf.
///
/// `bound` needs [`BOUND_WORDS`]. Neither the tree nor the panel is trusted.
pub fn walk<'a>(
    tree: &[u8],
    panel: &[u8],
    bound: &'a mut [u16],
) -> Result<Option<Leaf<'a>>, Refusal> {
    // SAFETY: three slices, each with its own length; the one that is written is lent mutably.
    let answer = accepted(unsafe {
        raw::dewmycel_walk(
            tree.as_ptr(),
            tree.len(),
            panel.as_ptr(),
            panel.len(),
            bound.as_mut_ptr(),
            bound.len(),
        )
    })?;
    if word(answer, 3) == 0 {
        return Ok(None);
    }
    Ok(Some(Leaf {
        clause: word(answer, 1),
        bound: &bound[..3 * word(answer, 2) as usize],
    }))
}

/// The bytes of an integer or a byte string of a panel, as that part of the panel itself: refusals 21 to 24,
/// 33.
pub fn text(panel: &[u8], record: u16, dropped: u16) -> Result<&[u8], Refusal> {
    // SAFETY: one slice that is only read, with its length.
    let answer =
        accepted(unsafe { raw::dewmycel_text(panel.as_ptr(), panel.len(), record, dropped) })?;
    let start = word(answer, 1) as usize;
    Ok(&panel[start..start + word(answer, 2) as usize])
}
