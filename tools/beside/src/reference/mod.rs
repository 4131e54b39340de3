//! An independent reading of the scope document: every refusal, the tree by its rules, the files
//! to the byte, the walk and a direct matcher.
//!
//! It is written from the document alone, plainly and without regard to speed, so that it can be
//! held against both the Rust and the proved library. Refusals carry the document's numbers.

pub mod build;
pub mod calls;
pub mod matcher;
pub mod panel;
pub mod sheet;
pub mod tree_file;
pub mod walk;

/// A refusal: the number and the place of the document's table.
#[derive(Clone, Copy, Debug, PartialEq, Eq)]
pub struct Refusal {
    pub number: u16,
    pub place: Place,
}

/// The place of a refusal: one number, and of 32 two.
#[derive(Clone, Copy, Debug, PartialEq, Eq)]
pub enum Place {
    /// The lowest type, pattern or clause at fault, or 0.
    Lowest(u16),
    /// Where a walk is stuck: a node of the tree file, and how many steps of its path are taken.
    Stuck { node: u16, step: u16 },
}

/// `refused NUMBER PLACE`, of 32 `refused 32 NODE STEP`.
impl std::fmt::Display for Refusal {
    fn fmt(&self, f: &mut std::fmt::Formatter) -> std::fmt::Result {
        match self.place {
            Place::Lowest(place) => write!(f, "refused {} {place}", self.number),
            Place::Stuck { node, step } => write!(f, "refused {} {node} {step}", self.number),
        }
    }
}

/// A refusal whose place is 0.
pub fn refused<T>(number: u16) -> Result<T, Refusal> {
    refused_at(number, 0)
}

pub fn refused_at<T>(number: u16, place: usize) -> Result<T, Refusal> {
    Err(Refusal { number, place: Place::Lowest(place as u16) })
}

/// Whether the starts of a file rise from 0, equal ones allowed, none passes the trailer, and
/// every section holds whole records. `sizes` has the record size of each section.
fn laid_out(starts: &[usize], sizes: &[usize], trailer: usize) -> bool {
    if starts[0] != 0 {
        return false;
    }
    let mut ends = starts[1..].to_vec();
    ends.push(trailer);
    (0..starts.len())
        .all(|i| starts[i] <= ends[i] && (ends[i] - starts[i]).is_multiple_of(sizes[i]))
}

/// `0`, or an optional `-` and then a digit 1 to 9 and further digits.
fn canonical(text: &[u8]) -> bool {
    if text == b"0" {
        return true;
    }
    let digits = text.strip_prefix(b"-").unwrap_or(text);
    match digits.first() {
        Some(b'1'..=b'9') => digits.iter().all(u8::is_ascii_digit),
        _ => false,
    }
}

/// Whether a run lies in a section of `whole` records, and starts at 0 if it is empty.
fn run_inside(first: u16, count: u16, whole: usize) -> bool {
    if count == 0 { first == 0 } else { first as usize + count as usize <= whole }
}
