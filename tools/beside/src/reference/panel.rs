//! Refusals 21 to 25 of a panel, and positions in it.

use super::sheet::{Checked, record_at};
use super::{Refusal, canonical, laid_out, refused, run_inside};
use crate::files::*;

/// A position: a record and a number of list elements dropped.
#[derive(Clone, Copy, Debug, PartialEq, Eq, PartialOrd, Ord)]
pub struct Position {
    pub record: u16,
    pub dropped: u16,
}

/// The position of a whole record.
pub fn whole(record: u16) -> Position {
    Position { record, dropped: 0 }
}

impl Panel {
    pub fn record(&self, at: Position) -> Record {
        self.records[at.record as usize]
    }

    /// The parts at a position: of a list those that are not dropped; none of a text.
    pub fn parts(&self, at: Position) -> &[u16] {
        let r = self.record(at);
        if r.kind <= V_BYTES {
            return &[];
        }
        &self.children[r.first as usize..][..r.count as usize][at.dropped as usize..]
    }

    pub fn text(&self, record: u16) -> &[u8] {
        let r = self.records[record as usize];
        &self.pool[r.first as usize..][..r.count as usize]
    }

    /// What stands at a position, in a few words.
    pub fn shown(&self, at: Position) -> String {
        let text = || self.text(at.record);
        match self.record(at).kind {
            V_INT => format!("int {}", String::from_utf8_lossy(text())),
            V_BYTES => {
                let hex: String = text().iter().map(|b| format!("{b:02x}")).collect();
                format!("bytes {hex}")
            }
            V_LIST => format!("list {}", self.parts(at).len()),
            V_PAIR => "pair".to_string(),
            V_TUPLE => format!("tuple {}", self.parts(at).len()),
            _ => format!("constr {}", self.record(at).a),
        }
    }
}

/// Refusals 21 to 24, in order.
pub fn check(bytes: &[u8]) -> Result<Panel, Refusal> {
    let length = bytes.len();
    if !(8..=16384).contains(&length) || u16_at(bytes, length - 2) as usize != length {
        return refused(21);
    }
    let trailer = length - 8;
    let starts: Vec<usize> = (0..3).map(|i| u16_at(bytes, trailer + 2 * i) as usize).collect();
    if !laid_out(&starts, &[8, 2, 1], trailer) {
        return refused(22);
    }
    let panel = Panel {
        records: bytes[..starts[1]].chunks(8).map(record_at).collect(),
        children: bytes[starts[1]..starts[2]].chunks(2).map(|b| u16_at(b, 0)).collect(),
        pool: bytes[starts[2]..trailer].to_vec(),
    };
    if panel.records.is_empty() || panel.records.len() > 512 {
        return refused(22);
    }
    if !keeps_shape(&panel) {
        return refused(23);
    }
    let bad_text = |record: usize| {
        let text = || panel.text(record as u16);
        match panel.records[record].kind {
            V_INT => text().len() > 64 || !canonical(text()),
            V_BYTES => text().len() > 64,
            _ => false,
        }
    };
    if (0..panel.records.len()).any(bad_text) {
        return refused(24);
    }
    Ok(panel)
}

fn keeps_shape(panel: &Panel) -> bool {
    panel.records.iter().all(|r| {
        let whole = if r.kind <= V_BYTES { panel.pool.len() } else { panel.children.len() };
        r.kind <= V_CONSTR
            && r.zero == 0
            && (r.kind == V_CONSTR || r.a == 0)
            && (r.kind != V_PAIR || r.count == 2)
            && run_inside(r.first, r.count, whole)
    }) && linked_as_tree(panel)
        && depth(panel, 0) <= 32
}

/// Every record but the first is one entry, of a lower record; each entry is in one list.
fn linked_as_tree(panel: &Panel) -> bool {
    let mut entry_owners = vec![0; panel.children.len()];
    let mut uses = vec![0; panel.records.len()];
    for (number, r) in panel.records.iter().enumerate() {
        let parts = panel.parts(whole(number as u16));
        for (i, &part) in parts.iter().enumerate() {
            let part = part as usize;
            if part <= number || part >= panel.records.len() {
                return false;
            }
            entry_owners[r.first as usize + i] += 1;
            uses[part] += 1;
        }
    }
    entry_owners.iter().all(|&n| n == 1) && uses[1..].iter().all(|&n| n == 1)
}

fn depth(panel: &Panel, record: u16) -> usize {
    1 + panel.parts(whole(record)).iter().map(|&c| depth(panel, c)).max().unwrap_or(0)
}

/// Whether a record is of a type: what 25 asks of the root and the subject type.
pub fn fits(panel: &Panel, record: u16, checked: &Checked, of: u16) -> bool {
    let r = panel.records[record as usize];
    let sheet = &checked.sheet;
    let t = sheet.types[of as usize];
    let parts = panel.parts(whole(record));
    let entries = || &sheet.type_list[t.first as usize..][..t.count as usize];
    let all = |types: &[u16]| {
        parts.len() == types.len()
            && parts.iter().zip(types).all(|(&part, &t)| fits(panel, part, checked, t))
    };
    match r.kind {
        V_INT => t.kind == INT,
        V_BYTES => t.kind == BYTES,
        V_LIST => t.kind == LIST && parts.iter().all(|&p| fits(panel, p, checked, entries()[0])),
        V_PAIR => t.kind == PAIR && all(entries()),
        V_TUPLE => t.kind == TUPLE && all(entries()),
        _ => t.kind == DATA && r.a < t.count && all(checked.fields(t, r.a)),
    }
}
