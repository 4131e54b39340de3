//! Random sheets by the size of their trees, each with its tree file and panels that fit it: what is timed and counted.

use crate::generate::panels::Panels;
use crate::generate::sheets;
use crate::random::Random;
use crate::reference::sheet::Checked;
use crate::reference::{calls, tree_file};

/// Sheets by the nodes of their trees.
pub struct Family {
    /// As a folder is named.
    pub name: &'static str,
    pub nodes: std::ops::Range<usize>,
    /// How many times faster than the Rust the library's build is to be.
    pub goal: f64,
}

pub const FAMILIES: [Family; 3] = [
    Family { name: "small", nodes: 0..10, goal: 1.0 },
    Family { name: "medium", nodes: 10..100, goal: 5.0 },
    Family { name: "large", nodes: 100..1025, goal: 10.0 },
];

/// The most panels of a sheet that are walked.
const PANELS: usize = 4;

/// An accepted sheet.
pub struct Member {
    pub sheet: Vec<u8>,
    pub checked: Checked,
    pub nodes: usize,
    pub tree: Vec<u8>,
    /// Panels that fit; none if the subject's type has no finite value.
    pub panels: Vec<Vec<u8>>,
}

/// The first accepted sheets of a seed that fall into each family, so many of them.
pub fn members(seed: u64, many: usize) -> [Vec<Member>; 3] {
    let mut found: [Vec<Member>; 3] = Default::default();
    for case in 0.. {
        if found.iter().all(|family| family.len() >= many) {
            break;
        }
        let mut random = Random::of_case(seed, case);
        let sheet = sheets::any(&mut random);
        let Ok((checked, built)) = calls::tree_of(&sheet) else {
            continue;
        };
        let size = FAMILIES.iter().position(|family| family.nodes.contains(&built.nodes));
        let family = &mut found[size.expect("the families hold every size")];
        if family.len() < many {
            let tree = tree_file::written(&built.root, &checked.sheet.pool);
            let panels = Panels::of(&checked);
            let fitting = || panels.fitting(&mut random).map(|panel| panel.to_bytes());
            let panels = std::iter::repeat_with(fitting).take(PANELS).flatten().collect();
            family.push(Member { sheet, checked, nodes: built.nodes, tree, panels });
        }
    }
    found
}
