//! Random sheets, panels, trees and damaged copies, each the same for the same seed.

pub mod damage;
pub mod layout;
pub mod panels;
pub mod patterns;
pub mod sheets;
pub mod trees;
pub mod types;
pub mod values;

use crate::random::Random;

/// A canonical integer. Few of them, so that they meet again; now and then a rare one.
pub fn int_text(random: &mut Random) -> String {
    int_text_of(random, 0)
}

/// The same, with as many more of them as `spread` says.
pub fn int_text_of(random: &mut Random, spread: usize) -> String {
    if spread > 0 && random.chance(5, 6) {
        return random.below(spread).to_string();
    }
    match random.below(12) {
        0 => "0".to_string(),
        1..=4 => "1".to_string(),
        5..=6 => "2".to_string(),
        7 => "-1".to_string(),
        8 => "10".to_string(),
        9 => "12".to_string(),
        10 => random.between(3, 9).to_string(),
        _ => rare_int(random),
    }
}

fn rare_int(random: &mut Random) -> String {
    let digits = if random.chance(1, 3) { 63 } else { random.between(1, 20) };
    let mut text = if random.chance(1, 2) { "-".to_string() } else { String::new() };
    text.push_str(&random.between(1, 9).to_string());
    for _ in 1..digits {
        text.push_str(&random.below(10).to_string());
    }
    text
}

/// A byte string. Some read like integers.
pub fn byte_text(random: &mut Random) -> Vec<u8> {
    match random.below(10) {
        0 => vec![],
        1..=2 => b"1".to_vec(),
        3..=4 => b"ab".to_vec(),
        5 => b"a".to_vec(),
        6 => vec![0],
        7 => vec![255, 0, 10],
        8 => vec![0x61; 64],
        _ => (0..random.below(65)).map(|_| random.below(256) as u8).collect(),
    }
}
