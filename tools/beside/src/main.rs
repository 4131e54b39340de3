//! `beside`: the Rust, a reference and random sheets, to be held against the proved library.
//!
//! Commands: see USAGE. A refused sheet prints `refused NUMBER PLACE`, as the lister does; a walk that is stuck prints
//! `refused 32 NODE STEP`.

#[cfg(feature = "library")]
mod bench;
mod compare;
#[cfg(feature = "library")]
mod families;
mod files;
mod generate;
mod hand;
#[cfg(feature = "library")]
mod library;
mod oracle;
#[cfg(feature = "library")]
mod plain;
mod random;
mod reached;
mod reference;
mod rows;
#[cfg(test)]
mod tests;
mod tree;

use std::fmt::Write;
use std::process::ExitCode;

use generate::panels::Panels;
use random::Random;
use reference::panel::Position;
use reference::{Refusal, calls};

const USAGE: &str = "\
beside list SHEET           the listing of the Rust's tree
beside ref SHEET            the listing of the reference's tree
beside tree SHEET OUT       writes the tree file, by the reference
beside walk SHEET PANEL     fit check, build and walk, by the reference
beside on TREE PANEL        the walk of a tree file alone, by the reference
beside compare N SEED [P]   N random sheets: the Rust against the reference, walks of P fitting panels each against a matcher
beside gen SEED DIR K       writes K random sheets with panels, and what the reference answers
beside rows                 the hand-made walks of crates/test_walk, by the reference
beside bytes [NAME]         hand-made sheets and panels, and their trees, as lists of bytes
beside hand DIR             writes the hand-made ones, and what the reference answers
beside bench K SEED [again] with the library: times of K sheets a family, by the Rust and by the library
beside families SEED K DIR  with the library: writes K sheets a family with their trees and panels
beside once CALL DIR        with the library: one call on each file of a family, for counts.sh
beside vectors SEED K OUT   writes K random sheets that are accepted, each with the listing of the Rust's tree
";

/// The Rust recurses once for every level of a tree, and so does the reference.
const STACK: usize = 1 << 28;

fn main() -> ExitCode {
    let args: Vec<String> = std::env::args().skip(1).collect();
    let work = std::thread::Builder::new().stack_size(STACK).spawn(move || command(&args));
    match work.expect("a thread").join() {
        Ok(Ok(true)) => ExitCode::SUCCESS,
        Ok(Ok(false)) => ExitCode::FAILURE,
        Ok(Err(message)) => {
            eprintln!("beside: {message}");
            ExitCode::FAILURE
        }
        Err(_) => ExitCode::FAILURE,
    }
}

/// Runs a command; answers whether all that it compared was the same.
fn command(args: &[String]) -> Result<bool, String> {
    let words: Vec<&str> = args.iter().map(String::as_str).collect();
    match words[..] {
        ["list", sheet] => print!("{}", listed(&read(sheet)?, true)),
        ["ref", sheet] => print!("{}", listed(&read(sheet)?, false)),
        ["tree", sheet, out] => match tree_bytes(&read(sheet)?) {
            Ok(tree) => std::fs::write(out, tree).map_err(|e| format!("{out}: {e}"))?,
            Err(refusal) => print!("{}", refused(refusal)),
        },
        ["walk", sheet, panel] => print!("{}", walked(&read(sheet)?, &read(panel)?)),
        ["on", tree, panel] => print!("{}", walked_on(&read(tree)?, &read(panel)?)),
        ["rows"] => rows::walks().iter().for_each(|walk| print!("{}", rows::answered(walk))),
        ["compare", n, seed] => return compared(n, seed, compare::PANELS),
        ["compare", n, seed, panels] => return compared(n, seed, number(panels)? as usize),
        ["gen", seed, dir, k] => generated(number(seed)?, dir, number(k)?)?,
        ["bytes"] => hand::proved().iter().for_each(show_bytes),
        ["bytes", name] => {
            let all = hand::proved().into_iter().chain(hand::limits());
            match all.into_iter().find(|hand| hand.name == name) {
                Some(hand) => show_bytes(&hand),
                None => return Err(format!("no sheet or panel is named {name}")),
            }
        }
        ["hand", dir] => by_hand(dir)?,
        #[cfg(feature = "library")]
        ["bench", k, seed] => bench::run(number(k)? as usize, number(seed)?, false),
        #[cfg(feature = "library")]
        ["bench", k, seed, "again"] => bench::run(number(k)? as usize, number(seed)?, true),
        #[cfg(feature = "library")]
        ["families", seed, k, dir] => bench::write(number(seed)?, number(k)? as usize, dir)?,
        #[cfg(feature = "library")]
        ["once", call, dir] => println!("{}", bench::once(call, dir)?),
        ["vectors", seed, k, out] => {
            let vectors = vectors(number(seed)?, number(k)?);
            std::fs::write(out, vectors).map_err(|e| format!("{out}: {e}"))?;
        }
        _ => return Err(format!("the commands are\n{USAGE}")),
    }
    Ok(true)
}

/// Runs the comparison and shows its counts; answers whether there is no difference.
fn compared(n: &str, seed: &str, panels: usize) -> Result<bool, String> {
    let asked = compare::Asked { cases: number(n)? as usize, seed: number(seed)?, panels };
    let counts = compare::run(asked);
    print!("{counts}");
    for (_, difference) in counts.differences.iter().take(3) {
        println!("{difference}");
    }
    Ok(counts.differences.is_empty())
}

fn read(name: &str) -> Result<Vec<u8>, String> {
    std::fs::read(name).map_err(|e| format!("{name}: {e}"))
}

fn number(word: &str) -> Result<u64, String> {
    word.parse().map_err(|_| format!("{word} is no number"))
}

fn refused(refusal: Refusal) -> String {
    format!("{refusal}\n")
}

/// The listing of a sheet's tree, or its refusal: the Rust's tree or the reference's.
fn listed(sheet: &[u8], by_oracle: bool) -> String {
    match calls::tree_of(sheet) {
        Err(refusal) => refused(refusal),
        Ok((checked, _)) if by_oracle => tree::listing(&oracle::build(&checked)),
        Ok((_, built)) => tree::listing(&built.root),
    }
}

fn tree_bytes(sheet: &[u8]) -> Result<Vec<u8>, Refusal> {
    let mut tree = vec![0; 65536];
    let answer = calls::build(sheet, &mut tree, &mut [0; 65536])?;
    tree.truncate(answer.length);
    Ok(tree)
}

/// What the walk of a panel over a sheet's tree answers, if the panel fits the sheet.
fn walked(sheet: &[u8], panel: &[u8]) -> String {
    match calls::fit(sheet, panel).and_then(|()| tree_bytes(sheet)) {
        Err(refusal) => refused(refusal),
        Ok(tree) => walked_on(&tree, panel),
    }
}

/// What the walk of a panel over a tree answers, with a line for each binding.
fn walked_on(tree: &[u8], panel: &[u8]) -> String {
    let mut bound = [0; 576];
    match calls::walk(tree, panel, &mut bound) {
        Err(refusal) => refused(refusal),
        Ok(None) => "no leaf\n".to_string(),
        Ok(Some((clause, count))) => {
            let mut out = format!("leaf {clause}\n");
            for binding in bound.chunks(3).take(count) {
                let at = Position { record: binding[1], dropped: binding[2] };
                let part = reference::panel::check(panel).expect("it was walked").shown(at);
                writeln!(out, "n{} record {} dropped {} {part}", binding[0], at.record, at.dropped)
                    .unwrap();
            }
            out
        }
    }
}

/// A writer of files into a folder, which is made if it is not there.
fn folder(dir: &str) -> Result<impl Fn(&str, &[u8]) -> Result<(), String>, String> {
    std::fs::create_dir_all(dir).map_err(|e| format!("{dir}: {e}"))?;
    let dir = dir.to_string();
    Ok(move |name: &str, bytes: &[u8]| {
        std::fs::write(format!("{dir}/{name}"), bytes).map_err(|e| format!("{dir}/{name}: {e}"))
    })
}

/// The hand-made sheets and panels by their names, and `answers`.
fn by_hand(dir: &str) -> Result<(), String> {
    let write = folder(dir)?;
    let mut answers = String::new();
    for hand in hand::proved().into_iter().chain(hand::limits()) {
        let name = format!("{}.{}", hand.name, if hand.sheet { "sheet" } else { "panel" });
        write(&name, &hand.bytes)?;
        write!(answers, "{name}: {}\n{}", hand.about, hand_answer(&hand)).unwrap();
    }
    write("answers", answers.as_bytes())
}

/// The listing of a sheet, or whether a panel passes 21 to 24.
fn hand_answer(hand: &hand::Hand) -> String {
    if hand.sheet {
        return listed(&hand.bytes, false);
    }
    match reference::panel::check(&hand.bytes) {
        Ok(panel) => format!("{} records\n", panel.records.len()),
        Err(refusal) => refused(refusal),
    }
}

/// Sheets `0000.sheet` and on, their panels `0000.0.panel` and on, and `answers`, what the
/// reference says of each.
fn generated(seed: u64, dir: &str, many: u64) -> Result<(), String> {
    let write = folder(dir)?;
    let mut answers = String::new();
    for case in 0..many {
        let mut random = Random::of_case(seed, case);
        let sheet = generate::sheets::any(&mut random);
        let name = format!("{case:04}.sheet");
        write(&name, &sheet)?;
        write!(answers, "{name}\n{}", listed(&sheet, false)).unwrap();
        let Ok(checked) = reference::sheet::check(&sheet) else {
            continue;
        };
        let panels = Panels::of(&checked);
        for number in 0..4 {
            let fitting = if number < 3 { panels.fitting(&mut random) } else { None };
            let panel = fitting.map_or_else(|| panels.any(&mut random), |panel| panel.to_bytes());
            let name = format!("{case:04}.{number}.panel");
            write(&name, &panel)?;
            write!(answers, "{name}\n{}", walked(&sheet, &panel)).unwrap();
        }
    }
    write("answers", answers.as_bytes())
}

/// The longest listing that is taken as a vector, so that the file stays small.
const VECTOR_MOST: usize = 3000;

/// For each of so many accepted sheets: the length of the sheet and of the listing of the Rust's tree, two u16,
/// low byte first; the sheet; the listing.
fn vectors(seed: u64, many: u64) -> Vec<u8> {
    let mut out = Vec::new();
    let (mut case, mut found) = (0, 0);
    while found < many {
        let sheet = generate::sheets::any(&mut Random::of_case(seed, case));
        case += 1;
        let Ok((checked, _)) = calls::tree_of(&sheet) else {
            continue;
        };
        let listing = tree::listing(&oracle::build(&checked));
        if listing.len() > VECTOR_MOST {
            continue;
        }
        out.extend((sheet.len() as u16).to_le_bytes());
        out.extend((listing.len() as u16).to_le_bytes());
        out.extend(sheet);
        out.extend(listing.as_bytes());
        found += 1;
    }
    out
}

/// A list of bytes as the proofs write it.
fn byte_list(bytes: &[u8]) -> String {
    bytes.iter().map(|b| format!("{b} ∷ ")).collect::<String>() + "[]"
}

fn show_bytes(hand: &hand::Hand) {
    let kind = if hand.sheet { "sheet" } else { "panel" };
    println!("{kind} {}, {} bytes: {}", hand.name, hand.bytes.len(), hand.about);
    println!("{}", byte_list(&hand.bytes));
    if hand.sheet
        && let Ok(tree) = tree_bytes(&hand.bytes)
    {
        println!("tree of {}, {} bytes:", hand.name, tree.len());
        println!("{}", byte_list(&tree));
    }
    print!("{}", hand_answer(hand));
    println!();
}
