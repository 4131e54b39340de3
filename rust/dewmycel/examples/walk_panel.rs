//! Builds the tree of a sheet, walks it on a panel, and shows what is bound: `walk_panel SHEET PANEL`.
use std::process::ExitCode;

fn run(sheet: &str, panel: &str) -> Result<(), String> {
    let read = |name: &str| std::fs::read(name).map_err(|e| format!("{name}: {e}"));
    let (sheet, panel) = (read(sheet)?, read(panel)?);
    let mut tree = vec![0; dewmycel::TREE_BYTES];
    let mut work = vec![0; dewmycel::WORK_BYTES];
    let mut bound = [0; dewmycel::BOUND_WORDS];

    dewmycel::fit(&sheet, &panel).map_err(|e| e.to_string())?;
    let built = dewmycel::build(&sheet, &mut tree, &mut work).map_err(|e| e.to_string())?;
    match dewmycel::walk(built.tree, &panel, &mut bound).map_err(|e| e.to_string())? {
        None => println!("no leaf"),
        Some(leaf) => {
            println!("leaf {}", leaf.clause);
            for b in leaf.bindings() {
                print!("n{} record {} dropped {}", b.name, b.record, b.dropped);
                if let Ok(text) = dewmycel::text(&panel, b.record, b.dropped) {
                    print!(" text ");
                    text.iter().for_each(|byte| print!("{byte:02x}"));
                }
                println!();
            }
        }
    }
    Ok(())
}

fn main() -> ExitCode {
    let arguments: Vec<String> = std::env::args().skip(1).collect();
    let [sheet, panel] = arguments.as_slice() else {
        eprintln!("usage: walk_panel SHEET PANEL");
        return ExitCode::from(2);
    };
    match run(sheet, panel) {
        Ok(()) => ExitCode::SUCCESS,
        Err(why) => {
            eprintln!("walk_panel: {why}");
            ExitCode::FAILURE
        }
    }
}
