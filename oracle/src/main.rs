//! `oracle write FOLDER [SEED]` writes every list and prints what it counts.
//! `oracle marked` runs document 01's examples and shortcuts on the Rust.
//! `oracle differences` runs the smallest inputs of docs/DIFFERENCES.md on it.
//! `oracle road FOLDER` writes the board of examples/ and its corners.
//! `oracle hunt TURNS SEED`, and in its place `far`, `tries` or `lent`, look for
//! runs of the refiner that are hard to meet.

use std::path::Path;
use std::process::ExitCode;

fn write(folder: &Path, seed: u64) -> bool {
    let mut whole = true;
    let mut done = || -> std::io::Result<()> {
        std::fs::create_dir_all(folder)?;
        for (name, writer) in oracle::lists::ALL {
            let list = writer(seed);
            std::fs::write(folder.join(format!("{name}.bin")), list.bytes())?;
            print!("{}", list.report());
            for what in oracle::lists::missing(&list) {
                println!("    MISSING {what}");
                whole = false;
            }
        }
        Ok(())
    };
    match done() {
        Ok(()) => whole,
        Err(e) => {
            eprintln!("oracle: {e}");
            false
        }
    }
}

fn road(folder: &Path) -> bool {
    let board = oracle::road::board(oracle::SEED);
    let corners = oracle::road::corners(&board);
    let written = std::fs::create_dir_all(folder)
        .and_then(|()| std::fs::write(folder.join("board.gray"), &board.bytes))
        .and_then(|()| std::fs::write(folder.join("board.corners"), oracle::road::text(&corners)));
    if let Err(e) = &written {
        eprintln!("oracle: {e}");
    }
    println!("road: {} corners", corners.len());
    written.is_ok()
}

fn said(lines: Vec<(String, bool)>) -> bool {
    for (line, holds) in &lines {
        println!("{} {line}", if *holds { "holds" } else { "FAILS" });
    }
    lines.iter().all(|(_, holds)| *holds)
}

/// A hunt by its name.
fn hunted(name: &str) -> Option<fn(usize, u64)> {
    match name {
        "hunt" => Some(oracle::hunt::all),
        "far" => Some(oracle::hunt::far),
        "tries" => Some(oracle::hunt::tries),
        "lent" => Some(oracle::hunt::lent),
        _ => None,
    }
}

fn usage() -> bool {
    eprintln!("oracle: write FOLDER [SEED], road FOLDER, marked, differences, or hunt, far, tries or lent with TURNS SEED");
    false
}

fn main() -> ExitCode {
    oracle::rust_or_rule::quiet();
    let args: Vec<String> = std::env::args().skip(1).collect();
    let words: Vec<&str> = args.iter().map(String::as_str).collect();
    let number = |text: &str| text.parse::<u64>().ok();
    let good = match words.as_slice() {
        ["write", folder] => write(Path::new(folder), oracle::SEED),
        ["write", folder, seed] if number(seed).is_some() => {
            write(Path::new(folder), number(seed).unwrap_or(0))
        }
        ["road", folder] => road(Path::new(folder)),
        ["marked"] => said(oracle::marked::all()),
        ["differences"] => said(oracle::differences::all()),
        [hunt, turns, seed] => match (hunted(hunt), number(turns), number(seed)) {
            (Some(hunt), Some(turns), Some(seed)) => {
                hunt(turns as usize, seed);
                true
            }
            _ => usage(),
        },
        _ => usage(),
    };
    if good {
        ExitCode::SUCCESS
    } else {
        ExitCode::FAILURE
    }
}
