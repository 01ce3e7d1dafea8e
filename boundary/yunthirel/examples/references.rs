//! Prints what does not hold of the lines of a sheet.
//!
//!     cargo run --example references -- SHEET

use yunthirel::Reference;

fn main() {
    let path = std::env::args_os().nth(1).unwrap_or_default();
    let Ok(sheet) = std::fs::read(path) else {
        eprintln!("references SHEET: a file that can be read");
        std::process::exit(2);
    };
    match yunthirel::check_references(&sheet) {
        Ok(found) => found.iter().for_each(|line| {
            let wrong = match line {
                Reference::NotVerb { .. } => "no v in its `w` line",
                Reference::Unused { .. } => "none of the 25 texts",
                _ => "no `w` line",
            };
            println!("byte {}: {}: {wrong}", line.start(), line.name());
        }),
        Err(refusal) => {
            println!("refused with {}, line at byte {}", refusal.number(), refusal.start().unwrap_or(0));
            std::process::exit(1);
        }
    }
}
