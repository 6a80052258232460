//! Collects the recipe in the working directory, as the program `collect` does.
use std::io::Write;

fn main() {
    let read = |name: &str| {
        std::fs::read(name).unwrap_or_else(|e| {
            eprintln!("{name}: {e}");
            std::process::exit(1)
        })
    };
    let (text, units, sheet) = (read("recipe.cook"), read("units.tsv"), read("events.tsv"));
    let flags = match read("flags")[..] {
        [digit @ b'0'..=b'9'] => u32::from(digit - b'0'),
        _ => 8,
    };
    let mut out = vec![0; 1 << 20];
    match recipe::collect(&sheet, &text, &units, flags, &mut recipe::Memory::new(), &mut out) {
        Ok(page) => std::io::stdout().write_all(page).unwrap(),
        Err(refusal) => println!("{refusal}"),
    }
}
