//! Makes the tables of Unicode 16.0.0 from Unicode's files in data/unicode.
use std::{env, fs, path::Path};

/// The fields of each line of one of Unicode's files, without comments.
fn published(name: &str) -> Vec<Vec<String>> {
    let file = Path::new(&env::var("CARGO_MANIFEST_DIR").unwrap()).join("../../data/unicode").join(name);
    println!("cargo:rerun-if-changed={}", file.display());
    let text = fs::read_to_string(file).unwrap();
    let lines = text.lines().map(|line| line.split('#').next().unwrap()).filter(|line| !line.trim().is_empty());
    lines.map(|line| line.split(';').map(|field| field.trim().to_string()).collect()).collect()
}

fn main() {
    let mut out = String::new();
    for (name, file, properties) in [
        ("WHITE_SPACE", "PropList.txt", &["White_Space"][..]),
        ("ALPHABETIC", "DerivedCoreProperties.txt", &["Alphabetic"]),
        ("NUMERIC", "DerivedGeneralCategory.txt", &["Nd", "Nl", "No"]),
    ] {
        let mut ranges: Vec<(u32, u32)> = Vec::new();
        for fields in published(file).iter().filter(|fields| properties.contains(&fields[1].as_str())) {
            let (a, b) = fields[0].split_once("..").unwrap_or((&fields[0], &fields[0]));
            ranges.push((u32::from_str_radix(a, 16).unwrap(), u32::from_str_radix(b, 16).unwrap()));
        }
        ranges.sort();
        assert!(!ranges.is_empty() && ranges.windows(2).all(|two| two[0].1 < two[1].0), "{file}");
        ranges.dedup_by(|next, last| {
            let touches = last.1 + 1 == next.0;
            if touches {
                last.1 = next.1;
            }
            touches
        });
        out += &format!("pub static {name}: &[(u32, u32)] = &{ranges:?};\n");
    }
    out += "pub static FOLDING: &[(u32, &[u32])] = &[\n";
    for fields in published("CaseFolding.txt").iter().filter(|fields| fields[1] == "C" || fields[1] == "F") {
        let to: Vec<_> = fields[2].split(' ').map(|x| format!("0x{x}")).collect();
        out += &format!("(0x{}, &[{}]),\n", fields[0], to.join(", "));
    }
    out += "];\n";
    fs::write(Path::new(&env::var("OUT_DIR").unwrap()).join("tables.rs"), out).unwrap();
}
