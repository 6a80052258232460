//! Large sheets by chance, with many of one thing: metadata, names, units, findings.
use crate::case::{Case, ROOM};
use crate::generate::Rng;
use crate::page::escape;

/// A word of `letters`, of 1 to `most` of them.
fn word(rng: &mut Rng, letters: &[&str], most: usize) -> String {
    (0..1 + rng.below(most)).map(|_| *rng.one(letters)).collect()
}

const LETTERS: &[&[&str]] = &[
    &["a", "b"],
    &["a", "A", "b", "B"],
    &["s", "S", "ſ", "ß", "ẞ"],
    &["ж", "Ж", "я", "Я"],
    &["米", "水", "鹽"],
    &["x", " ", "\\", "\t", "\n", "\r", "é", "e\u{301}"],
    &["x", "X", "r", "R", "\r", "\\"],
    &["a", "b", "c", "d", "e", "f", "g", "h", "i", "j", "k", "l", "m", "n", "o", "p", "q", "r", "s", "t", "u", "v", "w", "y", "z"],
];

/// So many words, from few or many different ones.
fn words(rng: &mut Rng, n: usize) -> Vec<String> {
    let letters = *rng.one(LETTERS);
    let most = *rng.one(&[2, 4, 12]);
    (0..n).map(|_| word(rng, letters, most)).collect()
}

fn metadata(rng: &mut Rng, n: usize) -> String {
    let keys: Vec<_> = if rng.chance(50) { words(rng, n) } else { (0..n).map(|_| word(rng, LETTERS[LETTERS.len() - 1], 3)).collect() };
    keys.iter()
        .map(|k| {
            let pad = *rng.one(&["", "", " ", "\u{a0}"]);
            format!("meta\t0\t1\t{pad}{}\t1\t2\t{}\n", escape(k), rng.below(10))
        })
        .collect()
}

fn amount(rng: &mut Rng, units: &[String]) -> String {
    if rng.chance(40) {
        return "-".to_string();
    }
    let kind = *rng.one(&["n", "n", "r", "t"]);
    let unit = if rng.chance(80) { format!("0\t1\t{}", escape(rng.one::<String>(units))) } else { "-".to_string() };
    format!("0\t3\t{kind}\t0\t1\t1\t{}\t{unit}", rng.one(&["-", "-", "l"]))
}

fn components(rng: &mut Rng, n: usize, units: &[String]) -> String {
    let names = words(rng, n);
    let mut out = String::from("start\tstep\n");
    for name in &names {
        let (name, q) = (escape(name), amount(rng, units));
        let note = *rng.one(&["-", "-", "-", "0\t1\tn"]);
        let m = *rng.one(&[".", ".", ".", "&", "+", "?", "&?"]);
        out += &match rng.below(8) {
            0 => format!("cookware\t0\t1\t0\t1\t{name}\t-\t{q}\t{note}\t{m}\t0\t0\n"),
            1 => format!("timer\t0\t1\t-\t{q}\n"),
            2 => format!("text\t0\t1\t{name} {}{}, {}\n", rng.below(30), escape(rng.one::<String>(units)), rng.below(9)),
            _ => format!("ingredient\t0\t1\t0\t1\t{name}\t-\t{q}\t{note}\t{m}\t0\t0\t-\n"),
        };
        if rng.chance(4) {
            out += "end\tstep\nstart\tstep\n";
        }
        if rng.chance(1) {
            out += "end\tstep\nsection\t0\t1\ts\nstart\tstep\n";
        }
    }
    out + "end\tstep\n"
}

fn up_to_one(rng: &mut Rng, of: &[usize]) -> usize {
    let most = *rng.one(of);
    rng.below(most)
}

/// A sheet with up to some thousand lines.
pub fn crowded(rng: &mut Rng) -> Case {
    let text = "0123456789 and more".repeat(1 + rng.below(3));
    // a long list is rare: the library searches it from its start for each unit
    let count = match rng.below(64) {
        0 => 1000,
        1..=2 => 300,
        _ => *rng.one(&[1, 20]),
    };
    let mut names = words(rng, count);
    names.iter_mut().for_each(|n| n.retain(|c| !"\t\n\\".contains(c)));
    names.retain(|n| !n.is_empty());
    let repeated = names.clone();
    if rng.chance(95) {
        names.sort();
        names.dedup();
    }
    let kinds = ["volume", "mass", "length", "temperature", "time"];
    let units: String = names.iter().map(|n| format!("{n}\t{}\n", rng.one(&kinds))).collect();
    let looked_for = if repeated.is_empty() { vec!["kg".to_string()] } else { repeated };
    let mut sheet = String::new();
    if rng.chance(50) {
        let n = up_to_one(rng, &[100, 1000, 3500]);
        sheet += &metadata(rng, n);
    }
    if rng.chance(60) {
        sheet += &format!("meta\t0\t1\t{}\t1\t2\t{}\n", rng.one(&["[duplicate]", "[duplicate]", "[mode]"]), rng.one(&["ref", "steps", "components", "text"]));
    }
    let n = up_to_one(rng, &[50, 300, 700]);
    sheet += &components(rng, n, &looked_for);
    Case { name: String::new(), room: ROOM, sheet: sheet.into_bytes(), text: text.into_bytes(), units: units.into_bytes(), flags: vec![b'0' + (if rng.chance(70) { 7 } else { rng.below(8) }) as u8] }
}

/// A sheet whose components, in text mode, stand for much of the text: its form may be many times as long.
pub fn long_form(rng: &mut Rng) -> Case {
    let letters = *rng.one(LETTERS);
    let length = *rng.one(&[100, 600, 2500]);
    let text: String = (0..length).map(|_| *rng.one(letters)).collect();
    let ends: Vec<usize> = (0..=text.len()).filter(|&i| text.is_char_boundary(i)).collect();
    let mut sheet = String::new();
    let n = up_to_one(rng, &[10, 40, 100]);
    for i in 0..n {
        if i == 0 || rng.chance(10) {
            let mode = *rng.one(&["text", "text", "text", "text", "all", "steps"]);
            sheet += &format!("{}meta\t0\t0\t[mode]\t0\t0\t{mode}\nstart\tstep\n", if i == 0 { "" } else { "end\tstep\n" });
        }
        let (a, b) = (*rng.one(&ends), *rng.one(&ends));
        let span = format!("{}\t{}", a.min(b), a.max(b));
        sheet += &match rng.below(8) {
            0 => format!("text\t{span}\tx\n"),
            1 => "warning\t3\n".to_string(),
            2 | 3 => format!("timer\t{span}\t-\t-\n"),
            4 | 5 => format!("cookware\t{span}\t0\t0\tpot\t-\t-\t-\t.\t0\t0\n"),
            _ => format!("ingredient\t{span}\t0\t0\tsalt\t-\t-\t-\t.\t0\t0\t-\n"),
        };
    }
    if n > 0 {
        sheet += "end\tstep\n";
    }
    Case { name: String::new(), room: ROOM, sheet: sheet.into_bytes(), text: text.into_bytes(), units: Vec::new(), flags: vec![b"1357"[rng.below(4)]] }
}
