//! Carriage returns by chance, and where they were met.
use crate::case::Case;
use crate::generate::Rng;

/// A content with one or more of them.
pub fn with_return(rng: &mut Rng, s: &str) -> String {
    match rng.below(6) {
        0 => format!("\r{s}"),
        1 => format!("{s}\r"),
        2 => format!("{s}\r\n"),
        3 => format!("\r\r{s}\r"),
        4 => s.replacen(' ', "\r", 1),
        _ => {
            let places: Vec<_> = (0..=s.len()).filter(|&i| s.is_char_boundary(i)).collect();
            let (before, after) = s.split_at(*rng.one(&places));
            format!("{before}\r{after}")
        }
    }
}

/// Each LF becomes CR LF.
fn doubled_ends(bytes: &[u8]) -> Vec<u8> {
    bytes.iter().flat_map(|b| if *b == b'\n' { &b"\r\n"[..] } else { std::slice::from_ref(b) }).copied().collect()
}

/// Each `\r` becomes a bare CR, as in sheets from before it was spelled.
fn unspelled(sheet: &[u8]) -> Vec<u8> {
    let mut out = Vec::new();
    let mut rest = sheet.iter();
    while let Some(&b) = rest.next() {
        match (b, rest.as_slice()) {
            (b'\\', [b'r', ..]) => {
                rest.next();
                out.push(b'\r');
            }
            (b'\\', [_, ..]) => out.extend([b, *rest.next().unwrap()]),
            _ => out.push(b),
        }
    }
    out
}

/// Bare ones in the sheet, or more of them in the text.
pub fn damage(rng: &mut Rng, c: &mut Case) {
    let ends: Vec<_> = (0..c.sheet.len()).filter(|&i| c.sheet[i] == b'\n').collect();
    match rng.below(10) {
        0 => c.sheet = doubled_ends(&c.sheet),
        1 => c.sheet = unspelled(&c.sheet),
        2..=4 if !ends.is_empty() => c.sheet.insert(*rng.one(&ends), b'\r'),
        8..=9 => c.text = doubled_ends(&c.text),
        _ => c.sheet.insert(rng.below(c.sheet.len() + 1), b'\r'),
    }
}

/// How many CRs a sheet, a page or a form spells.
fn spelled(bytes: &[u8]) -> usize {
    let (mut n, mut at) = (0, 0);
    while at < bytes.len() {
        let is_escape = bytes[at] == b'\\';
        n += (is_escape && bytes.get(at + 1) == Some(&b'r')) as usize;
        at += 1 + is_escape as usize;
    }
    n
}

#[derive(Default)]
pub struct Counts {
    /// accepted sheets that spell one, or whose unit list has one
    accepted: usize,
    units: usize,
    /// pages and forms that spell one
    pages: usize,
    forms: usize,
    /// forms that spell more of them than their sheet, as they copy the text
    more: usize,
    /// sheets with a bare one, refused by 8; of these with all lines ended by CR LF
    bare: usize,
    ends: usize,
}

impl Counts {
    pub fn see_page(&mut self, sheet: &[u8], units: &[u8], page: &[u8]) {
        self.accepted += (spelled(sheet) > 0) as usize;
        self.units += units.contains(&b'\r') as usize;
        self.pages += (spelled(page) > 0) as usize;
    }

    pub fn see_form(&mut self, sheet: &[u8], form: &[u8]) {
        self.forms += (spelled(form) > 0) as usize;
        self.more += (spelled(form) > spelled(sheet)) as usize;
    }

    pub fn see_refused(&mut self, number: u32, sheet: &[u8]) {
        if number == 8 && sheet.contains(&b'\r') {
            self.bare += 1;
            self.ends += sheet.split_inclusive(|&b| b == b'\n').all(|l| l.ends_with(b"\r\n")) as usize;
        }
    }

    #[cfg_attr(not(feature = "library"), allow(dead_code))]
    pub fn add(&mut self, o: &Counts) {
        self.accepted += o.accepted;
        self.units += o.units;
        self.pages += o.pages;
        self.forms += o.forms;
        self.more += o.more;
        self.bare += o.bare;
        self.ends += o.ends;
    }

    pub fn print_pages(&self) {
        println!(
            "carriage returns: accepted sheets that spell one {}, with one in the unit list {}; pages that spell one {}; refused by 8 with a bare one {}, of these all lines ended by CR LF {}",
            self.accepted, self.units, self.pages, self.bare, self.ends
        );
    }

    pub fn print_forms(&self) {
        println!("carriage returns: forms that spell one {}, of these more than the sheet {}", self.forms, self.more);
    }
}
