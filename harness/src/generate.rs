//! Sheets by chance, from a seed: recipes with dense interactions, and damaged copies.
use crate::case::{Case, ROOM};
use crate::page::escape;
use crate::returns;

/// splitmix64
pub struct Rng(pub u64);

impl Rng {
    pub fn next(&mut self) -> u64 {
        self.0 = self.0.wrapping_add(0x9E3779B97F4A7C15);
        let mut z = self.0;
        z = (z ^ (z >> 30)).wrapping_mul(0xBF58476D1CE4E5B9);
        z = (z ^ (z >> 27)).wrapping_mul(0x94D049BB133111EB);
        z ^ (z >> 31)
    }
    pub fn below(&mut self, n: usize) -> usize {
        (self.next() % n as u64) as usize
    }
    pub fn chance(&mut self, percent: usize) -> bool {
        self.below(100) < percent
    }
    pub fn one<'a, T>(&mut self, of: &'a [T]) -> &'a T {
        &of[self.below(of.len())]
    }
}

/// Names in groups: each group is one name in other letters, or looks like one.
const NAMES: &[&[&str]] = &[
    &["salt", "Salt", "SALT", "ſalt", " salt ", "SAlT"],
    &["Maß", "MASS", "mass", "maẞ", "MAſſ", "maSs"],
    &["İnek", "i̇nek", "inek", "I\u{307}NEK", "ınek"],
    &["Kelvin", "kelvin", "\u{212A}elvin"],
    &["σάλτσας", "ΣΆΛΤΣΑΣ", "ςάλτσασ", "σάλτσα"],
    &["соль", "СОЛЬ", "Соль"],
    &["ﬁsh", "FISH", "fish", "Fish"],
    &["bread", "./bread", "Bread", "../x/bread", ".\\a\\BREAD", "./", "./a/", "./ bread"],
    &["olive oil", "olive  oil", " Olive  OIL", "olive\toil", "olive\u{a0}oil"],
    &["", " ", "\u{2003}"],
    &["å", "Å", "\u{212B}", "a\u{30a}"],
    &["\u{13a0}", "\u{ab70}", "\u{13f8}", "\u{13f0}"],
    &["\u{a7dc}", "\u{19b}", "\u{1c89}", "\u{1c8a}"],
    &["ᾳ", "ᾼ", "αι", "ΑΙ"],
    &["eau", "l'eau", "-", "."],
    &["ŉ", "ʼn", "ʼN"],
    &["a\rb", "A\rB", "\ra\rb", "a\rB\r\n", "a\\rb", "arb", "./a\r/a\rb", ".\ra\rb"],
];

const TEXTS: &[&str] = &[
    " ", "", "mix ", "mix 1-2kg, then (5 g) b", "5 10 kg", "1-2kg", "1.5.2 kg", " at -5 °C for 20 min.", "--5C", "- 4 g", ".5kg", "1e5 g",
    "007 kg 1. g", "3 ", "½ kg", "5٣kg", "٣ kg", "1 x2kg", "1x 2kg", "a\tb 2\tl", "line\nbreak 3\u{a0}kg", "back\\slash", "2 l2 l", "100g100g 7 g",
    "…", "-, ", "Ⅷ", "²", "\u{364}", "1kg\u{364} 2 kg", "1 \u{2003} kg", "12 (kg)", "0.25 l,", "9 KG", "4 cup", "1 2 3 kg", "a1kg", "-1kg", "1.kg", "1..2kg",
    "10 kgkg 3 kg", "5\u{85}min", "5\u{200b}min", "77 Maß",
    "5\rkg", "mix\r\n2\r\nl", "\r", "-\r5 g\r",
];

const KEYS: &[&str] = &[
    "[mode]", "[define]", "[duplicate]", " [mode] ", "[mode", "[]", "[x]", "[", "]", "title", "Title", " title", "servings", "a  b", "a b", "", "[Mode]", "[ mode ]", "time", "prep time",
    "[duplicate]\u{a0}", "tags", "[du plicate]", "[mode]\r", "a\rb",
];

const VALUES: &[&str] = &[
    "all", "default", "components", "ingredients", "steps", "text", "new", "reference", "ref", " ref ", "Text", "x", "", "  steps  ", "a  b", "10 min", "\u{2003}text", "\rtext\r\n",
];

const UNITS: &[(&str, &str)] = &[
    ("kg", "mass"), ("g", "mass"), ("l", "volume"), ("cup", "volume"), ("min", "time"), ("C", "temperature"), ("cm", "length"), ("h", "time"), ("Maß", "volume"),
    ("10", "mass"), ("kg.", "mass"), (" kg", "volume"), ("x y", "length"), ("°C", "temperature"), ("a\rb", "mass"), ("\r", "time"),
];

const UNIT_WORDS: &[&str] = &["kg", "g", "l", "cup", "min", "h", "pinch", "KG", "", " kg ", "cm", "C", "x  y", "x y", "Maß", "MASS", "a\rb", "\rkg\r"];
const VALUE_WORDS: &[&str] = &["1", "2", "1/2", "1 1/2", "007", "0", "some", "", " 3 ", "1-2", "2.50", "a\tb", "1\r2"];
const NOTES: &[&str] = &["chopped", "", " fine  ly ", "\u{e9}t\u{e9}", "a\\b", "\rto\rtaste"];
const MODIFIERS: &[&str] = &[
    ".", "@", "&", "@&", "-", "@-", "&-", "@&-", "?", "@?", "&?", "@&?", "-?", "@-?", "&-?", "@&-?", "+", "@+", "&+", "@&+", "-+", "@-+", "&-+", "@&-+", "?+",
    "@?+", "&?+", "@&?+", "-?+", "@-?+", "&-?+", "@&-?+",
];

struct Maker<'r> {
    rng: &'r mut Rng,
    text: String,
    sheet: String,
    names: Vec<&'static [&'static str]>,
    /// spans of the text that is written (else by chance)
    true_spans: bool,
    plain_modifiers: usize,
    /// how many percent of the contents are given a CR
    returns: usize,
    /// what ends a line of the text
    end: &'static str,
}

type Span = (usize, usize);

impl Maker<'_> {
    fn span(&mut self, s: Span) -> Span {
        if self.true_spans {
            return s;
        }
        let mut at = |max: usize, text: &str| {
            let mut i = self.rng.below(max + 1);
            while !text.is_char_boundary(i) {
                i -= 1;
            }
            i
        };
        let b = at(self.text.len(), &self.text);
        let a = at(b, &self.text);
        (a, b)
    }

    fn write(&mut self, s: &str) -> Span {
        let a = self.text.len();
        self.text += s;
        (a, self.text.len())
    }

    /// It, perhaps with a CR put in.
    fn content(&mut self, s: &str) -> String {
        if self.rng.chance(self.returns) {
            return returns::with_return(self.rng, s);
        }
        s.to_string()
    }

    fn one_of(&mut self, of: &[&str]) -> String {
        let s = *self.rng.one(of);
        self.content(s)
    }

    fn here(&self) -> Span {
        (self.text.len(), self.text.len())
    }

    fn put_text(&mut self, s: Span, content: &str) -> String {
        let (a, b) = self.span(s);
        format!("{a}\t{b}\t{}", escape(content))
    }

    fn line(&mut self, l: &str) {
        self.sheet += l;
        self.sheet.push('\n');
    }

    fn amount(&mut self) -> String {
        let unit = if self.rng.chance(70) { Some(self.one_of(UNIT_WORDS)) } else { None };
        let value = self.one_of(VALUE_WORDS);
        let start = self.text.len();
        let v = self.write(&value);
        let unit = match unit {
            None => "-".to_string(),
            Some(u) => {
                self.write("%");
                let s = self.write(&u);
                self.put_text(s, &u)
            }
        };
        let q = self.span((start, self.text.len()));
        let v = self.span(v);
        let kind = *self.rng.one(&["n", "n", "n", "r", "t"]);
        let lock = if self.rng.chance(15) { "l" } else { "-" };
        format!("{}\t{}\t{kind}\t{}\t{}\t{}\t{lock}\t{unit}", q.0, q.1, v.0, v.1, escape(&value))
    }

    fn name(&mut self) -> String {
        let i = self.rng.below(self.names.len());
        self.one_of(self.names[i])
    }

    fn component(&mut self, word: &str) {
        let start = self.text.len();
        self.write(if word == "ingredient" { "@" } else { "#" });
        let mut modifiers = if self.rng.chance(self.plain_modifiers) { "." } else { *self.rng.one(MODIFIERS) };
        let mut inter = "-".to_string();
        let has_inter = word == "ingredient" && self.rng.chance(12);
        if has_inter && !modifiers.contains('&') && self.rng.chance(97) {
            modifiers = *self.rng.one(&["&", "&", "&", "&?", "@&", "&-", "&+", "@&-?+"]);
        }
        let m = if modifiers == "." { self.here() } else { self.write(modifiers) };
        if has_inter {
            let s = self.write("(~1)");
            let (a, b) = self.span(s);
            let value = if self.rng.chance(3) { *self.rng.one(&["-1", "-32768"]) } else { *self.rng.one(&["0", "1", "1", "1", "2", "2", "3", "4", "32767"]) };
            inter = format!("{}\t{}\t{value}\t{a}\t{b}", self.rng.one(&["n", "r"]), self.rng.one(&["step", "section"]));
        }
        let name = self.name();
        let s = self.write(&name);
        let name = self.put_text(s, &name);
        let alias = if self.rng.chance(12) {
            self.write("|");
            let a = self.name();
            let s = self.write(&a);
            self.put_text(s, &a)
        } else {
            "-".to_string()
        };
        self.write("{");
        let amount = if self.rng.chance(45) { self.amount() } else { "-".to_string() };
        self.write("}");
        let note = if self.rng.chance(18) {
            self.write("(");
            let n = self.one_of(NOTES);
            let s = self.write(&n);
            let t = self.put_text(s, &n);
            self.write(")");
            t
        } else {
            "-".to_string()
        };
        let whole = self.span((start, self.text.len()));
        let m = self.span(m);
        let tail = if word == "ingredient" { format!("\t{inter}") } else { String::new() };
        let l = format!("{word}\t{}\t{}\t{name}\t{alias}\t{amount}\t{note}\t{modifiers}\t{}\t{}{tail}", whole.0, whole.1, m.0, m.1);
        self.line(&l);
    }

    fn timer(&mut self) {
        let start = self.text.len();
        self.write("~");
        let name = if self.rng.chance(40) {
            let n = self.name();
            let s = self.write(&n);
            self.put_text(s, &n)
        } else {
            "-".to_string()
        };
        self.write("{");
        let amount = if self.rng.chance(75) { self.amount() } else { "-".to_string() };
        self.write("}");
        let s = self.span((start, self.text.len()));
        let l = format!("timer\t{}\t{}\t{name}\t{amount}", s.0, s.1);
        self.line(&l);
    }

    fn text_line(&mut self) {
        let t = self.one_of(TEXTS);
        let s = self.write(&t);
        let t = self.put_text(s, &t);
        self.line(&format!("text\t{t}"));
    }

    fn meta(&mut self, mode_only: bool) {
        let (k, v) = if mode_only || self.rng.chance(60) {
            let k = *self.rng.one(&["[mode]", "[mode]", "[define]", "[duplicate]", "[duplicate]"]);
            let v = if k == "[duplicate]" { self.one_of(&["ref", "ref", "reference", " ref", "new", "default", "x"]) } else { self.one_of(&VALUES[..8]) };
            (self.content(k), v)
        } else {
            (self.one_of(KEYS), self.one_of(VALUES))
        };
        self.write(">> ");
        let s = self.write(&k);
        let key = self.put_text(s, &k);
        self.write(":");
        let s = self.write(&v);
        let value = self.put_text(s, &v);
        self.write(self.end);
        self.line(&format!("meta\t{key}\t{value}"));
    }

    fn warning(&mut self, percent: usize) {
        if self.rng.chance(percent) {
            let n = *self.rng.one(&[0, 1, 7, 65535]);
            self.line(&format!("warning\t{n}"));
        }
    }

    fn block(&mut self, most: usize) {
        let kind = if self.rng.chance(85) { "step" } else { "text" };
        self.line(&format!("start\t{kind}"));
        for _ in 0..self.rng.below(most + 1) {
            if kind == "text" && self.rng.chance(93) {
                self.text_line();
                continue;
            }
            match self.rng.below(100) {
                0..=24 => self.text_line(),
                25..=74 => self.component("ingredient"),
                75..=89 => self.component("cookware"),
                _ => self.timer(),
            }
            self.warning(2);
        }
        let end = if self.rng.chance(2) { "text" } else { kind };
        self.line(&format!("end\t{end}"));
        self.write(self.end);
        self.write(self.end);
    }

    fn section(&mut self) {
        let l = if self.rng.chance(70) {
            self.write("== ");
            let n = self.one_of(&["Dough", "", "  ", "Filling  one", "Straße"]);
            let s = self.write(&n);
            let t = self.put_text(s, &n);
            self.write(self.end);
            format!("section\t{t}")
        } else {
            "section\t-".to_string()
        };
        self.line(&l);
    }
}

fn units(rng: &mut Rng) -> String {
    let mut out = String::new();
    let p = *rng.one(&[0, 60, 90]);
    for (n, k) in UNITS {
        if rng.chance(p) {
            out += &format!("{n}\t{k}\n");
        }
    }
    out
}

/// A recipe by chance; `blocks` and `items` bound its size.
pub fn recipe(rng: &mut Rng, blocks: usize, items: usize) -> Case {
    let units = units(rng);
    let flags = if rng.chance(60) { 7 } else { rng.below(8) };
    let names = (0..1 + rng.below(4)).map(|_| *rng.one(NAMES)).collect();
    let true_spans = rng.chance(75);
    let plain_modifiers = *rng.one(&[30, 60, 85]);
    let returns = *rng.one(&[0, 0, 0, 0, 0, 4, 4, 20]);
    let end = if rng.chance(15) { "\r\n" } else { "\n" };
    let mut m = Maker { rng, text: String::new(), sheet: String::new(), names, true_spans, plain_modifiers, returns, end };
    if m.rng.chance(70) {
        m.meta(true);
    }
    for _ in 0..m.rng.below(blocks + 1) {
        match m.rng.below(100) {
            0..=17 => m.meta(false),
            18..=29 => m.section(),
            _ => m.block(items),
        }
        m.warning(5);
        if m.rng.chance(1) {
            let n = m.rng.below(65536);
            m.line(&format!("error\t{n}"));
        }
    }
    let (sheet, text) = (m.sheet, m.text);
    Case { name: String::new(), room: ROOM, sheet: sheet.into_bytes(), text: text.into_bytes(), units: units.into_bytes(), flags: vec![b'0' + flags as u8] }
}

fn shuffle_line(rng: &mut Rng, sheet: &mut Vec<u8>) {
    let mut lines: Vec<Vec<u8>> = sheet.split_inclusive(|&b| b == b'\n').map(|l| l.to_vec()).collect();
    if lines.is_empty() {
        return;
    }
    let i = rng.below(lines.len());
    match rng.below(4) {
        0 => {
            lines.remove(i);
        }
        1 => {
            let l = lines[i].clone();
            let j = rng.below(lines.len());
            lines.insert(j, l);
        }
        2 => {
            let j = rng.below(lines.len());
            lines.swap(i, j);
        }
        _ => lines.truncate(i + 1),
    }
    *sheet = lines.concat();
}

fn change_field(rng: &mut Rng, sheet: &mut Vec<u8>) {
    let mut lines: Vec<Vec<u8>> = sheet.split_inclusive(|&b| b == b'\n').map(|l| l.to_vec()).collect();
    if lines.is_empty() {
        return;
    }
    let i = rng.below(lines.len());
    let mut line = lines[i].clone();
    let ended = line.last() == Some(&b'\n');
    if ended {
        line.pop();
    }
    let mut fields: Vec<Vec<u8>> = line.split(|&b| b == b'\t').map(|f| f.to_vec()).collect();
    let f = rng.below(fields.len());
    match rng.below(5) {
        0 => {
            fields.remove(f);
        }
        1 => {
            let x = fields[f].clone();
            fields.insert(f, x);
        }
        2 => {
            let g = rng.below(fields.len());
            fields.swap(f, g);
        }
        3 => fields.push(Vec::new()),
        _ => {
            const BAD: &[&str] = &[
                "65536", "65535", "00", "01", "+1", "-0", "-1", "99999999999999999999", "", "-", "\\", "\\x", "a\\", "&@", ".&", "&&", "step", "text", "n", "0",
                "\u{2212}1", "1 ", " 1", "0x1", "1.0", "٣", "\r", "a\rb", "\\r", "step\\r", "\\R", "32768", "-32768", "-32769", "\u{feff}", ".",
            ];
            fields[f] = rng.one(BAD).as_bytes().to_vec();
        }
    }
    line = fields.join(&b'\t');
    if ended {
        line.push(b'\n');
    }
    lines[i] = line;
    *sheet = lines.concat();
}

fn flip(rng: &mut Rng, bytes: &mut Vec<u8>) {
    if bytes.is_empty() {
        bytes.push(rng.next() as u8);
        return;
    }
    let i = rng.below(bytes.len());
    match rng.below(5) {
        0 => bytes[i] ^= 1 << rng.below(8),
        1 => {
            bytes.remove(i);
        }
        2 => bytes.insert(i, *rng.one(&[b'\t', b'\n', b'\\', b'-', 0, 0x80, 0xff, b'\r', b'0'])),
        3 => bytes.truncate(i),
        _ => {
            let bad: &[u8] = *rng.one(&[&[0xed, 0xa0, 0x80][..], &[0xc0, 0x80], &[0xf4, 0x90, 0x80, 0x80], &[0xe2, 0x82], &[0xf0, 0x80, 0x80, 0x80]]);
            for (k, b) in bad.iter().enumerate() {
                bytes.insert(i + k, *b);
            }
        }
    }
}

/// A damaged copy.
pub fn damaged(rng: &mut Rng, case: &Case) -> Case {
    let mut c = case.clone();
    for _ in 0..1 + rng.below(2) {
        match rng.below(17) {
            0..=4 => shuffle_line(rng, &mut c.sheet),
            5..=9 => change_field(rng, &mut c.sheet),
            10..=11 => flip(rng, &mut c.sheet),
            12 => flip(rng, &mut c.text),
            13 => flip(rng, &mut c.units),
            14 => {
                let twice = c.units.split_inclusive(|&b| b == b'\n').next().unwrap_or(b"").to_vec();
                c.units.extend(twice);
            }
            15 => returns::damage(rng, &mut c),
            _ => c.flags = rng.one(&["8", "9", "", "7\n", "07", "x", "\u{ff17}", "6"]).as_bytes().to_vec(),
        }
    }
    c
}

/// Realistic sheets and damaged copies, small, by chance.
pub fn chosen(n: usize, seed: u64) -> Vec<Case> {
    let mut rng = Rng(seed);
    let mut out = Vec::new();
    while out.len() < n {
        let mut c = recipe(&mut rng, 5, 5);
        let d = rng.chance(25);
        if d {
            c = damaged(&mut rng, &c);
        }
        let size = c.sheet.len() + c.text.len() + c.units.len();
        if (200..1400).contains(&size) {
            c.name = format!("{} {}", if d { "damaged" } else { "recipe" }, out.len());
            out.push(c);
        }
    }
    out
}
