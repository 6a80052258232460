//! The cases that are written by hand, in a short form of the sheet.
//!
//! A line of the short form is: `S`, `E`, `ST`, `ET` (start and end of a step, of a text block); `" content` (text);
//! `i name;modifiers;..` and `c name;..` (ingredient, cookware) with `q=kind:value[:unit]`, `l` (lock), `note=`, `alias=`,
//! `in=n:step:1`; `t name;..` (`-`: no name); `mode v`, `define v`, `dup v`, `key k=v` (meta); `sec name`, `sec-`; `w n`, `x n` (warning, error);
//! or a line of the sheet with `|` for tab. Spans of the short form come from a row of pairs within ten bytes.
use crate::case::{Case, ROOM};
use crate::limits::{limit, LIMITS};
use crate::page::escape;

struct Short {
    next: usize,
}

impl Short {
    fn span(&mut self) -> String {
        let k = self.next;
        self.next += 1;
        let a = (k * 3) % 8;
        let b = a + 1 + (k / 2) % 3;
        format!("{a}\t{}", b.min(10))
    }

    fn text(&mut self, content: &str) -> String {
        format!("{}\t{}", self.span(), escape(content))
    }

    fn opt(&mut self, content: Option<&str>) -> String {
        content.map_or("-".to_string(), |c| self.text(c))
    }

    fn amount(&mut self, opts: &[&str]) -> String {
        let Some(q) = opts.iter().find_map(|o| o.strip_prefix("q=")) else {
            return "-".to_string();
        };
        let f: Vec<_> = q.splitn(3, ':').collect();
        let lock = if opts.contains(&"l") { "l" } else { "-" };
        let (s, v) = (self.span(), self.span());
        let unit = self.opt(f.get(2).copied());
        format!("{s}\t{}\t{v}\t{}\t{lock}\t{unit}", f[0], escape(f[1]))
    }

    fn component(&mut self, word: &str, rest: &str) -> String {
        let opts: Vec<_> = rest.split(';').collect();
        let get = |p: &str| opts.iter().find_map(|o| o.strip_prefix(p));
        let (span, name) = (self.span(), self.text(opts[0]));
        let alias = self.opt(get("alias="));
        let amount = self.amount(&opts);
        let note = self.opt(get("note="));
        let modifiers = opts.get(1).filter(|m| !m.is_empty()).copied().unwrap_or(".");
        let tail = match (word, get("in=")) {
            ("cookware", _) => String::new(),
            (_, None) => "\t-".to_string(),
            (_, Some(i)) => format!("\t{}\t{}", i.replace(':', "\t"), self.span()),
        };
        format!("{word}\t{span}\t{name}\t{alias}\t{amount}\t{note}\t{modifiers}\t{}{tail}", self.span())
    }

    fn meta(&mut self, k: &str, v: &str) -> String {
        format!("meta\t{}\t{}", self.text(k), self.text(v))
    }

    fn line(&mut self, l: &str) -> String {
        if let Some(t) = l.strip_prefix("\" ") {
            return format!("text\t{}", self.text(t));
        }
        let (word, rest) = l.split_once(' ').unwrap_or((l, ""));
        match word {
            "S" => "start\tstep".into(),
            "E" => "end\tstep".into(),
            "ST" => "start\ttext".into(),
            "ET" => "end\ttext".into(),
            "i" => self.component("ingredient", rest),
            "c" => self.component("cookware", rest),
            "t" => {
                let opts: Vec<_> = rest.split(';').collect();
                let span = self.span();
                let name = self.opt(Some(opts[0]).filter(|n| *n != "-"));
                format!("timer\t{span}\t{name}\t{}", self.amount(&opts))
            }
            "mode" | "define" => self.meta(&format!("[{word}]"), rest),
            "dup" => self.meta("[duplicate]", rest),
            "key" => {
                let (k, v) = rest.split_once('=').unwrap();
                self.meta(k, v)
            }
            "sec" => format!("section\t{}", self.text(rest)),
            "sec-" => "section\t-".into(),
            "w" => format!("warning\t{rest}"),
            "x" => format!("error\t{rest}"),
            _ => l.replace('|', "\t"),
        }
    }
}

pub const TEXT: &str = "abcdefghij";
pub const UNITS: &str = "kg\tmass\ng\tmass\nl\tvolume\nmin\ttime\n";

/// a case in the short form, with the text and the units of docs/DECISIONS.md
pub fn short(flags: &str, name: &str, lines: &str) -> Case {
    let mut s = Short { next: 0 };
    let mut sheet = String::new();
    for l in lines.lines() {
        sheet += &s.line(l);
        sheet.push('\n');
    }
    Case { name: name.into(), room: ROOM, sheet: sheet.into_bytes(), text: TEXT.into(), units: UNITS.into(), flags: flags.into() }
}

pub fn raw(flags: &str, name: &str, sheet: &[u8], text: &[u8], units: &[u8]) -> Case {
    Case { name: name.into(), room: ROOM, sheet: sheet.into(), text: text.into(), units: units.into(), flags: flags.into() }
}

/// with `|` for tab
pub fn bars(flags: &str, name: &str, sheet: &str) -> Case {
    raw(flags, name, sheet.replace('|', "\t").as_bytes(), TEXT.as_bytes(), UNITS.as_bytes())
}

/// an ingredient of this name, as a sheet spells it
pub fn named(name: &str, spelled: &str) -> Case {
    bars("0", name, &format!("start|step\ningredient|0|1|0|1|{spelled}|-|-|-|.|0|0|-\nend|step\n"))
}

/// a text in which inline quantities are looked for
pub fn inline(name: &str, text: &str) -> Case {
    let mut c = short("2", name, "S");
    c.sheet.extend(format!("text\t0\t1\t{}\nend\tstep\n", escape(text)).bytes());
    c.units.extend(b"C\ttemperature\n");
    c
}

/// one content for all that is trimmed
pub fn trimmed(name: &str, content: &str) -> Case {
    let mut c = short("0", name, "S");
    let e = escape(content);
    c.sheet.extend(format!("cookware\t0\t1\t0\t1\t{e}\t0\t1\t{e}\t-\t0\t1\t{e}\t.\t0\t0\nend\tstep\nsection\t0\t1\t{e}\nmeta\t0\t1\t{e}\t1\t2\t{e}\n").bytes());
    c
}

const MODIFIERS: &[&str] = &[
    ".", "@", "&", "@&", "-", "@-", "&-", "@&-", "?", "@?", "&?", "@&?", "-?", "@-?", "&-?", "@&-?", "+", "@+", "&+", "@&+", "-+", "@-+", "&-+", "@&-+", "?+",
    "@?+", "&?+", "@&?+", "-?+", "@-?+", "&-?+", "@&-?+",
];

/// Document 01: the worked page, the edges, the inline rules, the rules easily lost.
pub fn paper() -> Vec<Case> {
    let worked = "meta|3|14|[duplicate]|15|19| ref\nstart|step\ningredient|20|27|21|25|salt|-|-|-|.|21|21|-\ntext|27|28| \ningredient|28|35|29|33|Salt|-|-|-|.|29|29|-\nend|step\n".replace('|', "\t");
    let worked_text = ">> [duplicate]: ref\n@salt{} @Salt{}\n";
    let mut out = vec![
        raw("1", "one page whole", worked.as_bytes(), worked_text.as_bytes(), b""),
        raw("0", "one page whole, flags 0", worked.as_bytes(), worked_text.as_bytes(), b""),
        raw("0", "empty sheet", b"", b"", b""),
        raw("7", "flags 7", b"", b"", b""),
        raw("8", "flags 8", b"", b"", b""),
    ];
    for n in ["./", "./bread", "../bread", ".\\bread", "..\\a\\bread", "./a//b", "./ b", "./a/", ".bread", "bread/x", "...", ".//", "./a b/c", " ./x ", "a./b", ".", "../", "./.", "./..", "./a\\b/c", "..a/b"] {
        out.push(named(&format!("name {n}"), &escape(n)));
    }
    for t in ["5 10 kg", "1-2kg", "1.5.2 kg"] {
        let mut c = bars("2", &format!("inline {t}"), &format!("start|step\ntext|0|1|{t}\nend|step\n"));
        c.units = b"kg\tmass\n".to_vec();
        out.push(c);
    }
    out.push(short("7", "same name: the last without REF, OPT must agree", "dup ref\nS\ni a\ni a;?\ni A\ni A;?\ni a;&\ni a;+\ni a\nE"));
    out.push(short("7", "failed explicit reference", "S\ni a;&\ni a\ni a;&\nE\ndup ref\nS\ni b;&\ni b\ni b\nE"));
    out.push(short("7", "failed implicit reference in steps mode", "mode steps\nS\ni a\ni a\ni a;&\nE"));
    out.push(short("7", "NEW with REF", "S\ni a\ni a;&+\ni a;&\nc a;&+\nE"));
    out.push(short("7", "components mode", "mode components\nST\n\" text\nET\nS\n\" ..\n\" word\ni a;;q=n:1\nE\nmode all\nS\ni a;&;q=n:2\nE\nS\nE"));
    out.push(short("7", "step target counts text blocks", "ST\nET\nS\nE\nS\ni a;&;in=n:step:1\ni b;&;in=r:step:1\ni c;&;in=n:step:2\nE"));
    out.push(short("7", "unit check over all", "S\ni a;;q=n:1:kg\ni a;&;q=n:1:g\ni a;&;q=n:1\ni a;&;q=n:1:l\ni a;&;q=n:1:pinch\ni a;&;q=n:2:pinch\ni a;&\ni a;&;q=t:x:kg\nE"));
    out.push(short("7", "from the first error on", "w 1\nx 2\nw 3\nsec a\nx 4\ni a;&;in=n:step:-1\nE"));
    out.push(short("7", "12 before the first error", "w 1\ni b\nx 2\nw 3"));
    out.push(short("7", "error clears findings", "key a=b\nmode x\nw 1\nx 2\nw 3\nsec a\nx 4\nE\ni a"));
    out
}

/// docs/DECISIONS.md, point by point.
pub fn decisions() -> Vec<Case> {
    let mut out = Vec::new();
    let mut add = |c: Case| out.push(c);
    add(bars("7", "A1", "start|step\ntext|0|1|1 kg\nend|step\n"));
    for f in ["7\n", "", " 7", "07", "7 ", "-1", "\u{ff17}", "9", "0", "6", "\n"] {
        let mut c = bars("7", &format!("A2 {f:?}"), "");
        c.flags = f.into();
        add(c);
    }
    add(bars("1", "A4", "meta|0|1|[mode]|1|2|text\n"));
    add(bars("7", "B1", "warning|1"));
    add(bars("7", "B1 second", "warning|1\nwarning|1"));
    add(bars("7", "B2", "\n"));
    add(bars("7", "B2 second", "warning|1\n\n"));
    for (i, s) in ["text|0|0|\\x\n", "text|0|0|a\\\n", "text|0|0|a\\\\\\\n", "start\\n|step\n", "warning|1\\n\n", "section|0|0|\\\\\\t\\n\n", "st\\tep|x\n"].iter().enumerate() {
        add(bars("7", &format!("B3 {i}"), s));
    }
    for (i, s) in ["warning|1\r\n", "start|step\ntext|0|0|a\r\nend|step\n", "\u{feff}warning|1\n", "section|0|1|\u{0}\u{2028}\u{feff}\n", "start|step\r\n", "section|0|1|a\r\n"].iter().enumerate() {
        add(bars("7", &format!("B4 {i}"), s));
        if s.contains('\r') {
            add(bars("7", &format!("B4 {i} spelled"), &s.replace('\r', "\\r")));
        }
    }
    let t = |s: &[u8]| s.iter().map(|&b| if b == b'|' { b'\t' } else { b }).collect::<Vec<u8>>();
    for (i, s) in [
        &b"text|1|0|a\nsection|0|1|\xff\n"[..], b"section|0|1|\xed\xa0\x80\n", b"section|0|1|\xc0\x80\n", b"section|0|1|\xf4\x90\x80\x80\n", b"section|0|1|\xc3\n\xa9\n",
        b"warning|1\nsection|0|1|\xe2\x82\n", b"section|0|1|\xf0\x9f\x8d\x9e\n", b"section|0|1|\xf4\x8f\xbf\xbf\xee\x80\x80\xed\x9f\xbf\n",
    ]
    .iter()
    .enumerate()
    {
        add(raw("7", &format!("B5 {i}"), &t(s), TEXT.as_bytes(), b""));
    }
    for n in ["0", "00", "01", "+1", "-0", "-1", "", " 1", "1 ", "1.0", "0x1", "٣", "65535", "65536", "99999999999999999999999999", "065535", "100000", "1\\n"] {
        add(bars("7", &format!("B6 {n}"), &format!("warning|{n}\n")));
    }
    add(bars("7", "B6 span", "start|step\ntext|0|65535|a\nend|step\n"));
    for n in ["-1", "\u{2212}1", "-0", "+1", "-01", "-32769", "-32768", "32768", "32767", "0", "00", "-", "--1", "1"] {
        add(bars("7", &format!("B7 {n}"), &format!("start|step\ningredient|0|1|0|1|a|-|-|-|&|0|0|n|step|{n}|0|0\nend|step\n")));
    }
    for (i, s) in ["start|step\ntext|0|0|\nend|step\n", "start|step\ntext|0|0\nend|step\n", "start|step\ncookware|0|1|0|1||0|0||0|0|n|0|0||-|0|0||0|0||.|0|0\nend|step\n", "start|\n", "|step\n", "start|step\ncookware|0|1|0|1|a|-|-|-||0|0\nend|step\n"].iter().enumerate() {
        add(bars("7", &format!("B8 {i}"), s));
    }
    for m in ["&@", "&&", ".&", "-", "+", "@&-?+", "&.", "..", "?-", "+@", "@@", "@&-?+.", "x", "&-"] {
        add(bars("7", &format!("B9 {m}"), &format!("start|step\ncookware|0|1|0|1|a|-|-|-|{m}|0|0\nend|step\n")));
    }
    for s in ["section|-|\n", "section|0|1|a|\n", "start|step|\n", "warning|1|\n", "warning|1|2\n", "error|1|\n", "start|step\ntimer|0|1|-|-|\nend|step\n", "section\n", "section|0|1\n", "meta|0|1|a|1|2\n", "warning\n", "end\n", "start|text|x\n", "meta|0|1|a|1|2|b|\n"] {
        add(bars("7", &format!("B10 {}", s.trim_end()), s));
    }
    add(bars("7", "B11", "section|0|1|-\n"));
    add(bars("7", "B11 all", "start|step\ncookware|0|1|0|1|-|0|1|-|0|1|n|0|1|-|-|0|1|-|0|1|-|-|0|0\nend|step\n"));
    add(bars("7", "B11 meta", "meta|0|1|-|1|2|-\n"));
    for k in ["n:some", "n:", "r:x", "t:1", "n: 1  2 ", "r:1-2", "t:"] {
        add(short("7", &format!("B12 {k}"), &format!("S\ni a;;q={k}\nc b;;q={k}:kg\nt -;q={k}:min\nE")));
    }
    add(short("7", "B13", "S\nt -\nc a;;q=n:1:kg\nE"));
    add(bars("0", "B14", "meta|5|9|k|0|2|v\n"));
    for (i, s) in ["section|-\nsection|-\nsection|3|2|a\nsection|-\nx\n", "x\nsection|3|2|a\n", "section|0|11|a\n", "section|11|11|a\n", "section|10|10|a\n", "section|0|10|a\n"].iter().enumerate() {
        add(bars("7", &format!("B15 {i}"), s));
    }
    add(bars("7", "B16", "start|step\nstart|step\nx\n"));
    add(bars("7", "B16 error", "error|1\ntext|1|0|a\n"));
    add(bars("7", "B16 error and form", "error|1\ntext|0|0\n"));
    let accent = |name: &str, s: &str| {
        let mut c = bars("7", name, s);
        c.text = "é".into();
        c
    };
    add(accent("B17", "start|step\ntext|1|1|a\nend|step\n"));
    add(accent("B17 end", "start|step\ntext|0|1|a\nend|step\n"));
    add(accent("B17 good", "start|step\ntext|0|2|a\ntext|2|2|a\nend|step\n"));
    add(accent("B17 modifiers", "start|step\ncookware|0|2|0|2|a|-|-|-|.|1|2\nend|step\n"));
    add(accent("B17 note in text mode", "meta|0|0|[mode]|0|0|text\nstart|step\ncookware|0|2|0|2|a|-|-|0|3|x|.|0|0\nend|step\n"));
    add(accent("B17 intermediate", "start|step\ningredient|0|2|0|2|a|-|-|-|&|0|0|n|step|1|2|1\nend|step\n"));
    add(accent("B17 unit", "start|step\ntimer|0|2|-|0|2|n|0|2|1|-|1|1|kg\nend|step\n"));
    add(bars("1", "B18", "meta|0|1|[mode]|1|2|text\nstart|step\ningredient|0|1|0|1|a|-|-|-|.|0|0|n|step|-1|0|0\nend|step\n"));
    for m in ["all", "steps", "components", "text"] {
        for (n, i) in [("15", "i a;;in=n:step:1"), ("16", "i a;&;in=n:step:-1"), ("15 and 16", "i a;;in=r:section:-1")] {
            add(short("7", &format!("B18 {m} {n}"), &format!("mode {m}\nS\n{i}\nE")));
            add(short("7", &format!("B18 {m} {n} in a text block"), &format!("mode {m}\nST\n{i}\nET")));
        }
        add(short("7", &format!("B19 {m}"), &format!("mode {m}\nS\nET")));
        add(short("7", &format!("B19 {m} text"), &format!("mode {m}\nST\nE")));
        add(short("7", &format!("14 {m}"), &format!("mode {m}\nST\n\" a\nt -\nET")));
        add(short("7", &format!("blocks {m}"), &format!("mode {m}\nS\n\" a1\ni a\nc b\nt c\nE\nST\n\" x\n\" y\nET\nS\nE\nST\nET")));
    }
    add(short("7", "B18 in no block", "i a;;in=n:step:1"));
    add(short("7", "B23", "S\n\" a 1 kg b\nE"));
    add(bars("7", "E1", "section|0|1|é\\n\n"));
    add(bars("7", "B24 dropped", "section|-\nsection|-\nsection|-\n"));
    for (i, u) in [
        "", "\n", "g\tmass", "g\tmass\n", "g\tmass\nG\tmass\n", "ß\tmass\nss\tmass\n", "g\tmass\ng\tmass\nx\n", "g\tmass\ng\tvolume\n", "\tmass\n", "g\t\n", "g\tMass\n", "g\tmass\t\n",
        "g mass\n", "g\tmass\r\n", " g \tmass\n", "\\\tmass\n", "a\\n\tlength\n", "g\tmass \n", "g\ttemperature\nh\ttime\nl\tvolume\nm\tlength\nk\tmass\n", "g\tmass\n\n", "\t\n", "\r\tmass\n",
    ]
    .iter()
    .enumerate()
    {
        add(raw("7", &format!("B26 {i}"), b"start\tstep\ntext\t0\t0\t1 g 2 ss 3\\\\ 4 a\\\\n\nend\tstep\n", b"", u.as_bytes()));
    }
    add(raw("7", "B26 not UTF-8", b"", b"", b"g\xff\tmass\n"));
    add(raw("8", "5 before 7", b"x", b"", b"x"));
    add(raw("8", "6 before 7", b"x", b"", b"g\tmass\ng\tmass\n"));
    add(raw("8", "7 before 8", b"x", b"", b""));
    add(raw("8", "4 before 5", b"x", b"\xff", b"x"));
    for (i, t) in [&b"\xff"[..], b"a\xc3", b"\xed\xa0\x80", b"\xc0\x80", b"\xe2\x82\xac", b"\xf0\x9f\x8d\x9e", b"\x80", b"\xf8\x88\x80\x80\x80"].iter().enumerate() {
        add(raw("7", &format!("4 {i}"), b"section\t0\t0\ta\n", t, b""));
    }
    add(short("7", "B28", "w 1\nx 2\nx 3"));
    add(short("0", "B32", "sec   \nsec-\nsec a\nsec-\nS\nE"));
    add(short("0", "B33", "S\nE\nST\nET\nST\n\" a\n\" b\\\nET"));
    add(short("7", "B34", "S\nt -\nt -;q=n:5:min\nE"));
    add(short("0", "B36", "key a=b\nw 5"));
    add(short("0", "B37", "key a  b=c  d\nkey  a b =e \nkey A b=x\nkey =\nkey a b= last"));
    add(short("0", "B38", "w 1\nx 2"));
    add(short("7", "C1", "S\ni a;;q=n:2;l\nc b;;q=n:2;l\nt -;q=r:2;l\ni c;;q=t:2;l\nE"));
    for t in [
        "mix 1-2kg, then (5 g) b", "", " ", "1.", "1..2 kg", ".5kg", "1e5 kg", "007 kg", "5٣kg", "--5C", "- 4 g", "3 ", "3", "1 x2kg", "1x 2kg", "°C 5 °C", "5 kg.", "5 10", "1kg\u{364}",
        "1 kg 2 g", "1kg2kg 3 kg", "1\u{a0}kg", "1\u{200b}kg", "1\tkg\n2 kg", "-1.5kg-", "a-1kg", "1kg", "0kg", "12345678901234567890123456789012345 kg", "0.000 kg", "1 2 3 kg", "1 kg1 kg", "½ kg 2½kg", "1 g\u{308}",
        "x 1. kg y", "1.5kg", "(1 kg)", "1 (kg)", "1,5 kg", "1 K\u{212a}", "5 \u{1680} l \u{3000} 6 l", "9", "9 9 9 kg", "-", "--", "kg 1", "1 kg -2 kg --3 kg", "4\u{1f35e} kg", "4\u{1f35e}kg",
    ] {
        add(inline(&format!("C2-C7 {t:?}"), t));
    }
    add(short("0", "C3", "S\n\" \nE"));
    add(short("2", "C3 inline", "S\n\" \nE"));
    for n in ["a \t  b", " a  b ", "\u{85}a\u{200b}", "\u{1680}\u{2000}a\u{202f}\u{205f}", "\u{180e}a\u{feff}", "a\u{3000}\u{3000}b", "\u{1c}a\u{1f}", "\u{b}a\u{c}", "  ", "a   b    c", "\u{2028}a\u{2029}", "a \u{a0} b"] {
        add(trimmed(&format!("C7 {n:?}"), n));
    }
    for k in ["[mode]", "[define]", "[duplicate]", "[ mode ]", "[Mode]", "[]", "[mode", "[", "]", " [mode] ", "[mo  de]", "mode]", "[mode]x", "[[mode]]", "[mode]\u{a0}"] {
        for v in ["Text", " text ", "ref", "  "] {
            for f in ["1", "0"] {
                if f == "1" || v == "Text" {
                    add(short(f, &format!("C8 {k} {v} {f}"), &format!("key {k}={v}\nS\ni a\ni a\nE")));
                }
            }
        }
    }
    for v in ["all", "default", "components", "ingredients", "steps", "text", "new", "reference", "ref", "x"] {
        add(short("1", &format!("mode {v}"), &format!("mode {v}\nS\ni a\nE\nmode steps\ndefine {v}\nS\ni a\nE")));
        add(short("1", &format!("duplicate {v}"), &format!("dup {v}\nS\ni a\ni a\nE\ndup ref\ndup {v}\nS\ni a\nE")));
    }
    add(short("1", "C9", "key [x]=y"));
    add(short("0", "C9 flags 0", "key [x]=y"));
    add(short("1", "C9 twice", "key [x]=y\nkey a=b\nkey [x]=z"));
    add(short("7", "C10", "dup ref\nS\ni a\ni a;?+\ni a;?\ni a;?\nE"));
    add(short("7", "C10 steps", "S\ni a\nE\nmode steps\nS\ni a;?\ni a;?\nE"));
    add(short("7", "C11", "mode steps\nS\ni a;&\ni a;&+\ni a;&;in=n:step:1\nE"));
    add(short("7", "C11 ref", "dup ref\nS\ni a;&\ni a\ni a;&\nc a;&\nE"));
    add(short("7", "C12", "S\ni a;+\nE\ndup ref\nS\ni a;+\ni b;+\ni b;+\nE\nmode steps\nS\ni c;+\nE"));
    for (m, t, v) in [("n", "step", 0), ("r", "step", 0), ("n", "step", 1), ("n", "step", 2), ("n", "step", 3), ("r", "step", 1), ("r", "step", 2), ("r", "step", 3), ("n", "section", 0), ("r", "section", 0), ("n", "section", 1), ("n", "section", 2), ("n", "section", 3), ("r", "section", 1), ("r", "section", 2), ("r", "section", 3), ("n", "step", 32767)] {
        for mods in ["&", "@&-+"] {
            if mods == "&" || v < 2 {
                add(short("7", &format!("C13 {m} {t} {v} {mods}"), &format!("S\nE\nsec a\nsec-\nS\nE\nsec b\nST\nET\nS\nE\nST\nET\nS\nE\nS\ni x;{mods};in={m}:{t}:{v};note=n;q=n:1:kg;l\ni x;&\nE")));
            }
        }
    }
    add(short("7", "C13 modifiers one by one", "S\nE\nS\ni a;@&;in=n:step:1\ni a;&-;in=n:step:1\ni a;&+;in=n:step:1\ni a;&?;in=n:step:1\nE"));
    add(short("7", "C13 components", "S\nE\nmode components\nS\ni x;&;in=r:step:1\ni x;&;in=r:step:2\nE\nmode all\nS\ni x;&;in=n:step:1\nE"));
    add(short("7", "C15", "S\ni a\ni a;&;note=x\ni b;;note=y\ni b;&;note=z\nc a\nc a;&;note=x\nc b;;note=y\nc b;&;note=z\nE"));
    let mut c = bars("7", "C15 edges", "start|step\ningredient|0|1|0|1|a|-|-|-|.|0|0|-\ningredient|0|10|0|1|a|-|-|0|10|n|&|0|0|-\nend|step\n");
    add(c.clone());
    c = bars("7", "C16", "start|step\ningredient|0|1|0|1|a|-|2|3|n|2|3|1|-|-|-|.|0|0|-\ningredient|0|1|0|1|a|-|5|6|n|6|7|1|-|8|9|kg|-|&|0|0|-\nend|step\n");
    add(c);
    add(short("7", "C17", "mode steps\nS\ni a\ni a;-;note=x\nE"));
    add(short("7", "C18", "S\nc a;@\nc a;@&\nc b;@-?\nc b;&-\nE"));
    for k in ["i", "c"] {
        add(short("7", &format!("C19 {k}"), &format!("mode components\ndup ref\nS\n{k} a;;q=n:1\n{k} a;;q=n:2\n{k} a;&;q=t:x\nE\nmode all\nS\n{k} a;;q=t:2\n{k} a\nE")));
        add(short("7", &format!("20 {k}"), &format!("S\n{k} a;;q=n:1\n{k} a;&;q=t:x\n{k} b;;q=t:x\n{k} b;&;q=r:1\n{k} c;;q=t:x\n{k} c;&;q=t:y\n{k} d\n{k} d;&;q=t:y\nE")));
    }
    for (a, b) in [("kg", "g"), ("kg", "l"), ("kg", "pinch"), ("pinch", "kg"), ("pinch", "pinch"), ("pinch", "Pinch"), (" kg ", "kg"), ("", "kg"), ("", ""), ("x  y", "x y"), ("KG", "kg")] {
        for f in ["7", "3"] {
            if f == "7" || a == "kg" {
                add(short(f, &format!("C20 {a:?} {b:?} {f}"), &format!("S\ni a;;q=n:1:{a}\ni a;&;q=n:1:{b}\nc a;;q=n:1:{a}\nc a;&;q=n:1:{b}\nE")));
            }
        }
        add(short("7", &format!("C20 missing {a:?}"), &format!("S\ni a;;q=n:1:{a}\ni a;&;q=n:1\ni b;;q=n:1\ni b;&;q=n:1:{b}\nE")));
    }
    for u in [":min", ":kg", ":x", "", ":", ": min "] {
        for k in ["n", "t"] {
            add(short("4", &format!("C21 {k}{u}"), &format!("S\nt a;q={k}:5{u}\nE")));
        }
    }
    add(short("3", "C21 flags 3", "S\nt a;q=t:5:kg\nE"));
    add(short("7", "C22", "S\nE\nsec-\nS\nE\nS\nE\nmode components\nS\nE\nmode all\nS\nE"));
    for (a, b) in [
        ("Maß", "MASS"), ("maẞ", "mass"), ("ſ", "S"), ("\u{212a}", "k"), ("İ", "i"), ("İ", "i\u{307}"), ("ı", "i"), ("å", "a\u{30a}"), ("σ", "ς"), ("Σ", "ς"), ("ﬁ", "FI"), ("соль", "СОЛЬ"), ("", " "), ("\u{13a0}", "\u{ab70}"),
        ("\u{a7dc}", "\u{19b}"), ("\u{1c89}", "\u{1c8a}"), ("ŉ", "ʼN"), ("ᾳ", "ΑΙ"), ("ΐ", "ΐ"), ("\u{10d50}", "\u{10d70}"), ("./x/B", "b"), ("\u{1e9e}", "ß"), ("A", "a"), ("a", "b"), ("ab", "a"),
    ] {
        add(short("1", &format!("C23 {a:?} {b:?}"), &format!("dup ref\nS\ni {a}\ni {b}\nc {a}\nc {b}\nE")));
    }
    let mut c = short("1", "C24", "mode text\nS");
    c.sheet.extend(b"timer\t2\t4\t-\t-\ningredient\t0\t0\t0\t1\tx\t-\t-\t-\t.\t0\t0\t-\ncookware\t0\t10\t0\t1\tx\t-\t-\t-\t.\t0\t0\ntext\t0\t0\t+\nend\ttext\n");
    add(c.clone());
    c.name = "C24 escapes".into();
    c.text = b"a\tb\\c\nd\xc3\xa9f".to_vec();
    add(c);
    add(short("1", "D1", "dup ref\nS\ni a\ni a;?\ni A\nE"));
    add(short("1", "D1 failed REF between", "dup ref\nS\ni a\ni a;&+\ni A\nE"));
    add(short("1", "D1 cookware", "dup ref\nS\nc a\nc a;?\nc A;?\nc A\nE"));
    add(short("1", "D1 OPT only", "dup ref\nS\ni a;?\ni A;?\ni a\ni a;?\nE"));
    add(short("1", "D2", "mode components\nS\nt -\nE"));
    add(short("1", "D2 23 first", "dup ref\nS\ni a\ni a;?\ni a\nE\nmode components\nS\ni b\nE"));
    add(short("1", "D2 22 and 23", "mode components\ndup ref\nS\n\" x\nw 3\ni a\ni a;?\ni A\nE"));
    add(short("1", "D3", "mode text\nS\nE\nST\nET\nS\nET\nST\nE"));
    add(short("1", "D5", "mode components\nS\nw 1\n\" a\nE\nw 2\nST\nw 3\nET\nmode text\nS\nw 4\nE"));
    for m in MODIFIERS {
        add(short("7", &format!("D6 {m}"), &format!("dup ref\nS\ni a;{m}\ni A;{m};q=n:1\nc a\nc A;{m}\nE")));
        add(short("7", &format!("D6 default {m}"), &format!("S\ni a;{m}\ni A;{m};note=x\nc a;@-?\nc A;{m}\nE")));
        add(short("7", &format!("D6 steps {m}"), &format!("S\ni a;{m}\nc a;{m}\nE\nmode steps\nS\ni A;{m};note=x\ni b;{m}\nc A;{m}\nE")));
        add(short("7", &format!("D6 inherited {m}"), &format!("dup ref\nS\ni a;@-\ni b;@-?\nc a;-\nc b;@?\nE\nS\ni A;{m}\ni B;{m}\nc A;{m}\nc B;{m}\nE")));
    }
    add(short("1", "D7", "mode steps\nS\ni a\nc a\nE"));
    add(short("1", "D8", "mode components\nS\nE\nST\n\" a\nET"));
    add(short("1", "D9", "mode x\nkey [x]=y\ndup y\nkey a=b\ndefine  z"));
    add(short("0", "D9 flags 0", "mode text\nkey [x]=y\ndup ref\nS\ni a\ni a\nE"));
    add(short("7", "D12", "S\nx 1"));
    add(short("7", "D12 19", "S\nw 1"));
    add(short("7", "D13", "mode x"));
    // a plain form that is handed out and differs from its sheet: mode lines, a dropped block with its warning, one of text mode, implicit references
    let mut c = bars("1", "plain all modes", &[
        "meta|0|1|[duplicate]|0|1|ref\n",
        "start|step\ningredient|0|4|0|4|salt|-|-|-|.|0|0|-\ningredient|0|4|0|4|Salt|-|-|-|.|0|0|-\nend|step\n",
        "meta|0|1|[mode]|0|1|components\nstart|step\ntext|0|1|dropped\nwarning|7\nend|step\n",
        "meta|0|1|[define]|0|1|text\nstart|step\ningredient|0|4|0|4|pepper|-|-|-|.|0|0|-\ntext|4|6|, \nend|step\n",
        "meta|0|1|[mode]|0|1|steps\nstart|step\ncookware|0|4|0|4|pot|-|-|-|.|0|0\ningredient|0|4|0|4|SALT|-|-|-|-|0|0|-\nend|step\n",
    ].concat());
    (c.text, c.units) = ("salt, Salt".into(), Vec::new());
    add(c);
    // 11 to 14 and 19, by kind
    for o in ["S", "ST"] {
        for l in ["S", "ST", "sec a", "sec-", "key a=b", "mode text", "x 1", "w 1"] {
            add(short("7", &format!("in a block {o} {l}"), &format!("{o}\n{l}")));
        }
    }
    for l in ["E", "ET", "\" a", "i a", "c a", "t a"] {
        add(short("7", &format!("in no block {l}"), &format!("w 1\n{l}")));
        add(short("7", &format!("after a block {l}"), &format!("S\nE\n{l}")));
    }
    for (n, room) in [("empty", 10), ("empty", 11), ("empty", 0)] {
        let mut c = bars("7", &format!("room {room} {n}"), "");
        c.room = room;
        add(c);
    }
    let mut c = bars("7", "room one short for both", "warning|1\nsection|0|1|a\n");
    c.room = 22;
    add(c.clone());
    c.name = "room one short for the page".into();
    c.room = 33;
    add(c.clone());
    c.name = "room exactly the page".into();
    c.room = 34;
    add(c);
    out
}

/// Every limit at its edge and one past it; large.
pub fn limits() -> Vec<Case> {
    let mut out = Vec::new();
    for (name, most) in LIMITS {
        out.push(limit(name, *most));
        out.push(limit(name, most + 1));
    }
    out.push(short("7", "B20", &format!("S\n{}i a;;in=n:step:1\nE", "i a\n".repeat(512))));
    out.push(short("7", "B21", &format!("{}x 1", "w 1\n".repeat(1025))));
    out.push(short("7", "B21 accepted", &format!("{}x 1\n{}", "w 1\n".repeat(1024), "w 1\n".repeat(3000))));
    out.push(short("7", "B25", &format!("{}mode components\nS\nE", "S\nE\n".repeat(1024))));
    let mut c = limit("lines", 4097);
    c.name = "the 4,097th line without LF".into();
    c.sheet.pop();
    out.push(c);
    let mut c = limit("sheet-bytes", 65537);
    c.name = "1 before 8".into();
    c.sheet[0] = b'x';
    c.text = vec![0xff; 65536];
    out.push(c.clone());
    c.name = "2 before 3".into();
    c.sheet.clear();
    c.units = vec![b'x'; 16385];
    out.push(c.clone());
    c.name = "3 before 4".into();
    c.text.truncate(65535);
    out.push(c);
    let mut c = bars("1", "D10", &format!("meta|0|1|[mode]|1|2|text\nstart|step\n{}end|step\n", "timer|0|2000|-|-\n".repeat(17)));
    c.text = vec![b'\n'; 2000];
    out.push(c);
    // a page longer than what is lent
    let mut c = short("1", "A3", &format!("mode text\nS\n{}E", "timer|0|20000|-|-\n".repeat(53)));
    c.text = vec![b'a'; 20000];
    out.push(c);
    out
}
