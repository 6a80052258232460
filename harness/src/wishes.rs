//! The cases of the wishes, section W of docs/DECISIONS.md, written as those of cases.rs.
use crate::case::Case;
use crate::cases::{bars, inline, named, raw, short, trimmed};
use crate::limits::limit;
use crate::page::escape;

/// A line of each kind with all that it can have, and which of its fields are contents.
const LINES: &[(&str, &[usize])] = &[
    ("meta|0|1|a|1|2|b", &[3, 6]),
    ("section|0|1|a", &[3]),
    ("start|step", &[]),
    ("end|step", &[]),
    ("text|0|1|a", &[3]),
    ("ingredient|0|9|0|1|a|1|2|b|2|5|n|2|3|1|l|4|5|kg|5|6|c|&|6|7|n|step|1|7|8", &[5, 8, 14, 18, 21]),
    ("cookware|0|9|0|1|a|1|2|b|2|5|n|2|3|1|l|4|5|kg|5|6|c|.|6|7", &[5, 8, 14, 18, 21]),
    ("timer|0|9|0|1|a|2|5|n|2|3|1|l|4|5|min", &[5, 11, 15]),
    ("error|1", &[]),
    ("warning|1", &[]),
];

/// The same line with this field changed.
fn changed(line: &str, field: usize, by: impl Fn(&str) -> String) -> String {
    let mut fields: Vec<_> = line.split('|').map(str::to_string).collect();
    fields[field] = by(&fields[field]);
    fields.join("|")
}

/// A sheet in which a line of this kind may stand.
fn around(word: &str, line: &str) -> String {
    match word {
        "start" => format!("{line}\nend|step\n"),
        "end" => format!("start|step\n{line}\n"),
        "text" | "ingredient" | "cookware" | "timer" => format!("start|step\nend|step\nstart|step\n{line}\nend|step\n"),
        _ => format!("{line}\n"),
    }
}

/// Contents with spelled CRs, and bare ones in each field.
fn returns_in_lines(add: &mut impl FnMut(Case)) {
    for (line, contents) in LINES {
        let word = line.split('|').next().unwrap();
        add(bars("7", &format!("W3 {word}"), &around(word, line)));
        for i in *contents {
            for s in ["\\r", "\\ra", "a\\r", "\\r\\r"] {
                add(bars("7", &format!("W3 {word} {i} {s}"), &around(word, &changed(line, *i, |_| s.to_string()))));
            }
        }
        let fields = line.split('|').count();
        for i in 0..fields {
            // first or last in it; at the line's end it is last in the last one
            let bare = |f: &str| if i % 2 == 0 || i + 1 == fields { format!("\r{f}") } else { format!("{f}\r") };
            add(bars("7", &format!("W3 {word} {i} bare"), &around(word, &changed(line, i, bare))));
        }
        add(bars("7", &format!("W3 {word} end bare"), &around(word, &format!("{line}\r"))));
    }
    for s in ["\\r", "\\ra", "a\\r", "\\r\\r", "a\r"] {
        add(bars("7", &format!("W3 text block {}", s.replace('\r', " bare")), &format!("start|text\ntext|0|1|{s}\nend|text\n")));
    }
    for at in [0, 7, 8, 15, 16, 17, 31, 32] {
        for (name, cr) in [("", "\\r"), (" bare", "\r")] {
            for (which, rest) in [("", "bcdefghijklmnopqrstuvwx"), (" last", "")] {
                let line = format!("text|0|1|{}{cr}{rest}", "a".repeat(at));
                add(bars("7", &format!("W3 place {at}{which}{name}"), &around("text", &line)));
            }
        }
    }
}

/// Where only a content may have an escape, other escapes, and what is refused before or after.
fn returns_refused(add: &mut impl FnMut(Case)) {
    for (word, i) in [
        ("meta", 0), ("meta", 2), ("section", 1), ("start", 1), ("end", 1), ("text", 0), ("ingredient", 1), ("ingredient", 11), ("ingredient", 15), ("ingredient", 22), ("ingredient", 24),
        ("ingredient", 25), ("ingredient", 26), ("ingredient", 27), ("ingredient", 29), ("cookware", 22), ("timer", 8), ("timer", 12), ("error", 1), ("warning", 1),
    ] {
        let line = LINES.iter().find(|l| l.0.starts_with(word)).unwrap().0;
        add(bars("7", &format!("W3 {word} {i} first"), &around(word, &changed(line, i, |f| format!("\\r{f}")))));
        add(bars("7", &format!("W3 {word} {i} last"), &around(word, &changed(line, i, |f| format!("{f}\\r")))));
    }
    for (i, s) in [
        // no name, no amount: `-` and an escape
        "section|-\\r\n", "section|\\r\n", "start|step\ntimer|0|1|-\\r|-\nend|step\n",
        // other letters, and backslashes before the `r`
        "section|0|1|\\R\n", "section|0|1|a\\\\r\n", "section|0|1|\\\\\\r\n", "section|0|1|\\r\\\n", "section|0|1|\\rr\\nn\\tt\\\\\n", "section|0|1|a\\\r\n", "section|0|1|a\\\\\r\n", "section|0|1|\\r\r\n",
        "section|0|1|\r\\r\n",
        // lines
        "\r\n", "\r", "\\r\n", "warning|1\r", "warning|1\rwarning|2\n", "warning|1\n\r", "warning|1\n\r\n", "warning|1\r\nwarning|2\r\n", "warning|1\nwarning|2\r\n", "warning|1|\r\n", "warning|1\r\r\n",
        // 8 before 10 on a line; line by line; before the pass
        "section|3|2|a\r\n", "section|0|11|a\r\n", "section|3|2|a\\r\n", "section|3|2|a\nsection|0|1|a\r\n", "section|0|1|a\r\nsection|3|2|a\n", "error|1\nwarning|1\r\n", "error|1\nsection|0|1|a\\r\n",
        "start|step\nstart|step\nsection|0|1|a\r\n",
    ]
    .iter()
    .enumerate()
    {
        add(bars("7", &format!("W3 line {i}"), s));
    }
    add(raw("8", "W3 7 before 8", b"warning\t1\r\n", b"", b""));
    add(raw("7\r\n", "W3 flags", b"", b"", b""));
    for (i, u) in ["kg\tmass\r\n", "kg\tmass\r", "kg\r\tmass\n", "kg\\r\tmass\n", "kg\tmass\nkg\r\tmass\n", "a\rb\tmass\na\rb\tmass\n", "\r\n"].iter().enumerate() {
        add(raw("7", &format!("W3 units {i}"), b"start\tstep\ntext\t0\t0\t5 kg\\r, 5 kg\\\\r\nend\tstep\n", b"", u.as_bytes()));
    }
}

/// CR as the pass takes it: White_Space, and a code point as others in a name, a unit or a key.
fn returns_in_pass(add: &mut impl FnMut(Case)) {
    add(short("1", "W3 salt", "S\ni salt\r;\ni Salt;&\nc \rpot;\nc POT\r;&\nE"));
    add(short("1", "W3 a b", "S\ni a\rb;\ni A\rB;&\ni a b;&\ni ab;&\ni a\r\rb;&\nc a\rb\nc A\rB;&\nE"));
    add(short("1", "W3 implicit", "dup ref\nS\ni a\rb\ni \rA\rB\r;\ni a\\rb\ni A\\RB\nE"));
    // an escape's letter beside a letter, and an escape at the edges of eight bytes
    for (a, b) in [
        ("a\rb", "arb"), ("a\rb", "ARB"), ("a\rb", "a\\rb"), ("a\rb", "a\nb"), ("a\rb", "a\tb"), ("a\rb", "a\\\rb"), ("\rr", "r"), ("r\rr", "R\rR"), ("1234567\rb", "1234567\rB"), ("123456\rb", "123456\rB"),
        ("12345678\rß", "12345678\rSS"), ("123456789012345\rK", "123456789012345\r\u{212a}"), ("a\\\rb", "A\\\rB"), ("a\r b", "a\r  b"), ("./x\r/B", "b"), ("a\r\nb", "A\r\nB"), ("abcdefg\r", "abcdefgr"),
    ] {
        let (e, f) = (escape(a), escape(b));
        let line = |word: &str, name: &str, tail: &str| format!("{word}|0|1|0|1|{name}|-|-|-|.|0|0{tail}\n");
        let sheet = [line("ingredient", &e, "|-"), line("ingredient", &f, "|-"), line("cookware", &e, ""), line("cookware", &f, "")].concat();
        add(bars("1", &format!("W3 {a:?} {b:?}"), &format!("meta|0|1|[duplicate]|1|2|ref\nstart|step\n{sheet}end|step\n")));
    }
    for (name, units) in [("W3 unit", "a\rb\tmass\nl\tvolume\nt\rm\ttime\nkg\tmass\n"), ("W3 unit not listed", "a b\tmass\na\\rb\tmass\nl\tvolume\nkg\tmass\n"), ("W3 unit not trimmed", "a\rb\r\tmass\nkg\r\tmass\nl\tvolume\n")] {
        let mut c = short("7", name, "S\ni x;;q=n:1:a\rb\ni x;&;q=n:1:l\ni x;&;q=n:1:\ra\rb\r\ni x;&;q=n:1:kg\r;\nt -;q=n:1:t\rm\nt -;q=n:1:a\rb\n\" 5 a\rb, 5\rkg\r, 5 l\r;\nE");
        c.units = units.into();
        add(c);
    }
    for t in ["5\rkg", "5\r\nkg", "5 \r kg", "5\r\rkg", "5k\rg", "5kg\r", "\r5 kg\r2 g\r", "1\r2 kg", "-\r5 kg", "-5\rkg", "5.\r5 kg", "5\r", "\r", "\r\n"] {
        add(inline(&format!("W3 {t:?}"), t));
    }
    for n in ["\ra\r", "a\r\rb", " \r a \r b \r ", "a\r\nb\r\n", "\r", " \r\u{a0}", "a  \r  b"] {
        add(trimmed(&format!("W3 trimmed {n:?}"), n));
    }
    add(bars("0", "W3 one key", "meta|0|1|k\\r|1|2|a\nmeta|0|1|\\rk|1|2|b\nmeta|0|1|k\\rk|1|2|c\nmeta|0|1|k k|1|2|d\nmeta|0|1|k\\\\rk|1|2|e\n"));
    for (k, v) in [("[mode]\\r", " text\\r"), ("\\r[mode]", "\\r\\ntext"), ("[define]\\r\\n", "te\\rxt"), ("[mo\\rde]", "text"), ("[\\rmode\\r]", "text"), ("[duplicate]\\r", "ref\\r")] {
        for f in ["1", "0"] {
            let sheet = format!("meta|0|1|{k}|1|2|{v}\nstart|step\ningredient|0|1|0|1|a|-|-|-|.|0|0|-\ningredient|0|1|0|1|a\\r|-|-|-|.|0|0|-\nend|step\n");
            add(bars(f, &format!("W3 key {k} {v} {f}"), &sheet));
        }
    }
    for n in ["./a\\r/b", ".\\rb", ".\\\\rb", "./b\\r", "./\\rb", "./\\r", "./\\r/b", "\\r./b", "..\\r/b", "./a\\\\\\rb", ".\\\\r"] {
        add(named(&format!("W3 name {n}"), n));
    }
}

/// Texts with CR, the form's copies of them, and room for what spells one.
fn returns_written(add: &mut impl FnMut(Case)) {
    let mut copied = |name: &str, text: &str| {
        let n = text.len();
        let mut c = bars("1", name, &format!("meta|0|0|[mode]|0|0|text\nstart|step\ntimer|0|{n}|-|-\ncookware|0|{n}|0|0|pot|-|-|-|.|0|0\nend|step\n"));
        c.text = text.into();
        add(c);
    };
    for n in [1, 8, 16, 17] {
        copied(&format!("W3 text of {n}"), &"\r".repeat(n));
    }
    for (i, t) in ["\r\n\r\n\r\n\r\n", "a\r\nb", "\\\r", "\\r", "1234567\r", "12345678\r", "\r1234567812345678", "é\r米\r\r"].iter().enumerate() {
        copied(&format!("W3 copied {i}"), t);
    }
    let sheet = "meta|3|14|[duplicate]|15|19| ref\nstart|step\ningredient|21|28|22|26|salt|-|-|-|.|22|22|-\ntext|28|29| \ningredient|29|36|30|34|Salt|-|-|-|.|30|30|-\nend|step\n".replace('|', "\t");
    for (name, sheet) in [
        ("W3 worked page", sheet.clone()),
        ("W3 worked page spelled", sheet.replace("19\t ref", "20\t ref\\r")),
        ("W3 worked page bare", sheet.replace("19\t ref", "20\t ref\r")),
        ("W3 worked page CR LF", sheet.replace('\n', "\r\n")),
    ] {
        add(raw("1", name, sheet.as_bytes(), b">> [duplicate]: ref\r\n@salt{} @Salt{}\r\n", b""));
    }
    // a page of 42 bytes, a form of 16: all, without LF, inside `\r`, before it; a form of 44 with a copy of CR and one of LF
    let copied = "meta|0|0|[mode]|0|0|text\nstart|step\ntimer|1|2|-|-\ntimer|2|3|-|-\nend|step\n";
    for (name, sheet, rooms) in [("page", "start|step\ntext|0|1|a\\r\nend|step\n", &[42, 41, 40, 39][..]), ("form", "section|0|1|a\\r\n", &[16, 15, 14, 13]), ("copied", copied, &[44, 43])] {
        for room in rooms {
            let mut c = bars("1", &format!("W3 {name}, room {room}"), sheet);
            (c.text, c.room) = (b"a\r\nb".to_vec(), *room);
            add(c);
        }
    }
}

pub fn decisions() -> Vec<Case> {
    let mut out = Vec::new();
    let mut add = |c: Case| out.push(c);
    returns_in_lines(&mut add);
    returns_refused(&mut add);
    returns_in_pass(&mut add);
    returns_written(&mut add);
    out
}

pub fn limits() -> Vec<Case> {
    let mut out = Vec::new();
    let mut c = limit("lines", 4097);
    c.name = "W3 a bare CR on the 4,097th line".into();
    c.sheet.insert(c.sheet.len() - 1, b'\r');
    out.push(c);
    // the page is longer than the form: 20
    for n in [65536, 65537] {
        let mut c = limit("form-returns", n);
        (c.name, c.room) = (format!("W3 form-returns-{n}"), 65536);
        out.push(c);
    }
    out
}
