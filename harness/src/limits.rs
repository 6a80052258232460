//! Sheets at the limits.
use crate::case::{Case, ROOM};

fn in_step(line: &str, n: usize) -> String {
    format!("start\tstep\n{}end\tstep\n", line.repeat(n))
}

/// The limits, each by name with its largest good count.
pub const LIMITS: &[(&str, usize)] = &[
    ("ingredients", 512), ("cookware", 256), ("timers", 256), ("sections-closed", 128), ("sections-end", 128), ("blocks", 1024), ("items", 4096), ("inline", 512),
    ("findings", 1024), ("findings-end", 1024), ("lines", 4096), ("sheet-bytes", 65536), ("text-bytes", 65535), ("units-bytes", 16384), ("unit-lines", 1024),
    ("form-bytes", 65536), ("form-findings", 1024), ("number", 65535),
];

/// Limits of the plain form; the last two are not tried in the fixed list.
#[cfg(any(test, feature = "library"))]
pub const FORM_LIMITS: &[(&str, usize)] =
    &[("form-bytes", 65536), ("form-findings", 1024), ("form-returns", 65536), ("form-references", 65536), ("form-findings-end", 1024)];

/// A sheet with `n` of what a limit counts.
pub fn limit(name: &str, n: usize) -> Case {
    let mut c = Case { name: format!("{name}-{n}"), room: ROOM, flags: b"7".to_vec(), text: b"abcdefghij".to_vec(), units: b"kg\tmass\n".to_vec(), ..Case::default() };
    let sheet = match name {
        "ingredients" => in_step("ingredient\t0\t0\t0\t0\ta\t-\t-\t-\t.\t0\t0\t-\n", n),
        "cookware" => in_step("cookware\t0\t0\t0\t0\ta\t-\t-\t-\t.\t0\t0\n", n),
        "timers" => in_step("timer\t0\t0\t-\t-\n", n),
        // one more line closes the last
        "sections-closed" => "section\t0\t1\ta\n".repeat(n + 1),
        "sections-end" => "section\t0\t1\ta\n".repeat(n),
        "blocks" => in_step("", 0).repeat(n),
        "items" => format!("start\tstep\n{}{}end\tstep\n", "text\t0\t1\ta 1kg\n".repeat(300), "text\t0\t1\ta\n".repeat(n - 600)),
        "inline" => in_step(&format!("text\t0\t1\t{}\n", "1kg ".repeat(n)), 1),
        "findings" => "warning\t1\n".repeat(n),
        "findings-end" => format!("{}meta\t0\t1\ta\t1\t2\tb\n", "warning\t1\n".repeat(n - 1)),
        "lines" => format!("error\t1\n{}", "warning\t1\n".repeat(n - 1)),
        // the last of them spell a CR, which counts two
        "sheet-bytes" => format!("section\t0\t1\t{}\\r\n", "a".repeat(n - 15)),
        "text-bytes" => {
            c.text = "a".repeat(n).into_bytes();
            format!("section\t0\t{}\ta\n", n.min(65535))
        }
        "units-bytes" => {
            c.units = format!("{}\tmass\n", "a".repeat(n - 6)).into_bytes();
            String::new()
        }
        "unit-lines" => {
            c.units = (0..n).map(|i| format!("u{i}\tmass\n")).collect::<String>().into_bytes();
            String::new()
        }
        "form-bytes" => {
            // in text mode each timer becomes a text line of 2,000 escaped LF and 13 further bytes
            c.text = "\n".repeat(2000).into_bytes();
            let line = "timer\t0\t2000\t-\t-\n";
            let k = (n - 30) / (4000 + 13);
            let rest = n - 20 - k * (4000 + 13) - 10;
            format!("meta\t0\t1\t[mode]\t1\t2\ttext\nstart\tstep\n{}text\t0\t0\t{}\nend\tstep\n", line.repeat(k), "a".repeat(rest))
        }
        "form-returns" => {
            // as "form-bytes" with CR; the last line is longer by what is left, and ends in one
            c.text = "\r".repeat(2000).into_bytes();
            let line = "timer\t0\t2000\t-\t-\n";
            let k = (n - 35) / (4000 + 13);
            let rest = n - 35 - k * (4000 + 13);
            format!("meta\t0\t1\t[mode]\t1\t2\ttext\nstart\tstep\n{}end\tstep\nsection\t0\t1\t{}\\r\n", line.repeat(k), "a".repeat(rest))
        }
        "form-findings" => format!(
            "meta\t0\t1\t[mode]\t1\t2\tsteps\n{}{}",
            "warning\t1\n".repeat(1000),
            in_step("ingredient\t0\t0\t0\t0\ta\t-\t-\t-\t+\t0\t0\t-\n", n - 1000)
        ),
        "form-references" => {
            // the removed line is shorter than the letters that are added
            let line = "ingredient\t0\t0\t0\t0\ta\t-\t-\t-\t?\t0\t0\t-\n";
            let step = in_step(line, 100);
            let rest = n - (step.len() + 99) - 13;
            format!("meta\t0\t1\t[duplicate]\t1\t2\tref\nsection\t0\t1\t{}\n{step}", "a".repeat(rest))
        }
        // as "form-findings", the last at the end
        "form-findings-end" => format!(
            "meta\t0\t1\t[mode]\t1\t2\tsteps\n{}{}meta\t0\t1\ta\t1\t2\tb\n",
            "warning\t1\n".repeat(1000),
            in_step("ingredient\t0\t0\t0\t0\ta\t-\t-\t-\t+\t0\t0\t-\n", n - 1001)
        ),
        "number" => format!("warning\t{n}\n"),
        _ => unreachable!(),
    };
    c.sheet = sheet.into_bytes();
    c
}

#[cfg(test)]
mod tests {
    use super::*;
    use crate::pass::collect;
    use crate::plain::plain_form_of;

    /// The length of the form and the number of its findings, or the number by which it is refused.
    fn reached(c: &Case) -> Result<(usize, usize), u32> {
        let collected = collect(&c.input()).map_err(|r| r.0)?;
        assert!(c.sheet.len() < 65536 && collected.codes.iter().sum::<usize>() < 1024);
        plain_form_of(&c.input(), &collected).map(|f| (f.form.len(), f.findings)).map_err(|r| r.0)
    }

    #[test]
    fn only_the_form_passes_these() {
        for (name, most) in FORM_LIMITS {
            for n in [most - 1, *most] {
                let (length, findings) = reached(&limit(name, n)).unwrap();
                assert_eq!(if name.contains("findings") { findings } else { length }, n, "{name}");
            }
            assert_eq!(reached(&limit(name, most + 1)), Err(24), "{name}");
        }
    }
}
