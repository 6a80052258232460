//! What `compare` counts.
use crate::returns;

/// Calls of the library; of these with a room that is too small, just enough, or with work memory one short.
#[derive(Clone, Copy, Default)]
pub struct Calls {
    pub all: usize,
    pub too_small: usize,
    pub just_enough: usize,
    pub short: usize,
}

impl Calls {
    fn add(&mut self, o: Calls) {
        self.all += o.all;
        self.too_small += o.too_small;
        self.just_enough += o.just_enough;
        self.short += o.short;
    }

    fn print(&self, of: &str) {
        println!(
            "calls for {of}s {}, of these room too small (20) {}, just enough {}, work memory short (1) {}",
            self.all, self.too_small, self.just_enough, self.short
        );
    }
}

#[derive(Default)]
pub struct Counts {
    pub sheets: usize,
    pub accepted: usize,
    pub without_recipe: usize,
    pub refused: [usize; 25],
    pub findings: [usize; 24],
    /// the longest page
    pub longest: usize,
    pub forms: usize,
    /// forms other than the sheet, longer than it, empty, of 65,536 bytes, with 1,024 findings
    pub changed: usize,
    pub longer: usize,
    pub empty: usize,
    pub full: usize,
    pub full_findings: usize,
    /// forms whose claims were seen to hold by running the library
    pub held: usize,
    pub refused_forms: [usize; 25],
    pub page_calls: Calls,
    pub form_calls: Calls,
    pub returns: returns::Counts,
    /// sheets on which anything differed
    pub differences: usize,
    /// sheets on which the Rust side itself panicked in a way that no number stands for
    pub uncaught: usize,
    /// those cases, in the format of crates/replay/data
    pub kept: Vec<u8>,
}

fn list(c: &[usize], from: usize) -> String {
    c.iter().enumerate().skip(from).map(|(i, n)| format!("{i}: {n}")).collect::<Vec<_>>().join(", ")
}

impl Counts {
    pub fn add(&mut self, o: Counts) {
        let sum = |a: &mut [usize], b: &[usize]| a.iter_mut().zip(b).for_each(|(a, b)| *a += b);
        sum(&mut self.refused, &o.refused);
        sum(&mut self.findings, &o.findings);
        sum(&mut self.refused_forms, &o.refused_forms);
        self.sheets += o.sheets;
        self.accepted += o.accepted;
        self.without_recipe += o.without_recipe;
        self.longest = self.longest.max(o.longest);
        self.forms += o.forms;
        self.changed += o.changed;
        self.longer += o.longer;
        self.empty += o.empty;
        self.full += o.full;
        self.full_findings += o.full_findings;
        self.held += o.held;
        self.page_calls.add(o.page_calls);
        self.form_calls.add(o.form_calls);
        self.returns.add(&o.returns);
        self.differences += o.differences;
        self.uncaught += o.uncaught;
        self.kept.extend(o.kept);
    }

    pub fn print(&self) {
        println!("sheets {}", self.sheets);
        if self.page_calls.all > 0 {
            self.print_pages();
        }
        if self.form_calls.all > 0 {
            self.print_forms();
        }
        println!("differences {}, uncaught panics of the Rust {}", self.differences, self.uncaught);
    }

    fn print_pages(&self) {
        println!("pages {} (without recipe {}), the longest {} bytes", self.accepted, self.without_recipe, self.longest);
        println!("pages refused by number: {}", list(&self.refused[..20], 1));
        println!("findings by code: {}", list(&self.findings, 1));
        println!("parser findings: {}", self.findings[0]);
        self.returns.print_pages();
        self.page_calls.print("page");
    }

    fn print_forms(&self) {
        println!(
            "forms {}, of these other than the sheet {}, longer than the sheet {}, empty {}, of 65536 bytes {}, with 1024 findings {}",
            self.forms, self.changed, self.longer, self.empty, self.full, self.full_findings
        );
        println!("forms refused by numbers of the collection: {}", self.refused_forms[..20].iter().sum::<usize>());
        println!("forms refused by their own: {}", list(&self.refused_forms, 21));
        println!("forms collected again, and formed again: {}", self.held);
        self.returns.print_forms();
        self.form_calls.print("form");
    }

    pub fn is_good(&self) -> bool {
        self.differences == 0 && self.uncaught == 0
    }
}
