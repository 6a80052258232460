//! Many sheets by chance, and what they reach.
use crate::case::Case;
use crate::generate::{damaged, recipe, Rng};
use crate::limits::{limit, LIMITS};
use crate::pass::{collect, last_panic};
use crate::plain::plain_form;
use crate::returns;
use crate::sheet::Refusal;
use std::cell::Cell;

#[derive(Default)]
pub struct Counts {
    pub sheets: usize,
    pub accepted: usize,
    pub without_recipe: usize,
    pub forms: usize,
    pub changed_forms: usize,
    pub refused: [usize; 25],
    pub refused_plain: [usize; 25],
    pub findings: [usize; 24],
    pub with_finding: [usize; 24],
    pub too_long: [usize; 2],
    pub returns: returns::Counts,
    pub uncaught: usize,
}

impl Counts {
    pub fn see(&mut self, c: &Case) {
        self.sheets += 1;
        let r = std::panic::catch_unwind(std::panic::AssertUnwindSafe(|| self.see_answers(c)));
        if r.is_err() {
            self.uncaught += 1;
            let m = last_panic();
            println!("uncaught: {m}\nsheet:\n{}\nflags {:?}\nunits:\n{}\ntext: {:?}", String::from_utf8_lossy(&c.sheet), c.flags, String::from_utf8_lossy(&c.units), String::from_utf8_lossy(&c.text));
        }
    }

    fn see_answers(&mut self, c: &Case) {
        match collect(&c.input()) {
            Err(Refusal(n, _)) => {
                self.refused[n as usize] += 1;
                self.returns.see_refused(n, &c.sheet);
            }
            Ok(p) => {
                self.returns.see_page(&c.sheet, &c.units, &p.page);
                self.accepted += 1;
                self.without_recipe += p.recipe.is_none() as usize;
                self.too_long[0] += (p.page.len() > c.room) as usize;
                for (k, n) in p.codes.iter().enumerate() {
                    self.findings[k] += n;
                    self.with_finding[k] += (*n > 0) as usize;
                }
            }
        }
        match plain_form(&c.input()) {
            Err(Refusal(n, _)) => self.refused_plain[n as usize] += 1,
            Ok(f) => {
                self.returns.see_form(&c.sheet, &f);
                self.forms += 1;
                self.changed_forms += (f != c.sheet) as usize;
                self.too_long[1] += (f.len() > c.room) as usize;
            }
        }
    }

    pub fn print(&self) {
        println!("sheets {}, uncaught panics {}", self.sheets, self.uncaught);
        println!("collection: accepted {} (without recipe {}), of these longer than the room (20): {}", self.accepted, self.without_recipe, self.too_long[0]);
        let list = |c: &[usize]| c.iter().enumerate().skip(1).map(|(i, n)| format!("{i}: {n}")).collect::<Vec<_>>().join(", ");
        println!("collection refused by number: {}", list(&self.refused[..20]));
        println!("plain form: forms {} (other than the sheet {}), of these longer than the room (20): {}", self.forms, self.changed_forms, self.too_long[1]);
        println!("plain form refused by number: {}", list(&self.refused_plain));
        println!("findings by code: {}", list(&self.findings));
        println!("pages with the code: {}", list(&self.with_finding));
        println!("parser findings: {}", self.findings[0]);
        self.returns.print_pages();
        self.returns.print_forms();
    }
}

/// Makes n sheets: every limit just below, at and past its edge (once), recipes, damaged copies.
pub fn each(n: usize, seed: u64, mut see: impl FnMut(&Case)) {
    let mut rng = Rng(seed);
    let made = Cell::new(0);
    let mut see = |c: &Case| {
        made.set(made.get() + 1);
        see(c)
    };
    for (name, most) in LIMITS {
        see(&limit(name, most - 1));
        see(&limit(name, *most));
        see(&limit(name, most + 1));
    }
    while made.get() < n {
        let (blocks, items) = *rng.one(&[(3, 4), (6, 6), (12, 10), (25, 15)]);
        let mut c = recipe(&mut rng, blocks, items);
        if rng.chance(4) {
            c.room = rng.below(600);
        }
        see(&c);
        if rng.below(200) == 0 {
            let (name, most) = *rng.one(LIMITS);
            see(&limit(name, most - 2 + rng.below(5)));
        }
        if rng.chance(40) {
            let d = damaged(&mut rng, &c);
            see(&d);
        }
    }
}

pub fn fuzz(n: usize, seed: u64) -> Counts {
    let mut counts = Counts::default();
    each(n, seed, |c| counts.see(c));
    counts
}
