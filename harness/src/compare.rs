//! The library beside the Rust: pages and plain forms byte for byte, refusals by number and line, and all lent memory after
//! each call; of each form also what can be seen by running the library on it.
use crate::calls::{parting, Answer, Asked, Lengths, Memory};
use crate::case::{Case, ROOM};
pub use crate::compare_counts::Counts;
use crate::crowded::{crowded, long_form};
use crate::fuzz::each;
use crate::generate::Rng;
use crate::limits::{limit, FORM_LIMITS};
use crate::pass::{collect, last_panic, Collected, Input};
use crate::plain::{plain_form_of, Formed};
use crate::sheet::{self, read_flags};
use recipe::{bytes_needed, words_needed, Refusal};
use std::panic::{catch_unwind, AssertUnwindSafe};

/// How many differing cases are kept to be written to a file.
const KEPT: usize = 50;

/// What is compared.
#[derive(Clone, Copy)]
pub struct Which {
    pub pages: bool,
    pub forms: bool,
}

/// What differs, with the room at which it does.
type Found = Result<(), (usize, String)>;

fn refused(r: &sheet::Refusal) -> Refusal {
    Refusal { number: r.0, line: r.1 as u32 }
}

/// A page above its findings.
fn above(page: &[u8]) -> &[u8] {
    let is_finding = |l: &[u8]| l.starts_with(b"diag\t") || l.starts_with(b"parse\t");
    let length = page.split_inclusive(|&b| b == b'\n').take_while(|l| !is_finding(l)).map(<[u8]>::len).sum();
    &page[..length]
}

struct Comparison {
    which: Which,
    rng: Rng,
    memory: Memory,
    counts: Counts,
}

impl Comparison {
    fn new(which: Which, seed: u64) -> Comparison {
        Comparison { which, rng: Rng(!seed), memory: Memory::new(), counts: Counts::default() }
    }

    fn calls(&mut self, asked: Asked) -> &mut crate::compare_counts::Calls {
        match asked {
            Asked::Page => &mut self.counts.page_calls,
            Asked::Form => &mut self.counts.form_calls,
        }
    }

    /// The program's room now and then, else 64 KB, or more where the answer is longer.
    fn full_room(&mut self, length: usize) -> usize {
        if self.rng.below(64) == 0 {
            return ROOM.max(length);
        }
        length.max(1).next_multiple_of(65536)
    }

    fn call(&mut self, asked: Asked, input: &Input, lengths: Lengths, want: Answer) -> Found {
        self.calls(asked).all += 1;
        let what = match self.memory.call(asked, &mut self.rng, input, lengths) {
            Ok(got) => parting(want, got),
            Err(what) => Some(what),
        };
        what.map_or(Ok(()), |what| Err((lengths.out, format!("{}: {what}", asked.name()))))
    }

    /// Calls with this room.
    fn room(&mut self, asked: Asked, input: &Input, room: usize, want: Answer) -> Found {
        let lengths = Lengths { words: words_needed(), bytes: bytes_needed(), out: room };
        self.call(asked, input, lengths, want)
    }

    /// Calls with too little work memory, which is 1 whatever the input is.
    fn short(&mut self, asked: Asked, input: &Input, room: usize) -> Found {
        self.calls(asked).short += 1;
        let (words, bytes) = *self.rng.one(&[(1, 0), (0, 1), (1, 1), (words_needed(), 0), (0, bytes_needed())]);
        let lengths = Lengths { words: words_needed() - words, bytes: bytes_needed() - bytes, out: room };
        let want = Err(Refusal { number: 1, line: 0 });
        self.call(asked, input, lengths, want).map_err(|(room, what)| (room, format!("short work memory: {what}")))
    }

    /// An answer that needs room, with just enough and with less.
    fn smaller_rooms(&mut self, asked: Asked, input: &Input, bytes: &[u8]) -> Found {
        self.calls(asked).just_enough += 1;
        self.room(asked, input, bytes.len(), Ok(bytes))?;
        if bytes.is_empty() {
            return Ok(());
        }
        for room in [bytes.len() - 1, self.rng.below(bytes.len()), 0] {
            self.calls(asked).too_small += 1;
            self.room(asked, input, room, Err(Refusal { number: 20, line: 0 }))?;
        }
        Ok(())
    }

    /// All rooms for an answer.
    fn rooms(&mut self, asked: Asked, input: &Input, want: Answer) -> Found {
        let full = self.full_room(want.map_or(0, <[u8]>::len));
        if self.rng.below(64) == 0 {
            self.short(asked, input, full)?;
        }
        self.room(asked, input, full, want)?;
        match want {
            Ok(bytes) => self.smaller_rooms(asked, input, bytes),
            Err(_) => {
                let small = self.rng.below(300);
                self.room(asked, input, small, want)
            }
        }
    }

    fn page(&mut self, input: &Input, answer: &Result<Collected, sheet::Refusal>) -> Found {
        match answer {
            Ok(c) => {
                self.counts.accepted += 1;
                self.counts.returns.see_page(input.sheet, input.units, &c.page);
                self.counts.without_recipe += c.recipe.is_none() as usize;
                self.counts.longest = self.counts.longest.max(c.page.len());
                self.counts.findings.iter_mut().zip(c.codes).for_each(|(a, n)| *a += n);
            }
            Err(r) => {
                self.counts.refused[r.0 as usize] += 1;
                self.counts.returns.see_refused(r.0, input.sheet);
            }
        }
        self.rooms(Asked::Page, input, answer.as_ref().map(|c| &c.page[..]).map_err(refused))
    }

    fn form(&mut self, input: &Input, answer: &Result<Collected, sheet::Refusal>) -> Found {
        let formed = match answer {
            Ok(c) => plain_form_of(input, c),
            Err(r) => Err(*r),
        };
        match &formed {
            Ok(f) => {
                self.counts.forms += 1;
                self.counts.returns.see_form(input.sheet, &f.form);
                self.counts.changed += (f.form != input.sheet) as usize;
                self.counts.longer += (f.form.len() > input.sheet.len()) as usize;
                self.counts.empty += f.form.is_empty() as usize;
                self.counts.full += (f.form.len() == 65536) as usize;
                self.counts.full_findings += (f.findings == 1024) as usize;
            }
            Err(r) => self.counts.refused_forms[r.0 as usize] += 1,
        }
        self.rooms(Asked::Form, input, formed.as_ref().map(|f| &f.form[..]).map_err(refused))?;
        match (answer, &formed) {
            (Ok(c), Ok(f)) => self.holds(input, c, f),
            _ => Ok(()),
        }
    }

    /// The page that the library writes, which has to be accepted.
    fn written(&mut self, input: &Input, room: usize, of: &str) -> Result<Vec<u8>, (usize, String)> {
        self.counts.form_calls.all += 1;
        let lengths = Lengths { words: words_needed(), bytes: bytes_needed(), out: room };
        match self.memory.call(Asked::Page, &mut self.rng, input, lengths) {
            Ok(Ok(page)) => Ok(page.to_vec()),
            Ok(Err(r)) => Err((room, format!("page of the {of}: {r:?}"))),
            Err(what) => Err((room, format!("page of the {of}: {what}"))),
        }
    }

    /// The claims about a form, by running the library on it: it is accepted, its page above the findings is the sheet's, by
    /// the library and by the Rust, and it is its own form. And all of its page is the Rust's.
    fn holds(&mut self, input: &Input, c: &Collected, f: &Formed) -> Found {
        let again = Input { sheet: &f.form, text: input.text, units: input.units, flags: input.flags };
        let of_sheet = self.written(input, c.page.len(), "sheet")?;
        let of_form = self.written(&again, f.page.len(), "form")?;
        let is_same = |what: &str, want: &[u8], got: &[u8]| match parting(Ok(want), Ok(got)) {
            None => Ok(()),
            Some(how) => Err((ROOM, format!("page of the form {what}: {how}"))),
        };
        is_same("above the findings, by the library", above(&of_sheet), above(&of_form))?;
        is_same("above the findings, by the Rust", &c.page[..c.above], above(&of_form))?;
        is_same("by the Rust", &f.page, &of_form)?;
        self.room(Asked::Form, &again, f.form.len(), Ok(&f.form)).map_err(|(room, what)| (room, format!("form of the {what}")))?;
        self.counts.held += 1;
        Ok(())
    }

    fn differs(&mut self, input: &Input) -> Found {
        let answer = collect(input);
        if self.which.pages {
            self.page(input, &answer)?;
        }
        if self.which.forms {
            self.form(input, &answer)?;
        }
        Ok(())
    }

    fn see(&mut self, c: &Case) {
        self.counts.sheets += 1;
        let mut input = c.input();
        if input.flags > 7 && self.rng.chance(50) {
            input.flags = (self.rng.next() as u32).max(8);
        }
        let flags = input.flags;
        let found = match catch_unwind(AssertUnwindSafe(|| self.differs(&input))) {
            Ok(Ok(())) => return,
            Ok(Err(found)) => {
                self.counts.differences += 1;
                found
            }
            Err(_) => {
                self.counts.uncaught += 1;
                (c.room, format!("the Rust: {}", last_panic()))
            }
        };
        self.keep(c, found, flags);
    }

    fn keep(&mut self, c: &Case, (room, what): (usize, String), flags: u32) {
        if self.counts.differences + self.counts.uncaught > KEPT {
            return;
        }
        let flags = if flags == read_flags(&c.flags) { String::new() } else { format!(", flags {flags}") };
        let name = format!("{what}{flags}{}{}", if c.name.is_empty() { "" } else { ": " }, c.name);
        println!("different, room {room}: {name}");
        let case = Case { name, room, ..c.clone() };
        let answers = catch_unwind(AssertUnwindSafe(|| case.answers())).unwrap_or_default();
        case.write_with(&mut self.counts.kept, &answers);
    }
}

/// A large sheet by chance.
fn large(rng: &mut Rng) -> Case {
    match rng.below(4) {
        0 => long_form(rng),
        1 => {
            let (name, most) = *rng.one(FORM_LIMITS);
            limit(name, most - 2 + rng.below(5))
        }
        _ => crowded(rng),
    }
}

/// n sheets by chance, those of `fuzz`, and a large one after each 128.
fn compare_one(which: Which, n: usize, seed: u64) -> Counts {
    let mut c = Comparison::new(which, seed);
    let mut rng = Rng(seed ^ 0x1a26e);
    each(n - n / 129, seed, |case| {
        c.see(case);
        if c.counts.sheets % 129 == 128 {
            c.see(&large(&mut rng));
        }
    });
    c.counts
}

/// That many sheets, shared among so many threads, each with its own seed and memory.
pub fn compare(which: Which, n: usize, seed: u64, threads: usize) -> Counts {
    let mut counts = Counts::default();
    std::thread::scope(|s| {
        let run = |k: usize| s.spawn(move || compare_one(which, n / threads + (k < n % threads) as usize, seed + k as u64));
        let all: Vec<_> = (0..threads).map(run).collect();
        all.into_iter().for_each(|t| counts.add(t.join().unwrap()));
    });
    counts
}

/// The cases of files in the format of crates/replay/data; the answers that stand there are not read.
pub fn compare_files(which: Which, files: &[&str]) -> Counts {
    let mut c = Comparison::new(which, 1);
    for file in files {
        for (case, _) in Case::read_all(&std::fs::read(file).unwrap()) {
            c.see(&case);
        }
    }
    c.counts
}
