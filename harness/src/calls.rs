//! Calls of the library on lent memory, all of which is looked at afterwards.
use crate::generate::Rng;
use crate::lent::Lent;
use crate::pass::{last_panic, Input};
use recipe::{collect_in, plain_form_in, Refusal};
use std::panic::{catch_unwind, AssertUnwindSafe};

/// What is asked of the library.
#[derive(Clone, Copy, PartialEq)]
pub enum Asked {
    Page,
    Form,
}

impl Asked {
    pub fn name(self) -> &'static str {
        match self {
            Asked::Page => "page",
            Asked::Form => "form",
        }
    }
}

/// Lengths of the written memory of a call.
#[derive(Clone, Copy)]
pub struct Lengths {
    pub words: usize,
    pub bytes: usize,
    pub out: usize,
}

pub type Answer<'a> = Result<&'a [u8], Refusal>;

fn said(a: Answer) -> String {
    match a {
        Ok(page) => format!("{} bytes", page.len()),
        Err(r) => format!("refused {} {}", r.number, r.line),
    }
}

/// Where two answers part.
pub fn parting(want: Answer, got: Answer) -> Option<String> {
    match (want, got) {
        _ if want == got => None,
        (Ok(w), Ok(g)) if w.len() == g.len() => {
            let at = w.iter().zip(g).position(|(a, b)| a != b).unwrap();
            Some(format!("differs at byte {at}"))
        }
        _ => Some(format!("{}, not {}", said(got), said(want))),
    }
}

/// What is lent, used again for each call.
pub struct Memory {
    inputs: [Lent<u8>; 3],
    words: Lent<u32>,
    bytes: Lent<u8>,
    out: Lent<u8>,
}

impl Memory {
    pub fn new() -> Memory {
        Memory { inputs: [Lent::new(), Lent::new(), Lent::new()], words: Lent::new(), bytes: Lent::new(), out: Lent::new() }
    }

    fn fill(&mut self, rng: &mut Rng, input: &Input, lengths: Lengths) {
        let r = rng.next();
        let (garbage, guard) = ((r as u8).max(1), (r >> 8) as u8);
        let word = *rng.one(&[1, 0xffff_ffff, 0x0101_0101, (r >> 32) as u32]);
        for (lent, bytes) in self.inputs.iter_mut().zip([input.sheet, input.text, input.units]) {
            lent.copy(rng.below(16), bytes, guard);
        }
        self.words.fill(rng.below(4), lengths.words, word, !word);
        self.bytes.fill(rng.below(16), lengths.bytes, garbage, guard);
        self.out.fill(rng.below(16), lengths.out, garbage, guard);
    }

    /// Calls the library once: its answer, or what is wrong with the memory afterwards.
    pub fn call(&mut self, asked: Asked, rng: &mut Rng, input: &Input, lengths: Lengths) -> Result<Answer<'_>, String> {
        self.fill(rng, input, lengths);
        let [sheet, text, units] = self.inputs.each_ref().map(|i| i.as_slice());
        let (words, bytes, out) = (self.words.slice(), self.bytes.slice(), self.out.slice());
        let called = catch_unwind(AssertUnwindSafe(|| {
            let answer = match asked {
                Asked::Page => collect_in(sheet, text, units, input.flags, words, bytes, out),
                Asked::Form => plain_form_in(sheet, text, units, input.flags, words, bytes, out),
            };
            answer.map(<[u8]>::len)
        }));
        let Ok(answer) = called else {
            return Err(format!("the wrapper panicked: {}", last_panic()));
        };
        match self.wrong(input, answer.unwrap_or(0)) {
            Some(what) => Err(what),
            None => Ok(answer.map(|n| &self.out.as_slice()[..n])),
        }
    }

    /// What is not as it has to be, after an answer of this length.
    fn wrong(&self, input: &Input, length: usize) -> Option<String> {
        let left = |what: &str, at: Option<usize>| at.map(|i| format!("{what} {i} is not zero"));
        let guards = [("words", self.words.guards_stay()), ("bytes", self.bytes.guards_stay()), ("out", self.out.guards_stay())];
        left("word", self.words.left(0))
            .or_else(|| left("byte", self.bytes.left(0)))
            .or_else(|| left("out", self.out.left(length)))
            .or_else(|| guards.iter().find(|g| !g.1).map(|g| format!("written outside {}", g.0)))
            .or_else(|| self.input_changed(input).then(|| "an input was written to".to_string()))
    }

    fn input_changed(&self, input: &Input) -> bool {
        let same = |l: &Lent<u8>, bytes: &[u8]| l.as_slice() == bytes && l.guards_stay();
        !self.inputs.iter().zip([input.sheet, input.text, input.units]).all(|(l, b)| same(l, b))
    }
}
