//! The Rust of cooklang/, edited by build.rs, and what stands in for its own src/lib.rs.
#![allow(dead_code, unused, unexpected_cfgs, clippy::all)]
extern crate derives as serde;
extern crate derives as strum;
extern crate derives as thiserror;
extern crate derives as tracing;
extern crate standins as bitflags;
extern crate standins as serde_yaml;
extern crate standins as unicase;
extern crate standins as unicode16;

include!(concat!(env!("OUT_DIR"), "/cooklang.rs"));

pub use analysis::ParseOptions;
pub use convert::Converter;
pub use model::Recipe;
pub use span::Span;

bitflags::bitflags! {
    #[derive(Debug, Clone, Copy, PartialEq, Eq)]
    pub struct Extensions: u32 {
        const MODES = 1;
        const INLINE_QUANTITIES = 2;
        const ADVANCED_UNITS = 4;
    }
}

pub fn span(start: usize, end: usize) -> Span {
    Span::new(start, end)
}

pub fn parser_finding(error: bool, number: u32) -> error::SourceDiag {
    let severity = if error { error::Severity::Error } else { error::Severity::Warning };
    error::SourceDiag::unlabeled(number.to_string(), severity, error::Stage::Parse)
}

/// What the pass has pushed before each event, and the spellings of the inline quantities.
pub mod watch {
    use crate::analysis::DefineMode;
    use crate::model::{Content, Recipe, Section};
    use std::cell::{Cell, RefCell};

    #[derive(Debug, Clone, Copy, PartialEq)]
    pub enum Mode {
        All,
        Components,
        Steps,
        Text,
    }

    #[derive(Debug, Clone, Copy)]
    pub struct Seen {
        pub mode: Mode,
        pub ingredients: usize,
        pub cookware: usize,
        pub timers: usize,
        pub sections: usize,
        pub blocks: usize,
        pub items: usize,
        pub inline: usize,
        pub findings: usize,
    }

    thread_local! {
        static OFF: Cell<bool> = const { Cell::new(false) };
        static SEEN: RefCell<Vec<Seen>> = const { RefCell::new(Vec::new()) };
        static SPELLED: RefCell<Vec<String>> = const { RefCell::new(Vec::new()) };
    }

    fn items_of(s: &Section) -> usize {
        s.content.iter().map(|c| if let Content::Step(s) = c { s.items.len() } else { 0 }).sum()
    }

    pub(crate) fn see(content: &Recipe, current: &Section, mode: DefineMode, open: usize, findings: usize) {
        if OFF.get() {
            return;
        }
        let open = if mode == DefineMode::Components { 0 } else { open };
        let seen = Seen {
            mode: match mode {
                DefineMode::All => Mode::All,
                DefineMode::Components => Mode::Components,
                DefineMode::Steps => Mode::Steps,
                DefineMode::Text => Mode::Text,
            },
            ingredients: content.ingredients.len(),
            cookware: content.cookware.len(),
            timers: content.timers.len(),
            sections: content.sections.len(),
            blocks: content.sections.iter().map(|s| s.content.len()).sum::<usize>() + current.content.len(),
            items: content.sections.iter().map(items_of).sum::<usize>() + items_of(current) + open,
            inline: content.inline_quantities.len(),
            findings,
        };
        SEEN.with(|s| s.borrow_mut().push(seen));
    }

    pub(crate) fn spelled(neg: bool, number: &str) {
        let sign = if neg { "-" } else { "" };
        SPELLED.with(|s| s.borrow_mut().push(format!("{sign}{number}")));
    }

    /// From now on only the spellings are noted, where time is measured: the limits (17) are not tested then.
    pub fn off() {
        OFF.set(true);
    }

    pub fn clear() {
        SEEN.with(|s| s.borrow_mut().clear());
        SPELLED.with(|s| s.borrow_mut().clear());
    }

    pub fn take() -> (Vec<Seen>, Vec<String>) {
        (SEEN.with(|s| s.take()), SPELLED.with(|s| s.take()))
    }
}
