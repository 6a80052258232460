//! The Rust's pass on a sheet: its events, its panics told apart, the limits.
use crate::page::Page;
use crate::sheet::{self, Amount, Component, Event, Kind, Line, Refusal};
use cooklang::convert::PhysicalQuantity;
use cooklang::located::Located;
use cooklang::model::Recipe;
use cooklang::parser::{self, BlockKind, IntermediateData, IntermediateRefMode, IntermediateTargetKind, Modifiers};
use cooklang::quantity::Value;
use cooklang::text::Text;
use cooklang::watch::{self, Mode, Seen};
use cooklang::{Converter, Extensions, ParseOptions};
use std::cell::{Cell, RefCell};

/// The inputs.
pub struct Input<'a> {
    pub sheet: &'a [u8],
    pub text: &'a [u8],
    pub units: &'a [u8],
    pub flags: u32,
}

/// What an accepted sheet gives.
pub struct Collected<'a> {
    pub lines: Vec<Line<'a>>,
    pub text: &'a str,
    /// the recipe, unless there is an `error` line
    pub recipe: Option<Recipe>,
    /// the mode before each line, as the Rust has it
    pub modes: Vec<Mode>,
    /// the page, and how much of it stands above the findings
    pub page: Vec<u8>,
    pub above: usize,
    /// how often each code was found
    pub codes: [usize; 24],
}

// ---- the Rust's events

fn to_span(s: sheet::Span) -> cooklang::Span {
    cooklang::span(s.0, s.1)
}

fn to_text(t: &sheet::Text) -> Text<'_> {
    Text::of_sheet(&t.1, to_span(t.0))
}

struct Spellings<'a>(RefCell<Vec<&'a str>>);

impl<'a> Spellings<'a> {
    /// A number or range stands for its spelling: its value is the spelling's place in the list.
    fn value(&self, a: &'a Amount) -> Value {
        if a.kind == b't' {
            return Value::Text(a.value.clone());
        }
        let mut all = self.0.borrow_mut();
        let n = all.len() as f64;
        all.push(&a.value);
        match a.kind {
            b'n' => Value::from(n),
            _ => Value::Range { start: n.into(), end: n.into() },
        }
    }

    fn amount(&self, a: &'a Amount) -> Located<parser::Quantity<'a>> {
        let value = parser::QuantityValue {
            value: Located::new(self.value(a), to_span(a.value_span)),
            scaling_lock: a.lock.then(|| to_span(a.value_span)),
        };
        Located::new(parser::Quantity { value, unit: a.unit.as_ref().map(to_text) }, to_span(a.span))
    }

    fn modifiers(c: &Component) -> Located<Modifiers> {
        Located::new(Modifiers::from_bits_truncate(c.modifiers), to_span(c.modifiers_span))
    }

    fn event(&self, e: &'a Event) -> parser::Event<'a> {
        let kind = |k: &Kind| match k {
            Kind::Step => BlockKind::Step,
            Kind::Text => BlockKind::Text,
        };
        match e {
            Event::Meta(k, v) => parser::Event::Metadata { key: to_text(k), value: to_text(v) },
            Event::Section(n) => parser::Event::Section { name: n.as_ref().map(to_text) },
            Event::Start(k) => parser::Event::Start(kind(k)),
            Event::End(k) => parser::Event::End(kind(k)),
            Event::Text(t) => parser::Event::Text(to_text(t)),
            Event::Ingredient(c, i) => parser::Event::Ingredient(Located::new(
                parser::Ingredient {
                    modifiers: Self::modifiers(c),
                    intermediate_data: i.as_ref().map(|i| {
                        Located::new(
                            IntermediateData {
                                ref_mode: if i.relative { IntermediateRefMode::Relative } else { IntermediateRefMode::Number },
                                target_kind: if i.section { IntermediateTargetKind::Section } else { IntermediateTargetKind::Step },
                                val: i.value,
                            },
                            to_span(i.span),
                        )
                    }),
                    name: to_text(&c.name),
                    alias: c.alias.as_ref().map(to_text),
                    quantity: c.amount.as_ref().map(|a| self.amount(a)),
                    note: c.note.as_ref().map(to_text),
                },
                to_span(c.span),
            )),
            Event::Cookware(c) => parser::Event::Cookware(Located::new(
                parser::Cookware {
                    modifiers: Self::modifiers(c),
                    name: to_text(&c.name),
                    alias: c.alias.as_ref().map(to_text),
                    quantity: c.amount.as_ref().map(|a| self.amount(a)),
                    note: c.note.as_ref().map(to_text),
                },
                to_span(c.span),
            )),
            Event::Timer(s, n, a) => parser::Event::Timer(Located::new(
                parser::Timer { name: n.as_ref().map(to_text), quantity: a.as_ref().map(|a| self.amount(a)) },
                to_span(*s),
            )),
            Event::Error(n) => parser::Event::Error(cooklang::parser_finding(true, *n)),
            Event::Warning(n) => parser::Event::Warning(cooklang::parser_finding(false, *n)),
        }
    }
}

// ---- panics

thread_local!(static PANIC: RefCell<String> = const { RefCell::new(String::new()) });

/// Keeps the message of a panic instead of printing it.
pub fn quiet_panics() {
    std::panic::set_hook(Box::new(|info| {
        let m = info.payload();
        let m = m.downcast_ref::<String>().cloned().or(m.downcast_ref::<&str>().map(|s| s.to_string()));
        let m = format!("{} at {:?}", m.unwrap_or_default(), info.location());
        PANIC.with(|p| *p.borrow_mut() = m);
    }));
}

pub fn last_panic() -> String {
    PANIC.with(|p| p.borrow().clone())
}

/// The number of a panic of the pass, by its message.
fn number_of_panic(m: &str) -> Option<u32> {
    [
        ("End event without Start", 12),
        ("Content outside block", 12),
        ("Non text event in text block outside define mode text", 14),
        ("assertion failed: kind == BlockKind::Text || self.define_mode == DefineMode::Text", 13),
        ("assertion `left == right` failed\n  left: Text\n right: Step", 13),
        ("assertion failed: new_igr.modifiers().contains(Modifiers::REF)", 15),
        ("assertion failed: !inter_data.val.is_negative()", 16),
        ("Reference to reference", 18),
        ("assertion failed: !referenced.modifiers().contains(Modifiers::REF)", 18),
        ("assertion failed: definition.relation.is_definition()", 18),
    ]
    .iter()
    .find(|p| m.contains(p.0))
    .map(|p| p.1)
}

// ---- limits

fn is_over(s: &Seen) -> bool {
    s.ingredients > 512
        || s.cookware > 256
        || s.timers > 256
        || s.sections > 128
        || s.blocks > 1024
        || s.items > 4096
        || s.inline > 512
        || s.findings > 1024
}

/// 11: the first `start`, `section` or `meta` in an open block before the first `error`; and whether a block is open at the end.
fn open_blocks(lines: &[Line]) -> (Option<usize>, bool) {
    let mut open = false;
    for (i, l) in lines.iter().enumerate() {
        match l.event {
            Event::Start(_) if !open => open = true,
            Event::Start(_) | Event::Section(_) | Event::Meta(..) if open => return (Some(i + 1), true),
            Event::End(_) => open = false,
            Event::Error(_) => return (None, open),
            _ => {}
        }
    }
    (None, open)
}

// ---- the pass

/// The Rust's pass, by itself so that it can be counted by itself.
#[inline(never)]
fn parse_events<'a>(
    events: impl Iterator<Item = parser::Event<'a>>,
    text: &'a str,
    extensions: Extensions,
    converter: &Converter,
) -> cooklang::analysis::AnalysisResult {
    let options = ParseOptions {
        recipe_ref_check: None,
        metadata_validator: Some(Box::new(|_, _, o| {
            o.run_std_checks(false);
            cooklang::analysis::CheckResult::Ok
        })),
    };
    cooklang::analysis::parse_events(events, text, extensions, converter, options)
}

pub fn collect<'a>(input: &Input<'a>) -> Result<Collected<'a>, Refusal> {
    if input.sheet.len() > 65536 {
        return Err(Refusal(1, 0));
    }
    if input.text.len() > 65535 {
        return Err(Refusal(2, 0));
    }
    if input.units.len() > 16384 {
        return Err(Refusal(3, 0));
    }
    let Ok(text) = std::str::from_utf8(input.text) else {
        return Err(Refusal(4, 0));
    };
    let units = sheet::read_units(input.units)?;
    if input.flags > 7 {
        return Err(Refusal(7, 0));
    }
    let lines = sheet::read_sheet(input.sheet, text)?;

    let units: Vec<_> = units
        .into_iter()
        .map(|(n, k)| {
            let k = match k {
                0 => PhysicalQuantity::Volume,
                1 => PhysicalQuantity::Mass,
                2 => PhysicalQuantity::Length,
                3 => PhysicalQuantity::Temperature,
                _ => PhysicalQuantity::Time,
            };
            (n, k)
        })
        .collect();
    let converter = Converter::of_list(&units);
    let spellings = Spellings(RefCell::new(Vec::new()));
    let events: Vec<_> = lines.iter().map(|l| spellings.event(&l.event)).collect();
    let handed = Cell::new(0usize);
    watch::clear();
    let events = events.into_iter().inspect(|_| handed.set(handed.get() + 1));
    let extensions = Extensions::from_bits_truncate(input.flags);
    let result = std::panic::catch_unwind(std::panic::AssertUnwindSafe(|| parse_events(events, text, extensions, &converter)));
    let (seen, inline) = watch::take();

    // the first line at which anything is refused; the lowest number there
    let mut refusals: Vec<(usize, u32)> = Vec::new();
    let (at11, open) = open_blocks(&lines);
    refusals.extend(at11.map(|l| (l, 11)));
    // seen[k] is the state after k events
    refusals.extend(seen.iter().position(is_over).map(|k| (k, 17)));
    let result = match result {
        Ok(r) => Some(r),
        Err(_) => {
            let m = last_panic();
            let n = number_of_panic(&m).unwrap_or_else(|| panic!("not told apart: {m}"));
            refusals.push((handed.get(), n));
            None
        }
    };
    if let Some(&(line, n)) = refusals.iter().min() {
        return Err(Refusal(n, line));
    }
    let (recipe, report) = result.unwrap().into_tuple();
    if let Some(r) = &recipe {
        if open {
            return Err(Refusal(19, 0));
        }
        let blocks = r.sections.iter().map(|s| s.content.len()).sum::<usize>();
        if r.sections.len() > 128 || blocks > 1024 || report.iter().count() > 1024 {
            return Err(Refusal(17, 0));
        }
    }

    let spelled = spellings.0.into_inner();
    let mut page = Page { out: Vec::new(), spellings: &spelled, inline: &inline };
    page.line(&["recipe", if recipe.is_some() { "yes" } else { "no" }]);
    if let Some(r) = &recipe {
        page.recipe(r);
    }
    let above = page.out.len();
    let mut codes = [0; 24];
    for d in report.iter() {
        codes[page.finding(d)] += 1;
    }
    let out = page.out;
    debug_assert!(!out.contains(&b'\r'));
    let mut modes: Vec<_> = seen.iter().map(|s| s.mode).collect();
    modes.truncate(lines.len());
    Ok(Collected { lines, text, recipe, modes, page: out, above, codes })
}
