//! The plain form, from document 01 and the Rust's own state and recipe.
use crate::page::{escape, modifier_letters};
use crate::pass::{collect, Collected, Input};
use crate::sheet::{Component, Event, Kind, Refusal};
use cooklang::model::{IngredientReferenceTarget, Recipe};
use cooklang::parser::Modifiers;
use cooklang::text::Text;
use cooklang::watch::Mode;

const REF: u16 = 2;

/// "*Mode line*: a `meta` line whose key, as the pass trims it, is one of the three above"
fn is_mode_key(key: &str) -> bool {
    let key = Text::of_sheet(key, cooklang::span(0, 0)).text_trimmed();
    ["[mode]", "[define]", "[duplicate]"].contains(&key.as_ref())
}

/// What the entry is in the Rust's recipe: its target, name and REF, and those of the entries before it.
struct Table {
    names: Vec<Vec<u32>>,
    is_ref: Vec<bool>,
    to: Vec<Option<usize>>,
    next: usize,
}

impl Table {
    fn ingredients(r: &Recipe) -> Table {
        let all = &r.ingredients;
        Table {
            names: all.iter().map(|e| standins::fold(&e.name)).collect(),
            is_ref: all.iter().map(|e| e.modifiers().contains(Modifiers::REF)).collect(),
            to: all
                .iter()
                .map(|e| e.relation.references_to().filter(|t| t.1 == IngredientReferenceTarget::Ingredient).map(|t| t.0))
                .collect(),
            next: 0,
        }
    }

    fn cookware(r: &Recipe) -> Table {
        let all = &r.cookware;
        Table {
            names: all.iter().map(|e| standins::fold(&e.name)).collect(),
            is_ref: all.iter().map(|e| e.modifiers().contains(Modifiers::REF)).collect(),
            to: all.iter().map(|e| e.relation.references_to()).collect(),
            next: 0,
        }
    }

    /// the next entry: its target if it is an implicit reference, and whether that is the last non-REF of its name
    fn implicit(&mut self, c: &Component) -> Option<bool> {
        let i = self.next;
        self.next += 1;
        if c.modifiers & REF != 0 {
            return None;
        }
        let to = self.to[i]?;
        let last = (0..i).rev().find(|&j| !self.is_ref[j] && self.names[j] == self.names[i]);
        Some(last == Some(to))
    }
}

fn with_ref(line: &[u8], c: &Component) -> Vec<u8> {
    let letters = modifier_letters(c.modifiers | REF);
    let mut fields: Vec<&[u8]> = line.split(|&b| b == b'\t').collect();
    fields[c.modifiers_field] = letters.as_bytes();
    fields.join(&b'\t')
}

/// The form, or 21, 22, 23.
fn form_of(c: &Collected, flags: u32) -> Result<Vec<u8>, Refusal> {
    if let Some(i) = c.lines.iter().position(|l| matches!(l.event, Event::Error(_))) {
        return Err(Refusal(21, i + 1));
    }
    let recipe = c.recipe.as_ref().unwrap();
    let mut ingredients = Table::ingredients(recipe);
    let mut cookware = Table::cookware(recipe);
    let mut in_step = false;
    let mut out: Vec<u8> = Vec::new();
    for (i, l) in c.lines.iter().enumerate() {
        let mode = c.modes[i];
        let listed = mode == Mode::Components && in_step;
        let keep = |out: &mut Vec<u8>, bytes: &[u8]| {
            out.extend_from_slice(bytes);
            out.push(b'\n');
        };
        let source = |span: (usize, usize)| format!("text\t{}\t{}\t{}", span.0, span.1, escape(&c.text[span.0..span.1]));
        match &l.event {
            Event::Meta((_, key), _) => {
                if !(flags & 1 == 1 && is_mode_key(key)) {
                    keep(&mut out, l.bytes);
                }
            }
            Event::Start(kind) => {
                in_step = *kind == Kind::Step && mode != Mode::Text;
                match mode {
                    Mode::Text => keep(&mut out, b"start\ttext"),
                    Mode::Components if in_step => {}
                    _ => keep(&mut out, l.bytes),
                }
            }
            Event::End(_) => {
                match mode {
                    Mode::Text => keep(&mut out, b"end\ttext"),
                    _ if listed => {}
                    _ => keep(&mut out, l.bytes),
                }
                in_step = false;
            }
            Event::Text(_) => {
                if !listed {
                    keep(&mut out, l.bytes);
                }
            }
            Event::Ingredient(..) | Event::Cookware(_) | Event::Timer(..) if listed => return Err(Refusal(22, i + 1)),
            Event::Ingredient(e, _) if mode == Mode::Text => keep(&mut out, source(e.span).as_bytes()),
            Event::Cookware(e) if mode == Mode::Text => keep(&mut out, source(e.span).as_bytes()),
            Event::Timer(span, ..) if mode == Mode::Text => keep(&mut out, source(*span).as_bytes()),
            Event::Ingredient(e, _) | Event::Cookware(e) => {
                let table = if matches!(l.event, Event::Cookware(_)) { &mut cookware } else { &mut ingredients };
                match table.implicit(e) {
                    None => keep(&mut out, l.bytes),
                    Some(true) => keep(&mut out, &with_ref(l.bytes, e)),
                    Some(false) => return Err(Refusal(23, i + 1)),
                }
            }
            Event::Section(_) | Event::Timer(..) | Event::Warning(_) => keep(&mut out, l.bytes),
            Event::Error(_) => unreachable!(),
        }
    }
    Ok(out)
}

/// A form that is handed out, and its own page with so many findings.
#[cfg_attr(not(feature = "library"), allow(dead_code))]
pub struct Formed {
    pub form: Vec<u8>,
    pub page: Vec<u8>,
    pub findings: usize,
}

/// The plain form of what was collected, or its refusal, with room enough. The claims about the form that can be seen by
/// running are asserted.
pub fn plain_form_of(input: &Input, c: &Collected) -> Result<Formed, Refusal> {
    let form = form_of(c, input.flags)?;
    debug_assert!(!form.contains(&b'\r'));
    let again = Input { sheet: &form, text: input.text, units: input.units, flags: input.flags };
    if form.len() > 65536 {
        return Err(Refusal(24, 0));
    }
    let (page, findings) = match collect(&again) {
        Err(Refusal(17, _)) => return Err(Refusal(24, 0)),
        Err(r) => panic!("the form is refused: {r:?}"),
        Ok(f) => {
            assert!(f.recipe.is_some(), "the form yields no recipe");
            assert_eq!(f.page[..f.above], c.page[..c.above], "the form yields another recipe");
            assert!(form_of(&f, input.flags) == Ok(form.clone()), "the form of the form is another");
            (f.page, f.codes.iter().sum())
        }
    };
    Ok(Formed { form, page, findings })
}

/// The plain form or its refusal, with room enough.
pub fn plain_form(input: &Input) -> Result<Vec<u8>, Refusal> {
    plain_form_of(input, &collect(input)?).map(|f| f.form)
}
