//! The recipe page, from the Rust's recipe and report.
use cooklang::error::{Severity, SourceDiag, Stage};
use cooklang::model::*;
use cooklang::quantity::{IncompatibleUnits, Quantity, Value};

pub fn escape(s: &str) -> String {
    if !s.bytes().any(|b| matches!(b, b'\\' | b'\t' | b'\n' | b'\r')) {
        return s.to_string();
    }
    s.replace('\\', "\\\\").replace('\t', "\\t").replace('\n', "\\n").replace('\r', "\\r")
}

fn optional(s: Option<&str>) -> String {
    match s {
        None => "-".to_string(),
        Some(s) => format!("={}", escape(s)),
    }
}

pub fn modifier_letters(bits: u16) -> String {
    if bits == 0 {
        return ".".to_string();
    }
    "@&-?+".chars().enumerate().filter(|(i, _)| bits >> i & 1 == 1).map(|p| p.1).collect()
}

pub struct Page<'a> {
    pub out: Vec<u8>,
    pub spellings: &'a [&'a str],
    pub inline: &'a [String],
}

impl Page<'_> {
    pub fn line<S: AsRef<str>>(&mut self, fields: &[S]) {
        for (i, f) in fields.iter().enumerate() {
            if i > 0 {
                self.out.push(b'\t');
            }
            self.out.extend_from_slice(f.as_ref().as_bytes());
        }
        self.out.push(b'\n');
    }

    fn quantity(&self, q: &Option<Quantity>) -> Vec<String> {
        let Some(q) = q else {
            return vec!["-".into()];
        };
        let (kind, value) = match q.value() {
            Value::Text(t) => ("t", t.as_str()),
            Value::Number(n) => ("n", self.spellings[n.value() as usize]),
            Value::Range { start, end } => {
                assert_eq!(start.value(), end.value());
                ("r", self.spellings[start.value() as usize])
            }
        };
        let s = if q.scalable() { "s" } else { "f" };
        vec![kind.into(), escape(value), optional(q.unit()), s.into()]
    }

    fn relation(r: &ComponentRelation) -> Vec<String> {
        let by: Vec<_> = r.referenced_from().iter().map(|i| i.to_string()).collect();
        let by = if by.is_empty() { "-".to_string() } else { by.join(",") };
        let place = if r.is_defined_in_step().unwrap() { "step" } else { "list" };
        vec!["def".into(), place.into(), by]
    }

    pub fn recipe(&mut self, r: &Recipe) {
        for (k, v) in r.metadata.map.iter() {
            self.line(&["meta".into(), escape(k.as_str()), escape(v.as_str())]);
        }
        for s in &r.sections {
            self.line(&["section".into(), optional(s.name.as_deref())]);
            for c in &s.content {
                match c {
                    Content::Text(t) => self.line(&["text".into(), escape(t)]),
                    Content::Step(step) => {
                        self.line(&["step".into(), step.number.to_string()]);
                        for i in &step.items {
                            let (word, what) = match i {
                                Item::Text { value } => ("text", escape(value)),
                                Item::Ingredient { index } => ("ingredient", index.to_string()),
                                Item::Cookware { index } => ("cookware", index.to_string()),
                                Item::Timer { index } => ("timer", index.to_string()),
                                Item::InlineQuantity { index } => ("inline", index.to_string()),
                            };
                            self.line(&["item", word, &what]);
                        }
                    }
                }
            }
        }
        for (i, e) in r.ingredients.iter().enumerate() {
            let mut f = vec!["ingredient".into(), i.to_string(), escape(&e.name), optional(e.alias.as_deref())];
            f.extend(self.quantity(&e.quantity));
            f.push(optional(e.note.as_deref()));
            f.push(optional(e.reference.as_ref().map(|r| r.components.join("/")).as_deref()));
            f.push(modifier_letters(e.modifiers().bits()));
            match e.relation.references_to() {
                Some((to, target)) => {
                    let t = match target {
                        IngredientReferenceTarget::Ingredient => "ingredient",
                        IngredientReferenceTarget::Step => "step",
                        IngredientReferenceTarget::Section => "section",
                    };
                    f.extend(["ref".into(), t.into(), to.to_string()]);
                }
                None => f.extend(Self::relation(&ComponentRelation::Definition {
                    referenced_from: e.relation.referenced_from().to_vec(),
                    defined_in_step: e.relation.is_defined_in_step().unwrap(),
                })),
            }
            self.line(&f);
        }
        for (i, e) in r.cookware.iter().enumerate() {
            let mut f = vec!["cookware".into(), i.to_string(), escape(&e.name), optional(e.alias.as_deref())];
            f.extend(self.quantity(&e.quantity));
            f.push(optional(e.note.as_deref()));
            f.push(modifier_letters(e.modifiers().bits()));
            match e.relation.references_to() {
                Some(to) => f.extend(["ref".into(), "cookware".into(), to.to_string()]),
                None => f.extend(Self::relation(&e.relation)),
            }
            self.line(&f);
        }
        for (i, t) in r.timers.iter().enumerate() {
            let mut f = vec!["timer".into(), i.to_string(), optional(t.name.as_deref())];
            f.extend(self.quantity(&t.quantity));
            self.line(&f);
        }
        assert_eq!(r.inline_quantities.len(), self.inline.len());
        for (i, q) in r.inline_quantities.iter().enumerate() {
            let n = self.inline[i].clone();
            // the Rust's number is the one that is spelled
            debug_assert_eq!(*q.value(), Value::from(n.parse::<f64>().unwrap()));
            self.line(&["inline".into(), i.to_string(), n, optional(q.unit())]);
        }
    }

    pub fn finding(&mut self, d: &SourceDiag) -> usize {
        let severity = if d.severity == Severity::Error { "E" } else { "W" };
        if d.stage == Stage::Parse {
            self.line(&["parse", severity, &d.message]);
            return 0;
        }
        let code = code_of(d);
        let spans: Vec<_> = d.labels.iter().map(|l| format!("{}-{}", l.0.start(), l.0.end())).collect();
        let implicit = d.hints.iter().any(|h| h == "The reference (&) is implicit");
        self.line(&["diag", severity, &code.to_string(), &spans.join(","), if implicit { "i" } else { "-" }]);
        code
    }
}

/// The code of a finding, by its message (10 and 13 by the hint, 15 to 17 by the source).
fn code_of(d: &SourceDiag) -> usize {
    let m: &str = &d.message;
    let starts = |s: &str| m.starts_with(s);
    if starts("Unsupported modifier combination with reference: ") {
        return if d.hints[0] == "New (+) can never be combined with ref (&)" { 10 } else { 13 };
    }
    if m == "Incompatible units prevent calculating total amount" {
        return match unit_source(d) {
            IncompatibleUnits::MissingUnit { .. } => 15,
            IncompatibleUnits::DifferentPhysicalQuantities { .. } => 16,
            IncompatibleUnits::UnknownDifferentUnits { .. } => 17,
        };
    }
    let by_start = [
        ("Invalid value for config key", 1),
        ("Unknown config metadata key", 2),
        ("The '>>' syntax for metadata is deprecated", 3),
        ("Ignoring text in define components mode", 4),
        ("Ignoring ingredient in text mode", 5),
        ("Ignoring cookware in text mode", 5),
        ("Ignoring timer in text mode", 5),
        ("Unnecessary scaling lock modifier", 6),
        ("Conflicting modifiers with intermediate preparation reference", 7),
        ("Invalid intermediate preparation reference: number is 0", 8),
        ("Invalid intermediate preparation reference: relative reference to self", 8),
        ("Invalid intermediate preparation reference: value out of bounds", 9),
        ("Redundant new (+) modifier", 11),
        ("Redundant reference (&) modifier", 12),
        ("Reference not found: ", 14),
        ("Note not allowed in reference", 18),
        ("Conflicting component reference quantities", 19),
        ("Text value may prevent calculating total amount", 20),
        ("Timer value is text: ", 21),
        ("Timer unit is not time: ", 22),
        ("Unknown timer unit: ", 23),
    ];
    by_start.iter().find(|p| starts(p.0)).unwrap_or_else(|| panic!("no code: {m}")).1
}

fn unit_source(d: &SourceDiag) -> &IncompatibleUnits {
    type Source = std::sync::Arc<dyn std::error::Error + Send + Sync + std::panic::RefUnwindSafe + 'static>;
    let e = std::error::Error::source(d).unwrap();
    let e = e.downcast_ref::<Source>().unwrap();
    let e: &(dyn std::error::Error + 'static) = &**e;
    e.downcast_ref::<IncompatibleUnits>().unwrap()
}
