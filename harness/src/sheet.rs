//! The event sheet, the unit list and the refusals 1 to 10, from document 01 (not from crates/).

/// A refusal: number and line.
#[derive(Debug, Clone, Copy, PartialEq, Eq)]
pub struct Refusal(pub u32, pub usize);

pub type Span = (usize, usize);
/// span and content
pub type Text = (Span, String);

#[derive(Debug, Clone, Copy, PartialEq)]
pub enum Kind {
    Step,
    Text,
}

#[derive(Debug, Clone)]
pub struct Amount {
    pub span: Span,
    /// `n`, `r` or `t`
    pub kind: u8,
    pub value_span: Span,
    pub value: String,
    pub lock: bool,
    pub unit: Option<Text>,
}

#[derive(Debug, Clone)]
pub struct Component {
    pub span: Span,
    pub name: Text,
    pub alias: Option<Text>,
    pub amount: Option<Amount>,
    pub note: Option<Text>,
    /// bits in the order `@&-?+`
    pub modifiers: u16,
    pub modifiers_span: Span,
    /// which field of the line the modifiers are
    pub modifiers_field: usize,
}

#[derive(Debug, Clone)]
pub struct Intermediate {
    pub relative: bool,
    pub section: bool,
    pub value: i16,
    pub span: Span,
}

#[derive(Debug, Clone)]
pub enum Event {
    Meta(Text, Text),
    Section(Option<Text>),
    Start(Kind),
    End(Kind),
    Text(Text),
    Ingredient(Component, Option<Intermediate>),
    Cookware(Component),
    Timer(Span, Option<Text>, Option<Amount>),
    Error(u32),
    Warning(u32),
}

pub struct Line<'a> {
    /// without its LF
    pub bytes: &'a [u8],
    pub event: Event,
}

/// Reads the fields of one line, noting every span.
struct Reader<'a> {
    fields: Vec<&'a str>,
    at: usize,
    spans: Vec<Span>,
}

type Read<T> = Option<T>;

fn number(s: &str, most: u64) -> Read<u64> {
    let b = s.as_bytes();
    if b.is_empty() || b.len() > 9 || !b.iter().all(u8::is_ascii_digit) || (b[0] == b'0' && b.len() > 1) {
        return None;
    }
    let n = s.parse::<u64>().ok()?;
    (n <= most).then_some(n)
}

/// A content; a bare CR is ill-formed, as is a backslash that stands for nothing.
pub fn unescape(s: &str) -> Read<String> {
    if !s.bytes().any(|b| matches!(b, b'\\' | b'\r')) {
        return Some(s.to_string());
    }
    let mut out = String::new();
    let mut cs = s.chars();
    while let Some(c) = cs.next() {
        out.push(match c {
            '\\' => match cs.next()? {
                '\\' => '\\',
                't' => '\t',
                'n' => '\n',
                'r' => '\r',
                _ => return None,
            },
            '\r' => return None,
            c => c,
        });
    }
    Some(out)
}

impl<'a> Reader<'a> {
    fn field(&mut self) -> Read<&'a str> {
        let f = self.fields.get(self.at).copied()?;
        self.at += 1;
        Some(f)
    }

    fn span(&mut self) -> Read<Span> {
        let a = number(self.field()?, 65535)? as usize;
        let b = number(self.field()?, 65535)? as usize;
        self.spans.push((a, b));
        Some((a, b))
    }

    fn content(&mut self) -> Read<String> {
        unescape(self.field()?)
    }

    fn text(&mut self) -> Read<Text> {
        Some((self.span()?, self.content()?))
    }

    /// `-` or the thing itself
    fn opt<T>(&mut self, thing: impl FnOnce(&mut Self) -> Read<T>) -> Read<Option<T>> {
        if *self.fields.get(self.at)? == "-" {
            self.at += 1;
            return Some(None);
        }
        thing(self).map(Some)
    }

    fn amount(&mut self) -> Read<Amount> {
        let span = self.span()?;
        let kind = match self.field()? {
            "n" => b'n',
            "r" => b'r',
            "t" => b't',
            _ => return None,
        };
        let value_span = self.span()?;
        let value = self.content()?;
        let lock = match self.field()? {
            "l" => true,
            "-" => false,
            _ => return None,
        };
        let unit = self.opt(Self::text)?;
        Some(Amount { span, kind, value_span, value, lock, unit })
    }

    fn modifiers(&mut self) -> Read<u16> {
        let f = self.field()?;
        if f == "." {
            return Some(0);
        }
        let mut bits = 0;
        let mut from = 0;
        for c in f.chars() {
            let i = "@&-?+".find(c)?;
            if i < from {
                return None;
            }
            from = i + 1;
            bits |= 1 << i;
        }
        (bits != 0).then_some(bits)
    }

    fn component(&mut self) -> Read<Component> {
        let span = self.span()?;
        let name = self.text()?;
        let alias = self.opt(Self::text)?;
        let amount = self.opt(Self::amount)?;
        let note = self.opt(Self::text)?;
        let modifiers_field = self.at;
        let modifiers = self.modifiers()?;
        let modifiers_span = self.span()?;
        Some(Component { span, name, alias, amount, note, modifiers, modifiers_span, modifiers_field })
    }

    fn intermediate(&mut self) -> Read<Intermediate> {
        let relative = match self.field()? {
            "n" => false,
            "r" => true,
            _ => return None,
        };
        let section = match self.field()? {
            "step" => false,
            "section" => true,
            _ => return None,
        };
        let f = self.field()?;
        let value = match f.strip_prefix('-') {
            None => number(f, 32767)? as i32,
            Some(d) => match number(d, 32768)? {
                0 => return None,
                n => -(n as i32),
            },
        } as i16;
        let span = self.span()?;
        Some(Intermediate { relative, section, value, span })
    }

    fn kind(&mut self) -> Read<Kind> {
        match self.field()? {
            "step" => Some(Kind::Step),
            "text" => Some(Kind::Text),
            _ => None,
        }
    }

    fn event(&mut self) -> Read<Event> {
        let e = match self.field()? {
            "meta" => Event::Meta(self.text()?, self.text()?),
            "section" => Event::Section(self.opt(Self::text)?),
            "start" => Event::Start(self.kind()?),
            "end" => Event::End(self.kind()?),
            "text" => Event::Text(self.text()?),
            "ingredient" => {
                let c = self.component()?;
                Event::Ingredient(c, self.opt(Self::intermediate)?)
            }
            "cookware" => Event::Cookware(self.component()?),
            "timer" => {
                let span = self.span()?;
                let name = self.opt(Self::text)?;
                Event::Timer(span, name, self.opt(Self::amount)?)
            }
            "error" => Event::Error(number(self.field()?, 65535)? as u32),
            "warning" => Event::Warning(number(self.field()?, 65535)? as u32),
            _ => return None,
        };
        (self.at == self.fields.len()).then_some(e)
    }
}

fn read_line(bytes: &[u8]) -> Read<(Event, Vec<Span>)> {
    let s = std::str::from_utf8(bytes).ok()?;
    let mut r = Reader { fields: s.split('\t').collect(), at: 0, spans: Vec::new() };
    let e = r.event()?;
    Some((e, r.spans))
}

/// 8, 9 and 10, line by line
pub fn read_sheet<'a>(sheet: &'a [u8], text: &str) -> Result<Vec<Line<'a>>, Refusal> {
    let mut out = Vec::new();
    let mut rest = sheet;
    let mut line = 0;
    while !rest.is_empty() {
        line += 1;
        let Some(end) = rest.iter().position(|&b| b == b'\n') else {
            return Err(Refusal(8, line));
        };
        let bytes = &rest[..end];
        rest = &rest[end + 1..];
        let Some((event, spans)) = read_line(bytes) else {
            return Err(Refusal(8, line));
        };
        if line > 4096 {
            return Err(Refusal(9, line));
        }
        for (a, b) in spans {
            if a > b || b > text.len() || !text.is_char_boundary(a) || !text.is_char_boundary(b) {
                return Err(Refusal(10, line));
            }
        }
        debug_assert!(!bytes.contains(&b'\r'));
        out.push(Line { bytes, event });
    }
    Ok(out)
}

/// 5 and 6
pub fn read_units(units: &[u8]) -> Result<Vec<(String, u8)>, Refusal> {
    let mut out: Vec<(String, u8)> = Vec::new();
    let mut rest = units;
    while !rest.is_empty() {
        let Some(end) = rest.iter().position(|&b| b == b'\n') else {
            return Err(Refusal(5, 0));
        };
        let Ok(line) = std::str::from_utf8(&rest[..end]) else {
            return Err(Refusal(5, 0));
        };
        rest = &rest[end + 1..];
        let fields: Vec<_> = line.split('\t').collect();
        if fields.len() != 2 || fields[0].is_empty() {
            return Err(Refusal(5, 0));
        }
        let Some(kind) = ["volume", "mass", "length", "temperature", "time"].iter().position(|k| *k == fields[1]) else {
            return Err(Refusal(5, 0));
        };
        out.push((fields[0].to_string(), kind as u8));
        if out.len() > 1024 {
            return Err(Refusal(5, 0));
        }
    }
    let mut names: Vec<_> = out.iter().map(|u| &u.0).collect();
    names.sort();
    if names.windows(2).any(|w| w[0] == w[1]) {
        return Err(Refusal(6, 0));
    }
    Ok(out)
}

/// "`flags` (one digit; other content is read as 8)"
pub fn read_flags(flags: &[u8]) -> u32 {
    match flags {
        [d] if d.is_ascii_digit() => (d - b'0') as u32,
        _ => 8,
    }
}
