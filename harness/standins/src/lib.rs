//! Stand-ins for serde_yaml's ordered map, unicase, bitflags, and Unicode 16.0.0 behind the calls of `char` and `str`.
use std::collections::hash_map::{DefaultHasher, HashMap};
use std::hash::BuildHasherDefault;

include!(concat!(env!("OUT_DIR"), "/tables.rs"));

// ---- Unicode 16.0.0, by the tables of data/unicode

fn member(table: &[(u32, u32)], c: char) -> bool {
    let c = c as u32;
    let i = table.partition_point(|r| r.1 < c);
    i < table.len() && table[i].0 <= c
}

/// The folding of a string, character by character.
fn folded(s: &str) -> impl Iterator<Item = u32> + '_ {
    s.chars().flat_map(|c| {
        let (itself, folding): (_, &[u32]) = match c as u32 {
            a if a < 0x80 => (Some(c.to_ascii_lowercase() as u32), &[]),
            n => match FOLDING.binary_search_by_key(&n, |r| r.0) {
                Ok(i) => (None, FOLDING[i].1),
                Err(_) => (Some(n), &[]),
            },
        };
        itself.into_iter().chain(folding.iter().copied())
    })
}

pub fn fold(s: &str) -> Vec<u32> {
    folded(s).collect()
}

pub trait Char16: Copy {
    fn is_whitespace16(self) -> bool;
    fn is_alphabetic16(self) -> bool;
    fn is_alphanumeric16(self) -> bool;
}

impl Char16 for char {
    fn is_whitespace16(self) -> bool {
        member(WHITE_SPACE, self)
    }
    fn is_alphabetic16(self) -> bool {
        member(ALPHABETIC, self)
    }
    fn is_alphanumeric16(self) -> bool {
        member(ALPHABETIC, self) || member(NUMERIC, self)
    }
}

pub trait Str16 {
    fn trim16(&self) -> &str;
}

impl Str16 for str {
    fn trim16(&self) -> &str {
        self.trim_matches(|c: char| c.is_whitespace16())
    }
}

// ---- unicase

/// As in unicase, names of ASCII are told at the start, and nothing is stored for a comparison.
pub struct UniCase<S> {
    name: S,
    ascii: bool,
}

impl<S: AsRef<str>> UniCase<S> {
    pub fn new(name: S) -> Self {
        let ascii = name.as_ref().is_ascii();
        UniCase { name, ascii }
    }
}

impl<S: AsRef<str>, T: AsRef<str>> PartialEq<UniCase<T>> for UniCase<S> {
    fn eq(&self, other: &UniCase<T>) -> bool {
        let (a, b) = (self.name.as_ref(), other.name.as_ref());
        if self.ascii && other.ascii {
            return a.eq_ignore_ascii_case(b);
        }
        folded(a).eq(folded(b))
    }
}

// ---- serde_yaml

#[derive(Debug, Clone, PartialEq)]
pub enum Value {
    String(String),
}

impl Value {
    pub fn as_str(&self) -> &str {
        let Value::String(s) = self;
        s
    }
}

/// An insert of a key that is there keeps its place and takes the new value. As there, keys are found by their hash.
#[derive(Debug, Clone, PartialEq, Default)]
pub struct Mapping {
    entries: Vec<(Value, Value)>,
    places: HashMap<String, usize, BuildHasherDefault<DefaultHasher>>,
}

impl Mapping {
    pub fn insert(&mut self, key: Value, value: Value) -> Option<Value> {
        match self.places.get(key.as_str()) {
            Some(&i) => Some(std::mem::replace(&mut self.entries[i].1, value)),
            None => {
                self.places.insert(key.as_str().to_string(), self.entries.len());
                self.entries.push((key, value));
                None
            }
        }
    }
    pub fn get(&self, key: &str) -> Option<&Value> {
        self.places.get(key).map(|&i| &self.entries[i].1)
    }
    pub fn iter(&self) -> impl Iterator<Item = &(Value, Value)> {
        self.entries.iter()
    }
}

/// the YAML hint is left out
pub fn to_string(_: &Mapping) -> Result<String, ()> {
    Err(())
}

// ---- bitflags

#[macro_export]
macro_rules! bitflags {
    ($(#[$o:meta])* pub struct $n:ident: $t:ty { $($(#[$i:meta])* const $c:ident = $e:expr;)* }) => {
        $(#[$o])*
        pub struct $n($t);
        impl $n {
            $($(#[$i])* pub const $c: Self = Self($e);)*
            pub const fn empty() -> Self { Self(0) }
            pub const fn bits(&self) -> $t { self.0 }
            pub const fn all() -> Self { Self(0 $(| $e)*) }
            pub const fn from_bits_truncate(b: $t) -> Self { Self(b & Self::all().0) }
            pub const fn is_empty(&self) -> bool { self.0 == 0 }
            pub const fn contains(&self, o: Self) -> bool { self.0 & o.0 == o.0 }
            pub const fn intersects(&self, o: Self) -> bool { self.0 & o.0 != 0 }
            pub fn iter_names(&self) -> impl Iterator<Item = (&'static str, Self)> {
                let s = *self;
                [$((stringify!($c), Self::$c)),*].into_iter().filter(move |p| s.contains(p.1))
            }
        }
        impl std::ops::BitOr for $n { type Output = Self; fn bitor(self, o: Self) -> Self { Self(self.0 | o.0) } }
        impl std::ops::BitAnd for $n { type Output = Self; fn bitand(self, o: Self) -> Self { Self(self.0 & o.0) } }
        impl std::ops::BitOrAssign for $n { fn bitor_assign(&mut self, o: Self) { self.0 |= o.0 } }
        impl std::ops::Not for $n { type Output = Self; fn not(self) -> Self { Self(!self.0 & Self::all().0) } }
    };
}
