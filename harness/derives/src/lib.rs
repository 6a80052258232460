//! Stand-ins for the derives and attributes of serde, thiserror, strum and tracing.
use proc_macro::{TokenStream, TokenTree};

/// serde: nothing is written or read by serde here
#[proc_macro_derive(Serialize, attributes(serde))]
pub fn serialize(_: TokenStream) -> TokenStream {
    TokenStream::new()
}

/// serde: as above
#[proc_macro_derive(Deserialize, attributes(serde))]
pub fn deserialize(_: TokenStream) -> TokenStream {
    TokenStream::new()
}

/// tracing: the function as it is
#[proc_macro_attribute]
pub fn instrument(_: TokenStream, item: TokenStream) -> TokenStream {
    item
}

fn name_of(item: TokenStream) -> String {
    let mut next = false;
    for t in item {
        if let TokenTree::Ident(i) = t {
            let s = i.to_string();
            if next {
                return s;
            }
            next = s == "enum" || s == "struct";
        }
    }
    panic!("no name")
}

/// thiserror: an error whose text is its Debug form (no page shows it)
#[proc_macro_derive(Error, attributes(error, from))]
pub fn error(item: TokenStream) -> TokenStream {
    let n = name_of(item);
    format!(
        "impl ::std::fmt::Display for {n} {{ fn fmt(&self, f: &mut ::std::fmt::Formatter<'_>) -> ::std::fmt::Result {{ ::std::fmt::Debug::fmt(self, f) }} }}
         impl ::std::error::Error for {n} {{}}"
    )
    .parse()
    .unwrap()
}

/// strum: the Debug form (no page shows it)
#[proc_macro_derive(Display, attributes(strum))]
pub fn display(item: TokenStream) -> TokenStream {
    let n = name_of(item);
    format!("impl ::std::fmt::Display for {n} {{ fn fmt(&self, f: &mut ::std::fmt::Formatter<'_>) -> ::std::fmt::Result {{ ::std::fmt::Debug::fmt(self, f) }} }}")
        .parse()
        .unwrap()
}

/// strum: not used
#[proc_macro_derive(EnumString, attributes(strum))]
pub fn enum_string(_: TokenStream) -> TokenStream {
    TokenStream::new()
}
