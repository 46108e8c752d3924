//! Stand-in for `thiserror`: `Display` from `#[error("..")]` or `#[error(transparent)]`, and `From`
//! for a field marked `#[from]`, for the shapes that error.rs has.

mod shape;

use proc_macro::TokenStream;
use shape::{Fields, Item, Message, Variant};

#[proc_macro_derive(Error, attributes(error, from))]
pub fn derive_error(input: TokenStream) -> TokenStream {
    let item = Item::read(input);
    let name = &item.name;
    let arms: String = item.variants.iter().map(arm).collect();
    let conversions: String = item
        .variants
        .iter()
        .filter_map(|variant| conversion(name, variant))
        .collect();
    format!(
        "impl ::std::fmt::Display for {name} {{
            #[allow(unused_variables)]
            fn fmt(&self, f: &mut ::std::fmt::Formatter<'_>) -> ::std::fmt::Result {{
                match self {{ {arms} }}
            }}
        }}
        impl ::std::error::Error for {name} {{}}
        {conversions}"
    )
    .parse()
    .expect("the derived code is Rust")
}

fn arm(variant: &Variant) -> String {
    let pattern = match &variant.fields {
        Fields::None => variant.path.clone(),
        Fields::Named(names) => format!("{} {{ {} }}", variant.path, names.join(", ")),
        Fields::One { .. } => format!("{}(inner)", variant.path),
    };
    match &variant.message {
        Message::Format(text) => format!("{pattern} => write!(f, {text}),"),
        Message::Transparent => format!("{pattern} => ::std::fmt::Display::fmt(inner, f),"),
    }
}

fn conversion(name: &str, variant: &Variant) -> Option<String> {
    let Fields::One { of, from: true } = &variant.fields else {
        return None;
    };
    let path = &variant.path;
    Some(format!(
        "impl From<{of}> for {name} {{ fn from(inner: {of}) -> Self {{ {path}(inner) }} }}"
    ))
}
