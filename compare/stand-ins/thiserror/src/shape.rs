//! What the derive needs to know of a struct or an enum, read from its tokens.

use proc_macro::{Delimiter, Group, TokenStream, TokenTree};

pub struct Item {
    pub name: String,
    /// One for each variant of an enum; the struct itself otherwise.
    pub variants: Vec<Variant>,
}

pub struct Variant {
    /// As a pattern names it, `Self` or `Self::Name`.
    pub path: String,
    pub message: Message,
    pub fields: Fields,
}

pub enum Message {
    Format(String),
    Transparent,
}

pub enum Fields {
    None,
    Named(Vec<String>),
    One { of: String, from: bool },
}

impl Item {
    pub fn read(input: TokenStream) -> Self {
        let tokens: Vec<TokenTree> = input.into_iter().collect();
        let at = tokens
            .iter()
            .position(|token| is_word(token, "struct") || is_word(token, "enum"))
            .expect("a struct or an enum");
        let name = tokens[at + 1].to_string();
        let TokenTree::Group(body) = &tokens[at + 2] else {
            panic!("{name} has no body in braces");
        };
        let variants = if is_word(&tokens[at], "struct") {
            vec![Variant {
                path: "Self".to_string(),
                message: message(&tokens[..at]).expect("an error attribute"),
                fields: fields(Some(body)),
            }]
        } else {
            parts(body.stream())
                .iter()
                .map(|part| variant(part))
                .collect()
        };
        Self { name, variants }
    }
}

fn variant(tokens: &[TokenTree]) -> Variant {
    let at = tokens
        .iter()
        .position(|token| matches!(token, TokenTree::Ident(_)))
        .expect("a variant has a name");
    let body = match tokens.get(at + 1) {
        Some(TokenTree::Group(group)) => Some(group),
        _ => None,
    };
    Variant {
        path: format!("Self::{}", tokens[at]),
        message: message(&tokens[..at]).expect("an error attribute"),
        fields: fields(body),
    }
}

/// The text of `#[error(..)]` among the attributes.
fn message(attributes: &[TokenTree]) -> Option<Message> {
    attributes.iter().find_map(|token| {
        let TokenTree::Group(brackets) = token else {
            return None;
        };
        let inner: Vec<TokenTree> = brackets.stream().into_iter().collect();
        match inner.as_slice() {
            [word, TokenTree::Group(text)] if is_word(word, "error") => {
                let text = text.stream().to_string();
                Some(if text == "transparent" {
                    Message::Transparent
                } else {
                    Message::Format(text)
                })
            }
            _ => None,
        }
    })
}

fn fields(body: Option<&Group>) -> Fields {
    let Some(body) = body else {
        return Fields::None;
    };
    let parts = parts(body.stream());
    if body.delimiter() == Delimiter::Brace {
        return Fields::Named(parts.iter().map(|part| field_name(part)).collect());
    }
    let [only] = parts.as_slice() else {
        panic!("a tuple variant has one field");
    };
    let from = matches!(&only[0], TokenTree::Punct(mark) if mark.as_char() == '#');
    let of = only[if from { 2 } else { 0 }..].iter();
    Fields::One {
        of: of.map(|token| token.to_string()).collect(),
        from,
    }
}

/// The word before the colon.
fn field_name(tokens: &[TokenTree]) -> String {
    let colon = tokens
        .iter()
        .position(|token| matches!(token, TokenTree::Punct(mark) if mark.as_char() == ':'))
        .expect("a field has a type");
    tokens[colon - 1].to_string()
}

/// What stands between commas.
fn parts(tokens: TokenStream) -> Vec<Vec<TokenTree>> {
    let tokens: Vec<TokenTree> = tokens.into_iter().collect();
    tokens
        .split(|token| matches!(token, TokenTree::Punct(mark) if mark.as_char() == ','))
        .filter(|part| !part.is_empty())
        .map(<[TokenTree]>::to_vec)
        .collect()
}

fn is_word(token: &TokenTree, word: &str) -> bool {
    matches!(token, TokenTree::Ident(name) if name.to_string() == word)
}
