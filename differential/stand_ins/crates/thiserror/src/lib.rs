//! Stands in for the crate `thiserror`: derives `Display`, `Error` and `From` for the three error types of
//! ion-rust's result/ that are at hand. It takes structs with named fields and one `#[error("..")]`, and enums whose
//! variants have one field each, with `#[error("{0}")]` or `#[error(transparent)]`, and `#[from]` on it.
//!
//! Left out: `source()`, generics, other shapes (they panic while compiling).
//!
//! Speed: the texts are the same `write!`s; only refusals reach them.

use proc_macro::{Delimiter, Group, TokenStream, TokenTree};
use std::iter::Peekable;

type Tokens = Peekable<proc_macro::token_stream::IntoIter>;

#[proc_macro_derive(Error, attributes(error, from))]
pub fn derive_error(item: TokenStream) -> TokenStream {
    let mut tokens = item.into_iter().peekable();
    let message = error_attribute(&mut tokens);
    skip_visibility(&mut tokens);
    let shape = ident(&mut tokens);
    let name = ident(&mut tokens);
    let body = braces(&mut tokens);
    let (display, conversions) = match shape.as_str() {
        "struct" => {
            let message = message.expect("a struct needs #[error(..)]");
            (display_struct(&message, body), String::new())
        }
        "enum" => enum_impls(&name, body),
        other => panic!("neither a struct nor an enum: {other}"),
    };
    let text = format!(
        "impl ::std::fmt::Display for {name} {{
            #[allow(unused_variables)]
            fn fmt(&self, f: &mut ::std::fmt::Formatter<'_>) -> ::std::fmt::Result {{ {display} }}
        }}
        impl ::std::error::Error for {name} {{}}
        {conversions}"
    );
    text.parse().expect("the derived code is Rust")
}

/// The body of `fmt` for a struct: its fields are in scope by name, where the message names them.
fn display_struct(message: &str, body: Group) -> String {
    let mut tokens = body.stream().into_iter().peekable();
    let mut names = Vec::new();
    while tokens.peek().is_some() {
        error_attribute(&mut tokens);
        skip_visibility(&mut tokens);
        names.push(ident(&mut tokens));
        skip_past_comma(&mut tokens);
    }
    format!("let Self {{ {} }} = self; ::std::write!(f, {message})", names.join(", "))
}

/// The body of `fmt` for an enum, and a `From` for each variant whose field has `#[from]`.
fn enum_impls(name: &str, body: Group) -> (String, String) {
    let mut tokens = body.stream().into_iter().peekable();
    let (mut arms, mut conversions) = (String::new(), String::new());
    while tokens.peek().is_some() {
        let message = error_attribute(&mut tokens).expect("a variant needs #[error(..)]");
        let variant = ident(&mut tokens);
        let field = match tokens.next() {
            Some(TokenTree::Group(group)) if group.delimiter() == Delimiter::Parenthesis => group.stream(),
            _ => panic!("the variant {variant} has no field in parentheses"),
        };
        skip_past_comma(&mut tokens);
        arms += &match message.as_str() {
            "transparent" => format!("Self::{variant}(error) => ::std::fmt::Display::fmt(error, f),"),
            text => format!("Self::{variant}(error) => ::std::write!(f, {text}, error),"),
        };
        let mut field = field.into_iter().peekable();
        if attributes(&mut field).iter().any(|attribute| attribute == "from") {
            let from = field.collect::<TokenStream>();
            conversions += &format!(
                "impl ::std::convert::From<{from}> for {name} {{
                    fn from(error: {from}) -> Self {{ Self::{variant}(error) }}
                }}"
            );
        }
    }
    (format!("match self {{ {arms} }}"), conversions)
}

/// The texts of the attributes that come next, without their brackets.
fn attributes(tokens: &mut Tokens) -> Vec<String> {
    let mut found = Vec::new();
    while matches!(tokens.peek(), Some(TokenTree::Punct(mark)) if mark.as_char() == '#') {
        tokens.next();
        match tokens.next() {
            Some(TokenTree::Group(group)) => found.push(group.stream().to_string()),
            _ => panic!("an attribute without brackets"),
        }
    }
    found
}

/// What stands between the parentheses of `#[error(..)]`, if it is among the attributes that come next.
fn error_attribute(tokens: &mut Tokens) -> Option<String> {
    attributes(tokens).iter().find_map(|attribute| {
        let inner = attribute.strip_prefix("error")?.trim();
        Some(inner.strip_prefix('(')?.strip_suffix(')')?.trim().to_string())
    })
}

fn skip_visibility(tokens: &mut Tokens) {
    if matches!(tokens.peek(), Some(TokenTree::Ident(word)) if word.to_string() == "pub") {
        tokens.next();
        if matches!(tokens.peek(), Some(TokenTree::Group(group)) if group.delimiter() == Delimiter::Parenthesis) {
            tokens.next();
        }
    }
}

fn skip_past_comma(tokens: &mut Tokens) {
    // Commas between angle brackets belong to the type.
    let mut depth = 0;
    for token in tokens.by_ref() {
        if let TokenTree::Punct(mark) = token {
            match mark.as_char() {
                '<' => depth += 1,
                '>' => depth -= 1,
                ',' if depth == 0 => return,
                _ => {}
            }
        }
    }
}

fn ident(tokens: &mut Tokens) -> String {
    match tokens.next() {
        Some(TokenTree::Ident(name)) => name.to_string(),
        other => panic!("a name was expected, not {other:?}"),
    }
}

fn braces(tokens: &mut Tokens) -> Group {
    match tokens.next() {
        Some(TokenTree::Group(group)) if group.delimiter() == Delimiter::Brace => group,
        other => panic!("braces were expected, not {other:?}"),
    }
}
