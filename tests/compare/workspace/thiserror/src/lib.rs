//! Replaces the derive macro that the original's error types use. The code
//! under comparison needs only the `From` impls. Nobody reads the messages, so
//! an error is displayed as its variant's name.

use proc_macro::token_stream::IntoIter;
use proc_macro::{Delimiter, Group, TokenStream, TokenTree};
use std::iter::Peekable;

type Tokens = Peekable<IntoIter>;

/// A variant's name, and the type of its field if the field is marked
/// `#[from]`.
struct Variant {
    name: String,
    from: Option<String>,
}

/// What the impls need of an enum. `generics` is empty or `<A, B>`, plain
/// parameters only, so it can be used as a declaration and as an argument list.
struct Enum {
    name: String,
    generics: String,
    variants: Vec<Variant>,
}

#[proc_macro_derive(Error, attributes(error, from))]
pub fn derive_error(item: TokenStream) -> TokenStream {
    let parsed = parse_enum(item);
    let mut code = display_impl(&parsed) + &error_impl(&parsed);
    for variant in &parsed.variants {
        if let Some(source) = &variant.from {
            code += &from_impl(&parsed, &variant.name, source);
        }
    }
    code.parse().expect("the generated impls are Rust")
}

fn parse_enum(item: TokenStream) -> Enum {
    let mut tokens = item.into_iter().peekable();
    skip_to_enum(&mut tokens);
    let name = take_name(&mut tokens);
    let generics = take_generics(&mut tokens);
    let variants = parse_variants(&take_body(&mut tokens));
    Enum {
        name,
        generics,
        variants,
    }
}

/// Skips attributes and visibility.
fn skip_to_enum(tokens: &mut Tokens) {
    for token in tokens {
        if token.to_string() == "enum" {
            return;
        }
    }
    panic!("this macro supports only enums");
}

fn take_name(tokens: &mut Tokens) -> String {
    match tokens.next() {
        Some(TokenTree::Ident(name)) => name.to_string(),
        other => panic!("expected a name, found {other:?}"),
    }
}

fn take_generics(tokens: &mut Tokens) -> String {
    let mut text = String::new();
    if tokens.peek().is_some_and(|t| is_punct(t, '<')) {
        for token in tokens {
            text += &token.to_string();
            if is_punct(&token, '>') {
                break;
            }
        }
    }
    text
}

/// The braces with the variants. A where clause may come before them.
fn take_body(tokens: &mut Tokens) -> Group {
    tokens
        .find_map(|token| match token {
            TokenTree::Group(group) if group.delimiter() == Delimiter::Brace => Some(group),
            _ => None,
        })
        .expect("an enum has a body")
}

fn parse_variants(body: &Group) -> Vec<Variant> {
    let mut tokens = body.stream().into_iter().peekable();
    let mut variants = Vec::new();
    loop {
        skip_attributes(&mut tokens);
        if tokens.peek().is_none() {
            return variants;
        }
        let name = take_name(&mut tokens);
        let mut from = None;
        if let Some(TokenTree::Group(fields)) = tokens.peek() {
            from = from_field(fields);
        }
        variants.push(Variant { name, from });
        tokens.find(|token| is_punct(token, ','));
    }
}

fn skip_attributes(tokens: &mut Tokens) {
    while tokens.next_if(|token| is_punct(token, '#')).is_some() {
        tokens.next();
    }
}

/// The type after `#[from]`, if a variant's only field begins with it.
fn from_field(fields: &Group) -> Option<String> {
    let mut tokens = fields.stream().into_iter();
    let marked = is_punct(&tokens.next()?, '#') && tokens.next()?.to_string() == "[from]";
    let kind: TokenStream = tokens.take_while(|token| !is_punct(token, ',')).collect();
    marked.then(|| kind.to_string())
}

fn is_punct(token: &TokenTree, sign: char) -> bool {
    matches!(token, TokenTree::Punct(punct) if punct.as_char() == sign)
}

fn display_impl(item: &Enum) -> String {
    let Enum { name, generics, .. } = item;
    let arms: String = item
        .variants
        .iter()
        .map(|v| format!("Self::{0} {{ .. }} => {0:?},", v.name))
        .collect();
    format!(
        "impl{generics} ::core::fmt::Display for {name}{generics} {{
            fn fmt(&self, f: &mut ::core::fmt::Formatter<'_>) -> ::core::fmt::Result {{
                f.write_str(match self {{ {arms} }})
            }}
        }}"
    )
}

fn error_impl(item: &Enum) -> String {
    let Enum { name, generics, .. } = item;
    format!(
        "impl{generics} ::core::error::Error for {name}{generics}
        where Self: ::core::fmt::Debug {{}}"
    )
}

fn from_impl(item: &Enum, variant: &str, source: &str) -> String {
    let Enum { name, generics, .. } = item;
    format!(
        "impl{generics} ::core::convert::From<{source}> for {name}{generics} {{
            fn from(source: {source}) -> Self {{ Self::{variant}(source) }}
        }}"
    )
}
