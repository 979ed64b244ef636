//! Stand-in for the derives that yogi's files name: From, Into, Display, Deref and DerefMut,
//! for the shapes those files have (one field, or an enum whose cases have one field each).

use proc_macro::{Delimiter, Group, TokenStream, TokenTree};

enum Shape {
    Tuple(String),
    Named(String, String),
    Cases(Vec<(String, String)>),
}

struct Item {
    name: String,
    shape: Shape,
    /// the text of `#[display(fmt = "..")]`, quotes included
    format: Option<String>,
}

fn is_punct(token: &TokenTree, c: char) -> bool {
    matches!(token, TokenTree::Punct(p) if p.as_char() == c)
}

fn text(tokens: &[TokenTree]) -> String {
    tokens.iter().cloned().collect::<TokenStream>().to_string()
}

/// Splits at commas outside angle brackets.
fn split(group: &Group) -> Vec<Vec<TokenTree>> {
    let mut parts = vec![vec![]];
    let mut depth = 0;
    for token in group.stream() {
        if is_punct(&token, '<') {
            depth += 1;
        } else if is_punct(&token, '>') {
            depth -= 1;
        }
        if depth == 0 && is_punct(&token, ',') {
            parts.push(vec![]);
        } else {
            parts.last_mut().unwrap().push(token);
        }
    }
    parts.retain(|part| !part.is_empty());
    parts
}

/// Leaves out attributes and `pub`, `pub(..)`.
fn bare(tokens: &[TokenTree]) -> &[TokenTree] {
    let mut rest = tokens;
    loop {
        match rest {
            [hash, TokenTree::Group(_), ..] if is_punct(hash, '#') => rest = &rest[2..],
            [TokenTree::Ident(i), TokenTree::Group(g), ..]
                if i.to_string() == "pub" && g.delimiter() == Delimiter::Parenthesis =>
            {
                rest = &rest[2..]
            }
            [TokenTree::Ident(i), ..] if i.to_string() == "pub" => rest = &rest[1..],
            _ => return rest,
        }
    }
}

fn one<T>(mut parts: Vec<T>) -> T {
    assert!(parts.len() == 1, "the stand-in derives know types of one field only");
    parts.remove(0)
}

fn case(part: &[TokenTree]) -> (String, String) {
    match bare(part) {
        [TokenTree::Ident(name), TokenTree::Group(g)] => (name.to_string(), text(bare(&one(split(g))))),
        _ => panic!("the stand-in derives know cases of one field only"),
    }
}

fn shape(kind: &str, body: &Group) -> Shape {
    let parts = split(body);
    if kind == "enum" {
        return Shape::Cases(parts.iter().map(|part| case(part)).collect());
    }
    let field = one(parts);
    let field = bare(&field);
    match body.delimiter() {
        Delimiter::Parenthesis => Shape::Tuple(text(field)),
        _ => Shape::Named(field[0].to_string(), text(&field[2..])),
    }
}

/// The literal of `display(fmt = "..")`, if the attribute is that one.
fn display_format(attribute: &Group) -> Option<String> {
    let tokens: Vec<_> = attribute.stream().into_iter().collect();
    match tokens.as_slice() {
        [TokenTree::Ident(i), TokenTree::Group(g)] if i.to_string() == "display" => {
            g.stream().into_iter().last().map(|literal| literal.to_string())
        }
        _ => None,
    }
}

fn item(input: TokenStream) -> Item {
    let tokens: Vec<_> = input.into_iter().collect();
    let format = tokens.iter().find_map(|token| match token {
        TokenTree::Group(g) => display_format(g),
        _ => None,
    });
    match bare(&tokens) {
        [TokenTree::Ident(kind), TokenTree::Ident(name), TokenTree::Group(body), ..] => Item {
            name: name.to_string(),
            shape: shape(&kind.to_string(), body),
            format,
        },
        _ => panic!("the stand-in derives do not know this type"),
    }
}

fn from_one(name: &str, field: &str, make: &str) -> String {
    format!("impl ::core::convert::From<{field}> for {name} {{ fn from(x: {field}) -> Self {{ {make}(x) }} }}")
}

#[proc_macro_derive(From)]
pub fn from(input: TokenStream) -> TokenStream {
    let item = item(input);
    let name = &item.name;
    match &item.shape {
        Shape::Tuple(field) => from_one(name, field, name),
        Shape::Cases(cases) => cases
            .iter()
            .map(|(case, field)| from_one(name, field, &format!("{name}::{case}")))
            .collect(),
        Shape::Named(..) => panic!("From of a named field"),
    }
    .parse()
    .unwrap()
}

#[proc_macro_derive(Into)]
pub fn into(input: TokenStream) -> TokenStream {
    let item = item(input);
    let Shape::Tuple(field) = &item.shape else {
        panic!("Into of this shape")
    };
    let name = &item.name;
    format!("impl ::core::convert::From<{name}> for {field} {{ fn from(x: {name}) -> Self {{ x.0 }} }}")
        .parse()
        .unwrap()
}

#[proc_macro_derive(Display, attributes(display))]
pub fn display(input: TokenStream) -> TokenStream {
    let item = item(input);
    let name = &item.name;
    let body = match &item.shape {
        Shape::Tuple(_) => {
            let format = item.format.expect("Display without a format");
            format!("let _0 = &self.0; ::core::write!(f, {format})")
        }
        Shape::Cases(cases) => {
            let arms: String = cases
                .iter()
                .map(|(case, _)| format!("{name}::{case}(x) => ::core::fmt::Display::fmt(x, f),"))
                .collect();
            format!("match self {{ {arms} }}")
        }
        Shape::Named(..) => panic!("Display of a named field"),
    };
    format!(
        "impl ::core::fmt::Display for {name} {{
            fn fmt(&self, f: &mut ::core::fmt::Formatter) -> ::core::fmt::Result {{ {body} }}
        }}"
    )
    .parse()
    .unwrap()
}

#[proc_macro_derive(Deref, attributes(deref))]
pub fn deref(input: TokenStream) -> TokenStream {
    let item = item(input);
    let Shape::Named(field, kind) = &item.shape else {
        panic!("Deref of this shape")
    };
    let name = &item.name;
    format!(
        "impl ::core::ops::Deref for {name} {{
            type Target = {kind};
            fn deref(&self) -> &Self::Target {{ &self.{field} }}
        }}"
    )
    .parse()
    .unwrap()
}

#[proc_macro_derive(DerefMut, attributes(deref))]
pub fn deref_mut(input: TokenStream) -> TokenStream {
    let item = item(input);
    let Shape::Named(field, _) = &item.shape else {
        panic!("DerefMut of this shape")
    };
    let name = &item.name;
    format!(
        "impl ::core::ops::DerefMut for {name} {{
            fn deref_mut(&mut self) -> &mut Self::Target {{ &mut self.{field} }}
        }}"
    )
    .parse()
    .unwrap()
}
