//! Reads a struct or an enum, and its attributes, out of its tokens. Covers the forms that the originals use, and panics at any other.

use proc_macro::{Delimiter, TokenStream, TokenTree};

pub struct Item {
    pub is_enum: bool,
    pub name: String,
    pub marks: Marks,
    /// Of a struct, the fields: marks, name, type. Of an enum, the variants: marks, name, value.
    pub parts: Vec<(Marks, String, String)>,
}

/// What `#[wire(..)]`, `#[repr(..)]` and `#[default]` say. Widths in bits.
#[derive(Default)]
pub struct Marks {
    pub width: Option<usize>,
    pub before: usize,
    pub after: usize,
    pub skip: bool,
    pub default: bool,
    pub alternatives: Vec<String>,
    pub repr: Option<String>,
}

pub fn item(input: TokenStream) -> Item {
    let tokens: Vec<TokenTree> = input.into_iter().collect();
    let (marks, rest) = marked(&tokens);
    let is_enum = rest[0].to_string() == "enum";
    let body = commas(inside(&rest[2], Delimiter::Brace));
    Item { is_enum, name: rest[1].to_string(), marks, parts: body.iter().map(|tokens| part(tokens)).collect() }
}

/// `name: type` or `name = value`.
fn part(tokens: &[TokenTree]) -> (Marks, String, String) {
    let (marks, rest) = marked(tokens);
    let value: TokenStream = rest[2..].iter().cloned().collect();
    (marks, rest[0].to_string(), value.to_string())
}

/// The attributes in front, and what follows them and the visibility.
fn marked(mut tokens: &[TokenTree]) -> (Marks, &[TokenTree]) {
    let mut marks = Marks::default();
    while tokens[0].to_string() == "#" {
        attribute(inside(&tokens[1], Delimiter::Bracket), &mut marks);
        tokens = &tokens[2..];
    }
    if tokens[0].to_string() == "pub" {
        tokens = &tokens[1..];
        if matches!(&tokens[0], TokenTree::Group(_)) {
            tokens = &tokens[1..];
        }
    }
    (marks, tokens)
}

fn attribute(tokens: Vec<TokenTree>, marks: &mut Marks) {
    match tokens[0].to_string().as_str() {
        "default" => marks.default = true,
        "repr" => marks.repr = Some(inside(&tokens[1], Delimiter::Parenthesis)[0].to_string()),
        "wire" => commas(inside(&tokens[1], Delimiter::Parenthesis)).iter().for_each(|setting| wire(setting, marks)),
        _ => {}
    }
}

/// `key` or `key = value`.
fn wire(setting: &[TokenTree], marks: &mut Marks) {
    let number = || setting[2].to_string().parse::<usize>().expect("a number");
    match setting[0].to_string().as_str() {
        "bits" => marks.width = Some(number()),
        "bytes" => marks.width = Some(number() * 8),
        "pre_skip" => marks.before = number(),
        "pre_skip_bytes" => marks.before = number() * 8,
        "post_skip" => marks.after = number(),
        "post_skip_bytes" => marks.after = number() * 8,
        "skip" => marks.skip = true,
        "alternatives" => {
            let values = commas(inside(&setting[2], Delimiter::Bracket));
            marks.alternatives = values.iter().map(|value| value[0].to_string()).collect();
        }
        key => panic!("the originals compiled here do not use {key}"),
    }
}

fn inside(token: &TokenTree, delimiter: Delimiter) -> Vec<TokenTree> {
    match token {
        TokenTree::Group(group) if group.delimiter() == delimiter => group.stream().into_iter().collect(),
        other => panic!("expected a {delimiter:?}, found {other}"),
    }
}

fn commas(tokens: Vec<TokenTree>) -> Vec<Vec<TokenTree>> {
    let runs = tokens.split(|token| token.to_string() == ",");
    runs.filter(|run| !run.is_empty()).map(<[TokenTree]>::to_vec).collect()
}
