//! Reads a struct or enum from its tokens.

use std::iter::Peekable;

use proc_macro::{Delimiter, TokenStream, TokenTree, token_stream::IntoIter};

type Tokens = Peekable<IntoIter>;

/// `#[path(args)]`, or any other attribute with its text alone.
pub struct Attr {
    pub path: String,
    pub args: TokenStream,
    text: String,
}

/// A field of a struct or a variant of an enum.
pub struct Member {
    pub attrs: Vec<Attr>,
    pub name: String,
    /// The type of a field, the discriminant of a variant; empty where there is none.
    pub value: String,
    /// The fields of a tuple variant.
    pub fields: Vec<Member>,
}

/// A struct with named fields, or an enum.
pub struct Item {
    pub attrs: Vec<Attr>,
    pub vis: String,
    pub name: String,
    pub members: Vec<Member>,
    /// The text between the braces.
    pub body: String,
}

impl Item {
    pub fn new(item: TokenStream) -> Self {
        let mut tokens = item.into_iter().peekable();
        let attrs = attrs(&mut tokens);
        let vis = vis(&mut tokens);
        let kind = word(&mut tokens);
        let name = word(&mut tokens);
        let Some(TokenTree::Group(body)) = tokens.next() else { panic!("{name} has no body") };
        let members = match kind.as_str() {
            "struct" => list(body.stream(), field),
            "enum" => list(body.stream(), variant),
            _ => panic!("{kind} is neither struct nor enum"),
        };
        Self { attrs, vis, name, members, body: body.stream().to_string() }
    }

    /// The item's own attributes as they stood.
    pub fn attr_text(&self) -> String {
        self.attrs.iter().map(|attr| attr.text.as_str()).collect::<Vec<_>>().join("\n")
    }
}

impl Member {
    pub fn attr(&self, path: &str) -> Option<&Attr> {
        self.attrs.iter().find(|attr| attr.path == path)
    }
}

/// The arguments of an attribute: each piece between commas, without blanks.
pub fn args(tokens: TokenStream) -> Vec<String> {
    list(tokens, |tokens| upto_comma(tokens).replace(char::is_whitespace, ""))
}

/// Reads a number of the source, with its base and underscores.
pub fn number(text: &str) -> u64 {
    let plain = text.replace('_', "");
    let (digits, radix) = match plain.get(..2) {
        Some("0x") => (&plain[2..], 16),
        Some("0b") => (&plain[2..], 2),
        _ => (plain.as_str(), 10),
    };
    u64::from_str_radix(digits, radix).unwrap_or_else(|_| panic!("{text} is no number"))
}

fn list<T>(tokens: TokenStream, one: impl Fn(&mut Tokens) -> T) -> Vec<T> {
    let mut tokens = tokens.into_iter().peekable();
    let mut all = Vec::new();
    while tokens.peek().is_some() {
        all.push(one(&mut tokens));
    }
    all
}

fn field(tokens: &mut Tokens) -> Member {
    let attrs = attrs(tokens);
    vis(tokens);
    let name = word(tokens);
    assert!(eat(tokens, ':'), "field {name} has no type");
    Member { attrs, name, value: upto_comma(tokens), fields: Vec::new() }
}

fn tuple_field(tokens: &mut Tokens) -> Member {
    let attrs = attrs(tokens);
    vis(tokens);
    Member { attrs, name: String::new(), value: upto_comma(tokens), fields: Vec::new() }
}

fn variant(tokens: &mut Tokens) -> Member {
    let attrs = attrs(tokens);
    let name = word(tokens);
    let mut fields = Vec::new();
    if let Some(TokenTree::Group(group)) = tokens.next_if(|token| matches!(token, TokenTree::Group(_))) {
        assert!(group.delimiter() == Delimiter::Parenthesis, "variant {name} has named fields");
        fields = list(group.stream(), tuple_field);
    }
    let _ = eat(tokens, '=');
    Member { attrs, name, value: upto_comma(tokens), fields }
}

fn attrs(tokens: &mut Tokens) -> Vec<Attr> {
    let mut all = Vec::new();
    while eat(tokens, '#') {
        let Some(TokenTree::Group(group)) = tokens.next() else { panic!("# without an attribute") };
        all.push(attr(group.stream()));
    }
    all
}

fn attr(stream: TokenStream) -> Attr {
    let text = format!("#[{stream}]");
    let mut tokens = stream.into_iter();
    let path = tokens.next().map(|token| token.to_string()).unwrap_or_default();
    let args = match tokens.next() {
        Some(TokenTree::Group(group)) => group.stream(),
        _ => TokenStream::new(),
    };
    Attr { path, args, text }
}

fn vis(tokens: &mut Tokens) -> String {
    let Some(word) = tokens.next_if(|token| token.to_string() == "pub") else { return String::new() };
    let inside = |token: &TokenTree| matches!(token, TokenTree::Group(g) if g.delimiter() == Delimiter::Parenthesis);
    match tokens.next_if(inside) {
        Some(group) => format!("{word}{group}"),
        None => word.to_string(),
    }
}

fn word(tokens: &mut Tokens) -> String {
    match tokens.next() {
        Some(TokenTree::Ident(ident)) => ident.to_string(),
        token => panic!("a name is due, not {token:?}"),
    }
}

fn eat(tokens: &mut Tokens, punct: char) -> bool {
    tokens.next_if(|token| matches!(token, TokenTree::Punct(p) if p.as_char() == punct)).is_some()
}

/// The text up to a comma outside angle brackets; the comma is taken too.
fn upto_comma(tokens: &mut Tokens) -> String {
    let mut depth = 0_i32;
    let mut text = TokenStream::new();
    for token in tokens.by_ref() {
        if let TokenTree::Punct(punct) = &token {
            match punct.as_char() {
                ',' if depth == 0 => break,
                '<' => depth += 1,
                '>' => depth -= 1,
                _ => {}
            }
        }
        text.extend([token]);
    }
    text.to_string()
}
