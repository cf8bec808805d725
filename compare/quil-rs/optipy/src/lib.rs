//! Stand-in for optipy: drops the Python attributes from what it marks, and leaves the rest alone.
use proc_macro::{Group, TokenStream, TokenTree};

const PYTHON: [&str; 3] = ["pyo3", "new", "gen_stub"];

fn is_python(attribute: &Group) -> bool {
    match attribute.stream().into_iter().next() {
        Some(TokenTree::Ident(name)) => PYTHON.contains(&name.to_string().as_str()),
        _ => false,
    }
}

fn strip(tokens: TokenStream) -> TokenStream {
    let mut kept: Vec<TokenTree> = Vec::new();
    let mut tokens = tokens.into_iter().peekable();
    while let Some(token) = tokens.next() {
        match (&token, tokens.peek()) {
            (TokenTree::Punct(mark), Some(TokenTree::Group(attribute)))
                if mark.as_char() == '#' && is_python(attribute) =>
            {
                tokens.next();
            }
            (TokenTree::Group(group), _) => {
                let mut stripped = Group::new(group.delimiter(), strip(group.stream()));
                stripped.set_span(group.span());
                kept.push(TokenTree::Group(stripped));
            }
            _ => kept.push(token),
        }
    }
    kept.into_iter().collect()
}

#[proc_macro_attribute]
pub fn strip_pyo3(_: TokenStream, item: TokenStream) -> TokenStream {
    strip(item)
}
