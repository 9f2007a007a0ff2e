//! Reads the patterns and callbacks out of the attributes of a token enum and emits a table of
//! them. Knows only the forms that lex.rs uses.

use proc_macro::token_stream::IntoIter;
use proc_macro::{Delimiter, TokenStream, TokenTree};
use std::fmt::Write;
use std::iter::Peekable;

#[proc_macro_derive(Logos, attributes(logos, regex, token))]
pub fn derive(input: TokenStream) -> TokenStream {
    let mut it = input.into_iter().peekable();
    let head = attributes(&mut it);
    let (_, skip) = head.iter().find(|(n, _)| n == "logos").expect("#[logos(skip .., error = ..)]");
    let (skip, error) = (&skip[1], skip.last().unwrap());
    let mut name = String::new();
    let body = loop {
        match it.next().expect("enum body") {
            TokenTree::Group(g) if g.delimiter() == Delimiter::Brace => break g.stream(),
            t => name = t.to_string(),
        }
    };

    // Rule 0 is the skipped one.
    let (mut rules, mut arms, mut n) = (format!("::logos::Rule::Regex({skip}),"), String::new(), 1);
    let mut it = body.into_iter().peekable();
    while it.peek().is_some() {
        let attrs = attributes(&mut it);
        let variant = it.next().unwrap();
        let payload = matches!(it.peek(), Some(TokenTree::Group(_)));
        while !matches!(it.next(), None | Some(TokenTree::Punct(_))) {}
        for (attr, args) in attrs {
            let kind = if attr == "regex" { "Regex" } else { "Literal" };
            write!(rules, "::logos::Rule::{kind}({}),", args[0]).unwrap();
            let callback: TokenStream = args.iter().skip(2).cloned().collect();
            match (payload, args.len()) {
                (false, _) => write!(arms, "{n} => Ok({name}::{variant}),"),
                (true, 3) => write!(arms, "{n} => ::logos::finish({callback}(lx)).map({name}::{variant}),"),
                (true, _) => write!(arms, "{n} => ::logos::finish(::logos::apply(lx, {callback})).map({name}::{variant}),"),
            }
            .unwrap();
            n += 1;
        }
    }
    format!(
        "impl ::logos::Logos for {name} {{
            type Error = {error};
            fn matcher() -> &'static ::logos::Matcher {{
                static M: ::std::sync::OnceLock<::logos::Matcher> = ::std::sync::OnceLock::new();
                M.get_or_init(|| ::logos::Matcher::new(&[{rules}]))
            }}
            fn accept(rule: usize, lx: &mut ::logos::Lexer<'_, Self>) -> Result<Self, {error}> {{
                match rule {{ {arms} _ => unreachable!() }}
            }}
        }}"
    )
    .parse()
    .unwrap()
}

/// Takes the attributes at the head, those with arguments in brackets, as name and arguments.
fn attributes(it: &mut Peekable<IntoIter>) -> Vec<(String, Vec<TokenTree>)> {
    let mut out = vec![];
    while matches!(it.peek(), Some(TokenTree::Punct(p)) if p.as_char() == '#') {
        it.next();
        let Some(TokenTree::Group(g)) = it.next() else { panic!("attribute") };
        let mut inner = g.stream().into_iter();
        let name = inner.next().unwrap().to_string();
        if let Some(TokenTree::Group(args)) = inner.next() {
            out.push((name, args.stream().into_iter().collect()));
        }
    }
    out
}
