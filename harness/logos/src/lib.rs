//! A stand-in for logos: the longest match over all rules, over ASCII; of rules that match equally long the first declared (in lex.rs:
//! a number or register before a word). Where no rule matches, one byte is the default error. All rules stand in one table.

mod table;

pub use logos_derive::Logos;
pub use table::{Matcher, Rule};

pub type Span = std::ops::Range<usize>;

pub trait Logos: Sized + 'static {
    type Error: Default;
    fn matcher() -> &'static Matcher;
    fn accept(rule: usize, lx: &mut Lexer<'_, Self>) -> Result<Self, Self::Error>;
    fn lexer(source: &str) -> Lexer<'_, Self> {
        Lexer { source, start: 0, end: 0, matcher: Self::matcher(), token: std::marker::PhantomData }
    }
}

pub struct Lexer<'s, T> {
    source: &'s str,
    start: usize,
    end: usize,
    matcher: &'static Matcher,
    token: std::marker::PhantomData<T>,
}
impl<'s, T: Logos> Lexer<'s, T> {
    pub fn span(&self) -> Span {
        self.start..self.end
    }
    pub fn slice(&self) -> &'s str {
        &self.source[self.span()]
    }
    pub fn remainder(&self) -> &'s str {
        &self.source[self.end..]
    }
    pub fn bump(&mut self, n: usize) {
        self.end += n;
        assert!(self.source.is_char_boundary(self.end));
    }
    pub fn spanned(mut self) -> impl Iterator<Item = (Result<T, T::Error>, Span)> + 's {
        std::iter::from_fn(move || self.next().map(|t| (t, self.span())))
    }
}
impl<T: Logos> Iterator for Lexer<'_, T> {
    type Item = Result<T, T::Error>;
    fn next(&mut self) -> Option<Self::Item> {
        loop {
            self.start = self.end;
            if self.end == self.source.len() {
                return None;
            }
            match self.matcher.longest(&self.source.as_bytes()[self.end..]) {
                None => {
                    self.bump(1);
                    return Some(Err(T::Error::default()));
                }
                Some((0, n)) => self.bump(n),
                Some((rule, n)) => {
                    self.bump(n);
                    return Some(T::accept(rule, self));
                }
            }
        }
    }
}

/// What a callback may return: the payload, or a result of it.
pub trait CallbackResult<P, E> {
    fn result(self) -> Result<P, E>;
}
impl<P, E> CallbackResult<P, E> for P {
    fn result(self) -> Result<P, E> {
        Ok(self)
    }
}
impl<P, E> CallbackResult<P, E> for Result<P, E> {
    fn result(self) -> Result<P, E> {
        self
    }
}
pub fn finish<P, E>(r: impl CallbackResult<P, E>) -> Result<P, E> {
    r.result()
}
pub fn apply<'s, T, R>(lx: &mut Lexer<'s, T>, f: impl FnOnce(&mut Lexer<'s, T>) -> R) -> R {
    f(lx)
}
