//! A stand-in for the parser: its events, with the fields that `budget.rs` reads, and the names that the crate's files
//! mention. The parser itself is not at hand: what would read a text ends the program.
use std::borrow::Cow;
use std::marker::PhantomData;

#[path = "../tags/granit_parser.rs"]
mod tag;
pub use tag::Tag;

#[derive(Clone, Copy, Debug, PartialEq, Eq)]
pub enum ScalarStyle {
    Plain,
    SingleQuoted,
    DoubleQuoted,
    Literal,
    Folded,
}

#[derive(Clone, Copy, Debug)]
pub enum StructureStyle {
    Block,
}

#[derive(Clone, Debug)]
pub enum Event<'a> {
    StreamStart,
    StreamEnd,
    DocumentStart(bool),
    DocumentEnd,
    Alias(usize),
    Scalar(Cow<'a, str>, ScalarStyle, usize, Option<Cow<'a, Tag>>),
    SequenceStart(StructureStyle, usize, Option<Cow<'a, Tag>>),
    SequenceEnd,
    MappingStart(StructureStyle, usize, Option<Cow<'a, Tag>>),
    MappingEnd,
}

#[derive(Debug)]
pub struct Span;

#[derive(Debug)]
pub struct ScanError;

#[derive(Default)]
pub struct Options {
    pub simple_key_max_lookahead: usize,
    pub flow_nesting_limit: usize,
    pub block_nesting_limit: usize,
    pub emit_comments: bool,
    pub strict_indentation: bool,
}

#[macro_export]
macro_rules! options {
    ($($(#[$attribute:meta])* $field:ident: $value:expr,)*) => {{
        let mut options = $crate::Options::default();
        $($(#[$attribute])* { options.$field = $value; })*
        options
    }};
}

pub struct StrInput<'a>(PhantomData<&'a str>);

impl<'a> StrInput<'a> {
    pub fn new(_text: &'a str) -> StrInput<'a> {
        unimplemented!("the parser is not at hand")
    }
}

pub struct Parser<'a>(PhantomData<&'a str>);

impl<'a> Parser<'a> {
    pub fn with_options(_input: StrInput<'a>, _options: Options) -> Parser<'a> {
        unimplemented!("the parser is not at hand")
    }
}

impl<'a> Iterator for Parser<'a> {
    type Item = Result<(Event<'a>, Span), ScanError>;

    fn next(&mut self) -> Option<Self::Item> {
        unimplemented!("the parser is not at hand")
    }
}
