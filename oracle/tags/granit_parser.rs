//! A stand-in for the parser's tag: it holds the text of a tag, which is all that `tags.rs` and `budget.rs` read of it.
use std::fmt;

#[derive(Clone, Debug, PartialEq, Eq)]
pub struct Tag {
    text: String,
}

impl Tag {
    pub fn new(text: &str) -> Tag {
        Tag { text: text.to_string() }
    }

    pub fn suffix_in_namespace(&self, namespace: &str) -> Option<&str> {
        self.text.strip_prefix(namespace)
    }

    /// The text in two parts: the handle, up to the last `!` or `:`, and the suffix.
    pub fn parts(&self) -> (&str, &str) {
        self.text.split_at(self.text.rfind(['!', ':']).map_or(0, |place| place + 1))
    }

    pub fn core_suffix(&self) -> Option<&str> {
        self.suffix_in_namespace("tag:yaml.org,2002:")
    }
}

impl fmt::Display for Tag {
    fn fmt(&self, f: &mut fmt::Formatter<'_>) -> fmt::Result {
        f.write_str(&self.text)
    }
}
