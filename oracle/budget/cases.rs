//! Cases, and the lines that they are written in.
//!
//! A line is `LIMITS | COUNTING MERGE | INPUTS`. Where an item has several words, one blank stands between them.
//!
//! - LIMITS: `NAME=NUMBER` for each limit that is not the default; `enforce_alias_anchor_ratio` is 0 or 1.
//! - COUNTING: `all-content` or `per-document`. MERGE: `merge`, `as-ordinary` or `error`.
//! - INPUTS: `r` for an alias reference, or the kind of an event and then, each if wanted and in this order, `&ANCHOR`
//!   (`&FIRST..LAST` for one event with each of these anchors), `vVALUE` and `tTAG` in hexadecimal, `ySTYLE`.
//!   An input with `xCOUNT` at its end stands COUNT times.
use crate::budget::{Budget, EnforcingPolicy};
use crate::options::MergeKeyPolicy;
use std::fmt::{self, Write};

/// An event or an alias reference, with the fields that our enforcer is given. A tag of no bytes is no tag.
#[derive(Clone, Debug, Default)]
pub struct Input {
    /// The number of an event's kind; nothing for an alias reference.
    pub kind: Option<u8>,
    pub anchor: usize,
    pub value: String,
    pub tag: String,
    pub style: usize,
}

pub struct Case {
    pub limits: Vec<(&'static str, usize)>,
    pub counting: EnforcingPolicy,
    pub merge: MergeKeyPolicy,
    pub inputs: Vec<Input>,
}

/// The limits that the enforcer reads, in the order of `Budget`.
pub const LIMITS: [&str; 11] = [
    "max_events", "max_aliases", "max_anchors", "max_depth", "max_documents", "max_nodes", "max_total_scalar_bytes", "max_merge_keys",
    "enforce_alias_anchor_ratio", "alias_anchor_min_aliases", "alias_anchor_ratio_multiplier",
];

pub const COUNTINGS: [(&str, EnforcingPolicy); 2] = [("all-content", EnforcingPolicy::AllContent), ("per-document", EnforcingPolicy::PerDocument)];

pub const MERGES: [(&str, MergeKeyPolicy); 3] =
    [("merge", MergeKeyPolicy::Merge), ("as-ordinary", MergeKeyPolicy::AsOrdinary), ("error", MergeKeyPolicy::Error)];

fn set_limit(budget: &mut Budget, name: &str, number: usize) {
    let field = match name {
        "max_events" => &mut budget.max_events,
        "max_aliases" => &mut budget.max_aliases,
        "max_anchors" => &mut budget.max_anchors,
        "max_depth" => &mut budget.max_depth,
        "max_documents" => &mut budget.max_documents,
        "max_nodes" => &mut budget.max_nodes,
        "max_total_scalar_bytes" => &mut budget.max_total_scalar_bytes,
        "max_merge_keys" => &mut budget.max_merge_keys,
        "alias_anchor_min_aliases" => &mut budget.alias_anchor_min_aliases,
        "alias_anchor_ratio_multiplier" => &mut budget.alias_anchor_ratio_multiplier,
        "enforce_alias_anchor_ratio" => {
            budget.enforce_alias_anchor_ratio = number != 0;
            return;
        }
        _ => panic!("no such limit: {name}"),
    };
    *field = number;
}

impl Case {
    /// The crate's default budget with this case's limits.
    pub fn budget(&self) -> Budget {
        let mut budget = Budget::default();
        for (name, number) in &self.limits {
            set_limit(&mut budget, name, *number);
        }
        budget
    }

    pub fn counting_name(&self) -> &'static str {
        COUNTINGS.iter().find(|c| c.1 == self.counting).unwrap().0
    }

    pub fn read(line: &str) -> Case {
        let mut columns = line.split('|');
        let mut column = || columns.next().expect("three columns").split_whitespace();
        let limits = column().map(read_limit).collect();
        let mut policies = column();
        let counting = by_name(&COUNTINGS, policies.next().unwrap());
        let merge = by_name(&MERGES, policies.next().unwrap());
        Case { limits, counting, merge, inputs: column().flat_map(read_inputs).collect() }
    }
}

fn by_name<T: Copy>(table: &[(&str, T)], name: &str) -> T {
    table.iter().find(|row| row.0 == name).unwrap_or_else(|| panic!("no such policy: {name}")).1
}

fn read_limit(word: &str) -> (&'static str, usize) {
    let (name, number) = word.split_once('=').unwrap();
    (LIMITS.iter().find(|l| **l == name).unwrap_or_else(|| panic!("no such limit: {name}")), number.parse().unwrap())
}

/// What stands before a sign, and what stands after it.
fn cut<'a>(word: &'a str, sign: &str) -> (&'a str, Option<&'a str>) {
    word.split_once(sign).map_or((word, None), |(before, after)| (before, Some(after)))
}

fn read_hex(digits: Option<&str>) -> String {
    let digits = digits.unwrap_or("");
    let bytes = (0..digits.len() / 2).map(|i| u8::from_str_radix(&digits[2 * i..2 * i + 2], 16).unwrap());
    String::from_utf8(bytes.collect()).expect("the Rust takes text")
}

fn read_inputs(word: &str) -> Vec<Input> {
    let number = |text: Option<&str>, missing| text.map_or(missing, |digits| digits.parse::<usize>().unwrap());
    let (word, count) = cut(word, "x");
    let (word, style) = cut(word, "y");
    let (word, tag) = cut(word, "t");
    let (word, value) = cut(word, "v");
    let (word, anchors) = cut(word, "&");
    let (first, last) = cut(anchors.unwrap_or("0"), "..");
    let first = number(Some(first), 0);
    let kind = if word == "r" { None } else { Some(word.parse().unwrap()) };
    let input = |anchor| Input { kind, anchor, value: read_hex(value), tag: read_hex(tag), style: number(style, 0) };
    let times = number(count, 1);
    (first..=number(last, first)).flat_map(|anchor| std::iter::repeat_n(input(anchor), times)).collect()
}

fn hex(text: &str) -> String {
    text.bytes().fold(String::new(), |mut digits, byte| {
        write!(digits, "{byte:02x}").unwrap();
        digits
    })
}

impl fmt::Display for Input {
    fn fmt(&self, f: &mut fmt::Formatter<'_>) -> fmt::Result {
        match self.kind {
            None => f.write_str("r")?,
            Some(kind) => write!(f, "{kind}")?,
        }
        if self.anchor != 0 {
            write!(f, "&{}", self.anchor)?;
        }
        for (sign, text) in [("v", &self.value), ("t", &self.tag)] {
            if !text.is_empty() {
                write!(f, "{sign}{}", hex(text))?;
            }
        }
        if self.style != 0 {
            write!(f, "y{}", self.style)?;
        }
        Ok(())
    }
}

impl fmt::Display for Case {
    fn fmt(&self, f: &mut fmt::Formatter<'_>) -> fmt::Result {
        for (name, number) in &self.limits {
            write!(f, "{name}={number} ")?;
        }
        let merge = MERGES.iter().find(|m| m.1 == self.merge).unwrap().0;
        write!(f, "| {} {merge} |", self.counting_name())?;
        for input in &self.inputs {
            write!(f, " {input}")?;
        }
        Ok(())
    }
}
