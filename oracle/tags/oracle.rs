//! Compares the Rust reader of include tags with ours, pair by pair.
//!
//!     oracle pairs                   writes the pairs, a tag, a tab and a value to a line
//!     oracle compare PAIRS ANSWERS   compares the Rust's answers with those of our program
//!     oracle sample                  writes pairs for the test of the gate
//!     oracle expect                  writes what our program must answer, for pairs on the input
//!
//! `main.rs`, made by the script, names the two files of the Rust crate and includes this one.
use crate::random::Random;
use granit_parser::Tag;
use std::borrow::Cow;
use std::collections::BTreeSet;
use std::io::{self, BufRead, BufWriter, Write};

const WORDS: [&str; 3] = ["!include", "tag:yaml.org,2002:include", "tag:yaml.org,2002:!include"];

/// What the Rust answers. A tag of no bytes stands for no tag; the Rust says the same of a tag whose text is empty.
fn rust_answer(tag: &str, value: &str) -> Result<Option<String>, &'static str> {
    let read = |t: Option<Cow<Tag>>| crate::tags::include_spec_from_tag_and_value(&t, value);
    let given = read(Some(Cow::Owned(Tag::new(tag))));
    if tag.is_empty() {
        assert_eq!(given, read(None));
    }
    given
}

/// The answer that ours must give where the Rust gives this one, and the name of the difference, if there is one.
///
/// The Rust answers one string, `value#fragment` or the value alone. Ours splits it at its first `#`, and refuses
/// where a part is missing.
fn expected(rust: &Result<Option<String>, &'static str>) -> (String, Option<&'static str>) {
    match rust {
        Ok(None) => ("none".into(), None),
        Err(text) if text.contains("must not be empty") => ("refused\t4".into(), None),
        Err(text) if text.contains("must not contain '#'") => ("refused\t5".into(), None),
        Err(text) => panic!("an error that has no number: {text}"),
        Ok(Some(spec)) => match spec.split_once('#') {
            None => ("refused\t6".into(), Some("no-hash-under-a-bare-tag")),
            Some(("", _)) => ("refused\t6".into(), Some("empty-path")),
            Some((_, "")) => ("refused\t6".into(), Some("empty-anchor")),
            Some((path, anchor)) => (format!("spec\t{path}\t{anchor}"), None),
        },
    }
}

/// All strings over an alphabet, up to a length.
fn all_strings(alphabet: &[&str], longest: usize) -> Vec<String> {
    let mut all = vec![String::new()];
    let mut last = all.clone();
    for _ in 0..longest {
        last = last.iter().flat_map(|s| alphabet.iter().map(move |c| format!("{s}{c}"))).collect();
        all.extend(last.iter().cloned());
    }
    all
}

/// A word with one byte less, one byte more or one byte changed, at every place.
fn near_words(word: &str) -> Vec<String> {
    let mut near = Vec::new();
    for i in 0..=word.len() {
        let (front, back) = word.split_at(i);
        for c in ["#", "!", "x", "é"] {
            near.push(format!("{front}{c}{back}"));
            if i < word.len() {
                near.push(format!("{front}{c}{}", &back[1..]));
            }
        }
        if i < word.len() {
            near.push(format!("{front}{}", &back[1..]));
            near.push(format!("{front}{}{}", back[..1].to_uppercase(), &back[1..]));
        }
    }
    near
}

fn text(random: &mut Random, pieces: &[&str], most: usize) -> String {
    let count = random.below(most + 1);
    (0..count).map(|_| random.one_of(pieces)).collect()
}

fn pairs() -> BTreeSet<(String, String)> {
    let mut pairs = BTreeSet::new();
    let endings = all_strings(&["#", "a", "!"], 5);
    for word in WORDS {
        for ending in &endings {
            for value in &endings {
                pairs.insert((format!("{word}{ending}"), value.clone()));
            }
        }
        for near in near_words(word) {
            for ending in all_strings(&["#", "a"], 2) {
                for value in all_strings(&["#", "a"], 3) {
                    pairs.insert((format!("{near}{ending}"), value));
                }
            }
        }
    }
    for tag in all_strings(&["!", "#", "i", "t"], 4) {
        for value in all_strings(&["#", "a"], 3) {
            pairs.insert((tag.clone(), value));
        }
    }
    let mut random = Random(0x9e37_79b9_7f4a_7c15);
    let pieces = ["#", "#", "a", "B", "é", "日", " ", "!", "include", ":", ".yaml", "/", "😀"];
    for _ in 0..300_000 {
        let front = match random.below(5) {
            n if n < 3 => WORDS[n].to_string(),
            3 => text(&mut random, &["!", "include", "tag:yaml.org,2002:", "#", "x"], 4),
            _ => String::new(),
        };
        let tag = front + &text(&mut random, &pieces, 5);
        pairs.insert((tag, text(&mut random, &pieces, 8)));
    }
    pairs
}

fn sample() -> Vec<(String, String)> {
    let tags = [
        "", "!", "#", "!include", "!include#", "!include##", "!include#b", "!include#b#c", "!include#b#", "!include#é", "!includ",
        "!includes", "include", "!!include", "!Include", "!includ#b", "!includes#b", "!include b", "tag:yaml.org,2002:include",
        "tag:yaml.org,2002:include#", "tag:yaml.org,2002:include#b#c", "tag:yaml.org,2002:includ", "tag:yaml.org,2002:",
        "tag:yaml.org,2002:!include", "tag:yaml.org,2002:!include#", "tag:yaml.org,2002:!include#b", "tag:yaml.org,2002:!!include",
        "tag:yaml.org,2001:include",
    ];
    let values = ["", "#", "##", "a", "a#", "#b", "a#b", "a##b", "a#b#", "a#b#c", "##b", "é#ß", "mass.yaml#gloria", "a b"];
    tags.iter().flat_map(|t| values.iter().map(|v| (t.to_string(), v.to_string()))).collect()
}

fn columns(line: &str) -> (&str, &str) {
    line.split_once('\t').expect("a tag, a tab and a value")
}

fn compare(pairs: &str, answers: &str) -> bool {
    let pairs = std::fs::read_to_string(pairs).unwrap();
    let answers = std::fs::read_to_string(answers).unwrap();
    let answers: Vec<&str> = answers.lines().collect();
    let mut counts = std::collections::BTreeMap::new();
    let mut compared = 0;
    let mut unexplained = 0;
    for (i, line) in pairs.lines().enumerate() {
        let (tag, value) = columns(line);
        let rust = rust_answer(tag, value);
        let (wanted, difference) = expected(&rust);
        compared += 1;
        let ours = answers.get(i).copied().unwrap_or("no answer");
        if ours != wanted {
            unexplained += 1;
            if unexplained <= 10 {
                println!("unexplained: tag {tag:?} value {value:?}: rust {rust:?}, ours {ours:?}");
            }
        }
        let name = difference.map(|d| format!("difference {d}")).unwrap_or_else(|| format!("same: {}", if wanted.starts_with("spec") { "spec" } else { &wanted }).replace('\t', " "));
        *counts.entry(name).or_insert(0u64) += 1;
    }
    if answers.len() != compared {
        println!("{} answers for {compared} pairs", answers.len());
        unexplained += 1;
    }
    for (name, count) in counts {
        println!("{name}: {count}");
    }
    println!("pairs compared: {compared}, unexplained differences: {unexplained}");
    unexplained == 0
}

pub fn run() {
    let args: Vec<String> = std::env::args().skip(1).collect();
    let mut out = BufWriter::new(io::stdout());
    match args.iter().map(String::as_str).collect::<Vec<_>>()[..] {
        ["pairs"] => pairs().iter().for_each(|(t, v)| writeln!(out, "{t}\t{v}").unwrap()),
        ["sample"] => sample().iter().for_each(|(t, v)| writeln!(out, "{t}\t{v}").unwrap()),
        ["expect"] => {
            for line in io::stdin().lock().lines() {
                let line = line.unwrap();
                let (tag, value) = columns(&line);
                writeln!(out, "{}", expected(&rust_answer(tag, value)).0).unwrap();
            }
        }
        ["compare", pairs, answers] => {
            if !compare(pairs, answers) {
                std::process::exit(1);
            }
        }
        _ => panic!("pairs, sample, expect, or compare PAIRS ANSWERS"),
    }
}
