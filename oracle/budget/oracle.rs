//! Compares the Rust's enforcer of budgets with ours, case by case.
//!
//!     oracle cases EDGES             writes the cases, one to a line, each once; EDGES is a file of further ones
//!     oracle compare CASES ANSWERS   compares the Rust's answers with those of our program
//!     oracle sample EDGES            writes cases for the test of the gate
//!     oracle expect                  writes what our program must answer, for cases on the input
//!
//! `main.rs`, made by the script, names the files of the Rust crate and this one.
//! In all files a line that is empty or begins with `#` stands for itself.
use crate::answers::expected;
use crate::cases::Case;
use crate::generator::{each_case, random_cases};
use std::collections::{BTreeMap, HashSet};
use std::io::{self, BufRead, BufReader, BufWriter, Write};

fn is_comment(line: &str) -> bool {
    line.is_empty() || line.starts_with('#')
}

fn lines(path: &str) -> impl Iterator<Item = String> {
    BufReader::new(std::fs::File::open(path).unwrap()).lines().map(|line| line.unwrap())
}

/// The counting and the answer, for the table of counts.
fn row(case: &Case, name: &str, difference: Option<&str>) -> String {
    let counting = case.counting_name();
    match difference {
        Some(difference) => format!("difference {difference}, {counting}, ours {name}"),
        None => format!("same: {name}, {counting}"),
    }
}

fn compare(cases: &str, answers: &str) -> bool {
    let mut answers = lines(answers);
    let mut counts = BTreeMap::new();
    let mut compared = 0u64;
    let mut unexplained = 0u64;
    for line in lines(cases) {
        let ours = answers.next().unwrap_or("no answer".into());
        if is_comment(&line) {
            unexplained += u64::from(ours != line);
            continue;
        }
        let case = Case::read(&line);
        let (run, difference) = expected(&case);
        let wanted = run.text();
        compared += 1;
        if ours != wanted {
            unexplained += 1;
            if unexplained <= 10 {
                println!("unexplained: {line}\n    wanted {wanted}\n    ours   {ours}");
            }
        }
        *counts.entry(row(&case, run.name(), difference)).or_insert(0u64) += 1;
    }
    if answers.next().is_some() {
        println!("more answers than cases");
        unexplained += 1;
    }
    for (row, count) in counts {
        println!("{row}: {count}");
    }
    println!("lists compared: {compared}, unexplained differences: {unexplained}");
    unexplained == 0
}

/// How many cases of a row the sample has, and how many inputs each may have.
const OF_A_ROW: usize = 3;
const LONGEST: usize = 24;

/// The edges, and then, of the cases that look random, the first short ones of each row.
fn sample(edges: &str, out: &mut impl Write) {
    lines(edges).for_each(|line| writeln!(out, "{line}").unwrap());
    let mut rows: BTreeMap<String, Vec<Case>> = BTreeMap::new();
    for case in random_cases(100_000).filter(|case| case.inputs.len() <= LONGEST) {
        let (run, difference) = expected(&case);
        let chosen = rows.entry(row(&case, run.name(), difference)).or_default();
        if chosen.len() < OF_A_ROW {
            chosen.push(case);
        }
    }
    for (row, chosen) in rows {
        writeln!(out, "\n# Lists that look random. {row}.").unwrap();
        chosen.iter().for_each(|case| writeln!(out, "{case}").unwrap());
    }
}

pub fn run() {
    let args: Vec<String> = std::env::args().skip(1).collect();
    let mut out = BufWriter::new(io::stdout());
    match args.iter().map(String::as_str).collect::<Vec<_>>()[..] {
        ["cases", edges] => {
            let mut written = HashSet::new();
            let mut write_once = |line: String| {
                if is_comment(&line) || written.insert(line.clone()) {
                    writeln!(out, "{line}").unwrap();
                }
            };
            lines(edges).for_each(&mut write_once);
            each_case(&mut |case| write_once(case.to_string()));
        }
        ["sample", edges] => sample(edges, &mut out),
        ["expect"] => {
            for line in io::stdin().lock().lines() {
                let line = line.unwrap();
                let answer = if is_comment(&line) { line } else { expected(&Case::read(&line)).0.text() };
                writeln!(out, "{answer}").unwrap();
            }
        }
        ["compare", cases, answers] => {
            if !compare(cases, answers) {
                std::process::exit(1);
            }
        }
        _ => panic!("cases EDGES, sample EDGES, expect, or compare CASES ANSWERS"),
    }
}
