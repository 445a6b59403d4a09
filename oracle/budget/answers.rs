//! What the Rust's enforcer answers to a case, and what ours has to answer.
//!
//! An answer is `ANSWER | BREACHED | COUNTS`.
//!
//! - ANSWER: `ok` if no input is refused, or `at PLACE BREACH again TIMES`: the place of the first refused input, counted
//!   from 0, the breach, and how many later inputs got the same breach.
//! - BREACHED: the breach of the report, or `none`. A breach is its name and its counts.
//! - COUNTS: the report's events, aliases, anchors, documents, nodes, deepest depth, scalar bytes and merge keys.
use crate::budget::{Budget, BudgetBreach, BudgetEnforcer, BudgetReport};
use crate::cases::{Case, Input};
use granit_parser::{Event, ScalarStyle, StructureStyle, Tag};
use std::borrow::Cow;

const STYLES: [ScalarStyle; 5] =
    [ScalarStyle::Plain, ScalarStyle::SingleQuoted, ScalarStyle::DoubleQuoted, ScalarStyle::Literal, ScalarStyle::Folded];

/// The parser's event for an input. Fields that an event of this kind does not have are left out.
fn event(kind: u8, input: &Input) -> Event<'_> {
    let tag = (!input.tag.is_empty()).then(|| Cow::Owned(Tag::new(&input.tag)));
    match kind {
        0 => Event::StreamStart,
        1 => Event::StreamEnd,
        2 => Event::DocumentStart(true),
        3 => Event::DocumentEnd,
        4 => Event::Alias(input.anchor),
        5 => Event::Scalar(Cow::Borrowed(&input.value), STYLES[input.style], input.anchor, tag),
        6 => Event::SequenceStart(StructureStyle::Block, input.anchor, tag),
        7 => Event::SequenceEnd,
        8 => Event::MappingStart(StructureStyle::Block, input.anchor, tag),
        9 => Event::MappingEnd,
        _ => panic!("no such kind: {kind}"),
    }
}

fn breach_text(breach: &BudgetBreach) -> String {
    match breach {
        BudgetBreach::Events { events } => format!("Events {events}"),
        BudgetBreach::Aliases { aliases } => format!("Aliases {aliases}"),
        BudgetBreach::Anchors { anchors } => format!("Anchors {anchors}"),
        BudgetBreach::Depth { depth } => format!("Depth {depth}"),
        BudgetBreach::Documents { documents } => format!("Documents {documents}"),
        BudgetBreach::Nodes { nodes } => format!("Nodes {nodes}"),
        BudgetBreach::ScalarBytes { total_scalar_bytes } => format!("ScalarBytes {total_scalar_bytes}"),
        BudgetBreach::MergeKeys { merge_keys } => format!("MergeKeys {merge_keys}"),
        BudgetBreach::AliasAnchorRatio { aliases, anchors } => format!("AliasAnchorRatio {aliases} {anchors}"),
        BudgetBreach::SequenceUnbalanced => "SequenceUnbalanced".into(),
        other => panic!("a breach that no input of ours can bring about: {other:?}"),
    }
}

fn report_text(report: &BudgetReport) -> String {
    let breached = report.breached.as_ref().map_or("none".into(), breach_text);
    let BudgetReport { events, aliases, anchors, documents, nodes, max_depth, total_scalar_bytes, merge_keys, .. } = report;
    format!("{breached} | {events} {aliases} {anchors} {documents} {nodes} {max_depth} {total_scalar_bytes} {merge_keys}")
}

/// The answers to the inputs, in short, and the report.
pub struct Run {
    /// The first refused input's place and its breach.
    pub first: Option<(usize, String)>,
    pub again: usize,
    pub report: BudgetReport,
}

impl Run {
    fn of(case: &Case, budget: Budget) -> Run {
        let mut enforcer = BudgetEnforcer::new(budget, case.counting, case.merge);
        let mut first: Option<(usize, String)> = None;
        let mut again = 0;
        for (place, input) in case.inputs.iter().enumerate() {
            let answer = match input.kind {
                None => enforcer.observe_alias_reference(),
                Some(kind) => enforcer.observe(&event(kind, input)),
            };
            match (answer, &first) {
                (Err(breach), None) => first = Some((place, breach_text(&breach))),
                (Err(breach), Some((_, known))) => again += usize::from(breach_text(&breach) == *known),
                (Ok(()), _) => {}
            }
        }
        Run { first, again, report: enforcer.into_report() }
    }

    /// The name of the breach, or `ok`.
    pub fn name(&self) -> &str {
        self.first.as_ref().map_or("ok", |(_, breach)| breach.split(' ').next().unwrap())
    }

    pub fn text(&self) -> String {
        let answer = match &self.first {
            None => "ok".into(),
            Some((place, breach)) => format!("at {place} {breach} again {}", self.again),
        };
        format!("{answer} | {}", report_text(&self.report))
    }
}

/// What the Rust answers.
pub fn rust_run(case: &Case) -> Run {
    Run::of(case, case.budget())
}

pub const ZERO_ALIASES: &str = "no-aliases-on-no-anchors";

/// What ours has to answer, and the name of the difference, if there is one.
///
/// With `alias_anchor_min_aliases` 0 the Rust's ratio rule refuses 0 aliases on 0 anchors, and ours does not. A minimum
/// of 1 in place of 0 changes that one verdict and no other: so ours has to answer what the Rust answers with a
/// minimum of at least 1.
pub fn expected(case: &Case) -> (Run, Option<&'static str>) {
    let rust = rust_run(case);
    let given = case.budget();
    let zero_minimum = given.alias_anchor_min_aliases == 0;
    let wanted = Run::of(case, Budget { alias_anchor_min_aliases: given.alias_anchor_min_aliases.max(1), ..given });
    let departs = zero_minimum && matches!(rust.report.breached, Some(BudgetBreach::AliasAnchorRatio { aliases: 0, anchors: 0 }));
    assert!(departs || rust.text() == wanted.text(), "another difference than the named one: {case}");
    (wanted, departs.then_some(ZERO_ALIASES))
}
