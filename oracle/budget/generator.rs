//! Makes the cases: all short lists over a few inputs, and long lists that look random.
use crate::answers::rust_run;
use crate::budget::EnforcingPolicy;
use crate::cases::{COUNTINGS, Case, Input, LIMITS, MERGES};
use crate::options::MergeKeyPolicy;
use crate::random::Random;

const MERGE_TAG: &str = "tag:yaml.org,2002:merge";
const LARGEST: usize = 1 << 30;

/// The ratio rule as it bites soonest.
const STRICT_RATIO: [(&str, usize); 2] = [("alias_anchor_min_aliases", 0), ("alias_anchor_ratio_multiplier", 1)];

fn bare(kind: u8) -> Input {
    Input { kind: Some(kind), ..Input::default() }
}

/// The inputs of the short lists: each kind that changes something, a merge key, an anchor and an alias reference.
fn alphabet() -> Vec<Input> {
    let mut inputs: Vec<Input> = [2, 4, 6, 7, 8, 9].into_iter().map(bare).collect();
    inputs.push(Input { value: "<<".into(), ..bare(5) });
    inputs.push(Input { anchor: 1, ..bare(5) });
    inputs.push(Input { tag: "!t".into(), anchor: 2, ..bare(8) });
    inputs.push(Input::default());
    inputs
}

/// Hands all lists over the alphabet, up to a length, to `take`.
fn each_short_list(longest: usize, take: &mut impl FnMut(&[Input])) {
    fn extend(list: &mut Vec<Input>, letters: &[Input], left: usize, take: &mut impl FnMut(&[Input])) {
        take(list);
        if left > 0 {
            for letter in letters {
                list.push(letter.clone());
                extend(list, letters, left - 1, take);
                list.pop();
            }
        }
    }
    extend(&mut Vec::new(), &alphabet(), longest, take);
}

/// Every short list with the strict ratio rule; and the somewhat shorter ones with each limit as small as can tell.
fn short_cases(take: &mut impl FnMut(Case)) {
    let mut take_all = |limits: &[(&'static str, usize)], inputs: &[Input]| {
        for (_, counting) in COUNTINGS {
            take(Case { limits: limits.to_vec(), counting, merge: MergeKeyPolicy::Merge, inputs: inputs.to_vec() });
        }
    };
    each_short_list(5, &mut |inputs| take_all(&STRICT_RATIO, inputs));
    for name in &LIMITS[..8] {
        each_short_list(4, &mut |inputs| take_all(&[(name, 1), STRICT_RATIO[0], STRICT_RATIO[1]], inputs));
    }
}

fn random_anchor(random: &mut Random) -> usize {
    match random.below(12) {
        0..8 => 0,
        8..11 => 1 + random.below(4),
        _ => random.one_of(&[7, 8, 63, 64, 255, 256, 511, 512, 1022, 1023]),
    }
}

fn random_tag(random: &mut Random) -> &'static str {
    let tags = [
        MERGE_TAG, MERGE_TAG, "!", "!merge", "!!merge", "tag:yaml.org,2002:", "tag:yaml.org,2002:merg", "tag:yaml.org,2002:merges",
        "tag:yaml.org,2002:!merge", "tag:yaml.org,2001:merge", "merge", "!é", "tag:yaml.org,2002:str",
    ];
    if random.once_in(3) { random.one_of(&tags) } else { "" }
}

fn random_value(random: &mut Random) -> &'static str {
    let values = ["<<", "<<", "<<", "", "a", "<", "<<<", "<< ", "<a", "a<", "é", "日本", "mass", "a longer text of some bytes"];
    random.one_of(&values)
}

/// An input of a kind, with the fields that such an event has; now and then also with fields that it has not.
fn random_input(random: &mut Random, kind: u8) -> Input {
    let stray = random.once_in(20);
    let scalar = kind == 5 || stray;
    let node = matches!(kind, 5 | 6 | 8) || stray;
    Input {
        kind: Some(kind),
        anchor: if node || kind == 4 { random_anchor(random) } else { 0 },
        value: if scalar { random_value(random) } else { "" }.into(),
        tag: if node { random_tag(random) } else { "" }.into(),
        style: if scalar && random.once_in(3) { random.below(5) } else { 0 },
    }
}

/// A key that counts as a merge key, or that nearly does.
fn merge_key(random: &mut Random) -> Input {
    let style = random.one_of(&[0, 0, 0, 1, 4]);
    Input { value: "<<".into(), tag: random.one_of(&["", "", "", MERGE_TAG, "!merge"]).into(), style, ..bare(5) }
}

fn node(random: &mut Random, deepest: usize, list: &mut Vec<Input>) {
    if random.once_in(12) {
        list.push(Input::default());
    }
    let kind = if deepest == 0 { random.one_of(&[4, 5, 5, 5]) } else { random.one_of(&[4, 5, 5, 5, 5, 6, 6, 8, 8, 8]) };
    list.push(random_input(random, kind));
    if matches!(kind, 6 | 8) {
        for _ in 0..random.below(4) {
            if kind == 8 && random.once_in(3) {
                list.push(merge_key(random));
            } else if kind == 8 {
                node(random, deepest - 1, list);
            }
            node(random, deepest - 1, list);
        }
        list.push(random_input(random, kind + 1));
    }
}

/// A stream of documents whose starts and ends pair.
fn balanced(random: &mut Random) -> Vec<Input> {
    let mut list = vec![random_input(random, 0)];
    for _ in 0..random.one_of(&[1, 1, 2, 3, 5]) {
        list.push(random_input(random, 2));
        for _ in 0..random.one_of(&[1, 1, 1, 3]) {
            let deepest = random.below(5);
            node(random, deepest, &mut list);
        }
        if !random.once_in(8) {
            list.push(random_input(random, 3));
        }
    }
    list.push(random_input(random, 1));
    list
}

fn any_input(random: &mut Random) -> Input {
    let kind = random.one_of(&[0, 1, 2, 2, 3, 4, 4, 5, 5, 5, 5, 5, 5, 6, 6, 7, 8, 8, 8, 9, 10]);
    if kind == 10 { Input::default() } else { random_input(random, kind) }
}

/// A balanced list with a few inputs lost, put in or exchanged.
fn near_balanced(random: &mut Random) -> Vec<Input> {
    let mut list = balanced(random);
    for _ in 0..1 + random.below(3) {
        let place = random.below(list.len());
        match random.below(4) {
            0 if list.len() > 1 => {
                list.remove(place);
            }
            1 => list[place] = any_input(random),
            2 => list.swap(place, 0),
            _ => list.insert(place, any_input(random)),
        }
    }
    list
}

fn random_list(random: &mut Random) -> Vec<Input> {
    match random.below(10) {
        0..5 => balanced(random),
        5..8 => near_balanced(random),
        _ => (0..random.below(40)).map(|_| any_input(random)).collect(),
    }
}

/// The counts of the whole list, in the order of `LIMITS`, where nothing is refused but what does not pair.
fn whole_counts(inputs: &[Input], merge: MergeKeyPolicy) -> [usize; 8] {
    let limits = LIMITS[..8].iter().map(|name| (*name, LARGEST)).collect();
    let report = rust_run(&Case { limits, counting: EnforcingPolicy::AllContent, merge, inputs: inputs.to_vec() }).report;
    [
        report.events, report.aliases, report.anchors, report.max_depth, report.documents, report.nodes, report.total_scalar_bytes,
        report.merge_keys,
    ]
}

/// Limits about the counts, so that each is sometimes kept and sometimes passed.
fn random_limits(random: &mut Random, counts: [usize; 8]) -> Vec<(&'static str, usize)> {
    let mut chosen = [false; 8];
    for _ in 0..random.one_of(&[0, 1, 1, 1, 1, 2, 2, 3, 8]) {
        chosen[random.below(8)] = true;
    }
    let mut limits = Vec::new();
    for (place, count) in counts.into_iter().enumerate().filter(|(place, _)| chosen[*place]) {
        let number = match random.below(5) {
            0 => count,
            1 => count.saturating_sub(1),
            2 => count + 1,
            _ => random.below(count + 1),
        };
        limits.push((LIMITS[place], number));
    }
    if random.once_in(8) {
        limits.push(("enforce_alias_anchor_ratio", random.below(2)));
    }
    if !random.once_in(4) {
        limits.push(("alias_anchor_min_aliases", random.one_of(&[0, 1, 1, 2, 2, 3, 4, counts[1]])));
    }
    if !random.once_in(4) {
        limits.push(("alias_anchor_ratio_multiplier", random.one_of(&[0, 1, 1, 2, 3, LARGEST])));
    }
    limits
}

fn random_case(random: &mut Random) -> Case {
    let inputs = random_list(random);
    let merge = random.one_of(&[MERGES[0], MERGES[0], MERGES[1], MERGES[2]]).1;
    let limits = random_limits(random, whole_counts(&inputs, merge));
    Case { limits, counting: random.one_of(&COUNTINGS).1, merge, inputs }
}

/// The cases that look random, the same in each run.
pub fn random_cases(count: usize) -> impl Iterator<Item = Case> {
    let mut random = Random(0x9e37_79b9_7f4a_7c15);
    (0..count).map(move |_| random_case(&mut random))
}

/// Hands every case to `take`.
pub fn each_case(take: &mut impl FnMut(Case)) {
    short_cases(take);
    random_cases(250_000).for_each(take);
}
