#!/bin/sh
# Compares our enforcer of budgets with that of the Rust crate.
#
#     oracle/budget.sh FOLDER           compares; FOLDER has the crate's src/de/budget.rs, options.rs and tags.rs, and src/tag.rs
#     oracle/budget.sh FOLDER --write   the same, and writes the sample into crates/budget_tests/stdin and stdout
#
# The files are compiled as they are, from FOLDER, in a temporary folder, with the feature `comments` off, over stand-ins for the parser's
# events and its tag, for `SmallVec`, and for two types that options.rs names. Our program has to be built first, by `rt run` in crates/budget_tests.
#
# A case is limits, policies and a list of inputs (oracle/budget/cases.rs), and both sides answer a line (oracle/budget/answers.rs). Ours has
# to be the Rust's, but for one difference:
#     the Rust with alias_anchor_min_aliases 0 refuses 0 aliases on 0 anchors; ours answers what the Rust answers with a minimum of 1
#     (difference no-aliases-on-no-anchors)
# The check of limits and the bound of anchor numbers are not in the Rust. Their cases, with answers worked out by hand, are in
# oracle/budget/by-hand.txt; our program is compared with them too.
set -eu
here=$(cd "$(dirname "$0")" && pwd)
. "$here/common.sh"
prepare budget_tests "$@"
ours=$here/budget
stand_in "$ours/granit_parser.rs"
stand_in "$ours/smallvec.rs"
make_oracle "$folder/src/tag.rs" "$folder/src/de/tags.rs" "$folder/src/de/options.rs" "$folder/src/de/budget.rs" \
    "$ours/de_error.rs" "$ours/indentation.rs" "$here/random.rs" "$ours/cases.rs" "$ours/answers.rs" "$ours/generator.rs" "$ours/oracle.rs"
edges=$ours/edges.txt
byhand=$ours/by-hand.txt
"$build/oracle" cases "$edges" > "$build/cases"
"$program" < "$build/cases" > "$build/answers"
"$build/oracle" compare "$build/cases" "$build/answers"

# by-hand.txt: a case, `=>` and its answer to a line
sed 's/ *=> .*//' "$byhand" > "$build/asked"
sed 's/.* => //' "$byhand" > "$build/told"
"$program" < "$build/asked" > "$build/answered"
diff "$build/told" "$build/answered"
echo "answers worked out by hand: $(grep -c ' => ' "$byhand"), all the same"

if [ "${2:-}" = --write ]; then
    "$build/oracle" sample "$edges" > "$build/sample"
    "$build/oracle" expect < "$build/sample" > "$build/expected"
    cat "$build/asked" >> "$build/sample"
    cat "$build/told" >> "$build/expected"
    cp "$build/sample" "$root/crates/budget_tests/stdin"
    cp "$build/expected" "$root/crates/budget_tests/stdout"
    echo "sample: $(wc -l < "$build/sample") lines, $(grep -vc '^#\|^$' "$build/sample") of them cases"
fi
