#!/bin/sh
# Compares our reader of include tags with that of the Rust crate.
#
#     oracle/tags.sh FOLDER           compares; FOLDER has the crate's src/de/tags.rs and src/tag.rs
#     oracle/tags.sh FOLDER --write   the same, and writes the sample into crates/tags_tests/stdin and stdout
#
# Both files are compiled as they are, from FOLDER, in a temporary folder, over a stand-in for the parser's tag.
# Our program has to be built first, by `rt run` in crates/tags_tests.
#
# How the answers go together (oracle/tags/oracle.rs, `expected`):
#     Rust                                              ours
#     Ok(None)                                          none
#     Err, the tag's fragment is empty                  refused 4
#     Err, a `#` in the value of a tag with `#`         refused 5
#     Ok(Some(s)), s split at its first `#`             spec PATH ANCHOR
#     Ok(Some(s)), s has no `#`                         refused 6   (difference no-hash-under-a-bare-tag)
#     Ok(Some(s)), nothing before the first `#` of s    refused 6   (difference empty-path)
#     Ok(Some(s)), nothing after the first `#` of s     refused 6   (difference empty-anchor)
set -eu
here=$(cd "$(dirname "$0")" && pwd)
. "$here/common.sh"
prepare tags_tests "$@"
features=include
stand_in "$here/tags/granit_parser.rs"
make_oracle "$folder/src/tag.rs" "$folder/src/de/tags.rs" "$here/random.rs" "$here/tags/oracle.rs"
"$build/oracle" pairs > "$build/pairs"
"$program" < "$build/pairs" > "$build/answers"
"$build/oracle" compare "$build/pairs" "$build/answers"
if [ "${2:-}" = --write ]; then
    "$build/oracle" sample > "$build/sample"
    "$build/oracle" expect < "$build/sample" > "$build/expected"
    # an include tag counts on a scalar (5) alone; there are ten kinds
    for kind in 0 1 2 3 4 5 6 7 8 9 10; do
        printf '!include\ta#b\t%s\n' "$kind" >> "$build/sample"
        case $kind in
            5) printf 'spec\ta\tb\n' ;;
            10) printf 'no such kind\n' ;;
            *) printf 'none\n' ;;
        esac >> "$build/expected"
    done
    cp "$build/sample" "$root/crates/tags_tests/stdin"
    cp "$build/expected" "$root/crates/tags_tests/stdout"
    echo "sample: $(wc -l < "$build/sample") lines"
fi
