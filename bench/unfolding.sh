#!/bin/sh
# Counts the instructions of unfolding one passage with 200, 400 and 800 aliases, and says how they grow.
#
#     bench/unfolding.sh
#
# It makes a book for each size, whose one score has a node of four events and a passage of aliases to it, and counts with valgrind's callgrind
# the instructions of `partbook unfold` on that passage, less those of the same call on a passage of one event: what is left is the unfolding of the
# passage, with the printing of its events. Twice the aliases may cost at most 2.2 times. The program has to be built first (bin/partbook does it).
#
# rattle-kit-13f: 200 aliases 688132, 400 aliases 1373123, 800 aliases 2751029 instructions.
set -eu
root=$(cd "$(dirname "$0")/.." && pwd)
program=$root/crates/partbook/out/partbook
[ -x "$program" ] || { echo "no $program: run bin/partbook --help first" >&2; exit 2; }
work=$(mktemp -d)
trap 'rm -rf "$work"' EXIT

# A book whose score has $1 aliases.
make_book() {
    mkdir "$work/$1"
    printf 'main main.events\nscore 1 score score.events\n' > "$work/$1/book.txt"
    printf '+STR\n+DOC\n=VAL :main\n-DOC\n-STR\n' > "$work/$1/main.events"
    {
        printf '+STR\n+DOC\n+MAP\n=VAL :motif\n+SEQ &motif\n=VAL &one :c\n=VAL :d\n-SEQ\n=VAL :all\n+SEQ &all\n'
        for _ in $(seq "$1"); do echo '=ALI *motif'; done
        printf -- '-SEQ\n-MAP\n-DOC\n-STR\n'
    } > "$work/$1/score.events"
}

# The instructions of unfolding the passage $2 of the book with $1 aliases.
instructions() {
    valgrind --tool=callgrind --callgrind-out-file=/dev/null "$program" unfold "$work/$1" score "$2" 2>&1 >/dev/null |
        sed -n 's/.*Collected : *//p'
}

before=0
for aliases in 200 400 800; do
    make_book "$aliases"
    all=$(instructions "$aliases" all)
    one=$(instructions "$aliases" one)
    cost=$((all - one))
    echo "$aliases aliases: $cost instructions"
    if [ "$before" -gt 0 ] && [ $((cost * 10)) -gt $((before * 22)) ]; then
        echo "more than 2.2 times the cost of half the aliases" >&2
        exit 1
    fi
    before=$cost
done
