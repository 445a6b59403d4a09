# What the scripts of this folder have in common. A script sets `here` to this folder and sources this file.

# prepare PROGRAM [FOLDER ..]: sets folder, root, program and build (a temporary folder). Our program has to be built.
prepare() {
    if [ $# -lt 2 ]; then
        echo "usage: $0 FOLDER [--write]" >&2
        exit 2
    fi
    folder=$(cd "$2" && pwd)
    root=$(dirname "$here")
    program=$root/crates/$1/out/$1
    if [ ! -x "$program" ]; then
        echo "no $program: run 'rt run' in crates/$1 first" >&2
        exit 2
    fi
    build=$(mktemp -d)
    trap 'rm -rf "$build"' EXIT
}

# stand_in FILE: compiles a library under the file's name
stand_in() {
    name=$(basename "$1" .rs)
    rustc --edition 2024 -O --crate-type rlib --crate-name "$name" -o "$build/lib$name.rlib" "$1"
}

# make_oracle FILE ..: compiles the files, each a module under its name, as the program $build/oracle, whose main is that of oracle.rs; the
# features of the Rust crate that are on stand in $features
make_oracle() {
    echo '#![allow(dead_code)]' > "$build/main.rs"
    for file; do
        printf '#[path = "%s"]\nmod %s;\n' "$file" "$(basename "$file" .rs)"
    done >> "$build/main.rs"
    echo 'fn main() { oracle::run() }' >> "$build/main.rs"
    set -- --edition 2024 -O --check-cfg 'cfg(feature, values(any()))' -L "$build"
    for feature in ${features-}; do
        set -- "$@" --cfg "feature=\"$feature\""
    done
    for library in "$build"/lib*.rlib; do
        name=$(basename "$library" .rlib)
        set -- "$@" --extern "${name#lib}=$library"
    done
    rustc "$@" -o "$build/oracle" "$build/main.rs"
}
