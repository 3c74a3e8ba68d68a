#!/bin/sh
# Times the making of contexts by `TypeContext::new`, from as many structs as methods: each struct but the first of eight contains the one
# before it, and has a method that takes another of it. In milliseconds, the least of five processes. The program is made in a temporary
# folder, beside a copy of the crates and of the definitions that the tests of contexts use, is proved there first, and is deleted with it.
#
#   bench/contexts.sh            makes the program, and times it
#   bench/contexts.sh PROGRAM    times a program that was made before
set -eu

here=$(CDPATH='' cd -P -- "$(dirname -- "$0")" && pwd -P)
folder=$(mktemp -d)
trap 'rm -rf -- "$folder"' EXIT INT TERM

build() {
    below=$(sed -n 's/^hir_context: //p' "$here/../crates.txt")
    echo "context_times: $below hir_context" >"$folder/crates.txt"
    for crate in $below hir_context; do
        if [ -d "$here/../crates/$crate" ]; then
            grep "^$crate:" "$here/../crates.txt" >>"$folder/crates.txt"
            mkdir -p "$folder/crates/$crate"
            for part in src specs proofs; do
                if [ -d "$here/../crates/$crate/$part" ]; then
                    cp -R "$here/../crates/$crate/$part" "$folder/crates/$crate/"
                fi
            done
        fi
    done
    mkdir -p "$folder/crates/context_times/src"
    cd "$folder/crates/context_times"
    sed 's/^use std::test::Fail;/use crate::Fail;/' "$here/../crates/hir_defs_tests/src/tests/made.rt" >src/made.rt
    cp "$here/contexts/main.part" src/main.rt
    rt run >/dev/null
    program=$folder/crates/context_times/out/context_times
}

if [ $# -ge 1 ]; then program=$1; else build; fi

for _ in 1 2 3 4 5; do
    "$program"
done | awk '
    !($1 in least) || $2 < least[$1] { least[$1] = $2 }
    END { for (count in least) printf "%8d %8.1f\n", count, least[count] / 1e6 }' | sort -n
if [ -x /usr/bin/time ]; then
    /usr/bin/time -f 'peak of all: %M KB' "$program" >/dev/null
fi
