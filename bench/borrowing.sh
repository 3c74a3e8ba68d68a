#!/bin/sh
# Times both visitors of `hir_borrow`, the one level deep without slices and with them: 1,000 times of a method with 30 lifetimes in a chain, of
# which it returns all or one, and 30 parameters, 50 times of one that takes a struct 200 deep, and once of one that takes a struct with 2^20 leaves.
# In milliseconds, the least of five processes. The program is made in a temporary folder, beside a copy of the crates, of what is built of them in
# out/, and of what the tests of borrowing make contexts by, is proved there first, with the crates that aren't built, and is deleted with it.
#
#   bench/borrowing.sh            makes the program, and times it
#   bench/borrowing.sh PROGRAM    times a program that was made before
set -eu

here=$(CDPATH='' cd -P -- "$(dirname -- "$0")" && pwd -P)
folder=$(mktemp -d)
trap 'rm -rf -- "$folder"' EXIT INT TERM

build() {
    below=$(sed -n 's/^hir_borrow: //p' "$here/../crates.txt")
    echo "borrowing_times: $below hir_borrow" >"$folder/crates.txt"
    for crate in $below hir_borrow; do
        if [ -d "$here/../crates/$crate" ]; then
            grep "^$crate:" "$here/../crates.txt" >>"$folder/crates.txt"
            mkdir -p "$folder/crates/$crate/out"
            for part in src specs proofs out/rlib; do
                if [ -d "$here/../crates/$crate/$part" ]; then
                    cp -R "$here/../crates/$crate/$part" "$folder/crates/$crate/$part"
                fi
            done
        fi
    done
    mkdir -p "$folder/crates/borrowing_times/src" "$folder/crates/borrowing_times/proofs"
    cd "$folder/crates/borrowing_times"
    for file in made signatures; do
        sed 's/^use std::test::Fail;/use crate::Fail;/; s/crate::tests::/crate::/' \
            "$here/../crates/hir_borrow_tests/src/tests/$file.rt" >src/$file.rt
    done
    cp "$here/../crates/hir_life_tests/src/tests/sound.rt" src/sound.rt
    cp -R "$here/../crates/hir_life_tests/proofs/tests/sound" proofs/sound
    find proofs -name '*.antt' -exec sed -i 's/hir_life_tests.proofs.tests/borrowing_times.proofs/' {} +
    cp "$here/borrowing/main.part" src/main.rt
    rt run >/dev/null
    program=$folder/crates/borrowing_times/out/borrowing_times
}

if [ $# -ge 1 ]; then program=$1; else build; fi

for _ in 1 2 3 4 5; do
    "$program"
done | awk '
    !($1 in least) || $2 < least[$1] { least[$1] = $2 }
    END { for (what in least) printf "%-14s %8.1f\n", what, least[what] / 1e6 }' | sort
if [ -x /usr/bin/time ]; then
    /usr/bin/time -f 'peak of all: %M KB' "$program" >/dev/null
fi
