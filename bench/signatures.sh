#!/bin/sh
# Times `hir_number` on signatures and definitions with as many lifetimes as there may be and many uses of them, and on such as declare far
# too many: the call that tells all that is wrong, and the call that numbers, in milliseconds, the least of five in one process, and the
# memory at the peak of a process that makes the input alone, and of those that call. The program is made in a temporary folder, beside a
# copy of the crates, is proved there first, and is deleted with it.
#
#   bench/signatures.sh            makes the program, and times it
#   bench/signatures.sh PROGRAM    times a program that was made before
set -eu

here=$(CDPATH='' cd -P -- "$(dirname -- "$0")" && pwd -P)
folder=$(mktemp -d)
trap 'rm -rf -- "$folder"' EXIT INT TERM

build() {
    crates='bridge_text bridge_decl bridge_ast hir_life hir_elide hir_number'
    for crate in $crates; do
        grep "^$crate:" "$here/../crates.txt" >>"$folder/crates.txt"
        mkdir -p "$folder/crates/$crate"
        for part in src specs proofs; do
            if [ -d "$here/../crates/$crate/$part" ]; then
                cp -R "$here/../crates/$crate/$part" "$folder/crates/$crate/"
            fi
        done
    done
    echo "signature_times: $crates smallvec sqlite_items" >>"$folder/crates.txt"
    mkdir -p "$folder/crates/signature_times/src"
    cd "$folder/crates/signature_times"
    for function in function_in method_in struct_in; do mkdir -p "proofs/$function"; done
    cp "$here/signatures/function_in.answers" proofs/function_in/Answers.antt
    cp "$here/signatures/method_in.answers" proofs/method_in/Answers.antt
    cp "$here/signatures/struct_in.answers" proofs/struct_in/Answers.antt
    cat "$here/signatures/making.part" "$here/signatures/timing.part" >src/main.rt
    rt run >/dev/null
    program=$folder/crates/signature_times/out/signature_times
}

if [ $# -ge 1 ]; then program=$1; else build; fi

# What a step takes in nanoseconds and what it answers, and the most memory that its process takes, in KB, where GNU time is there.
step() {
    if [ -x /usr/bin/time ]; then
        /usr/bin/time -f %M -o "$folder/peak" "$program" "$@" | tr '\n' ' '
        cat "$folder/peak"
    else
        echo "$("$program" "$@") 0"
    fi
}

printf '%-10s %9s %9s %10s %6s %12s %10s %10s %10s %10s\n' of names uses 'tested, ms' told 'numbered, ms' told 'made, MB' 'tested, MB' 'numbered, MB'
for row in 'function 4095 250000' 'function 4095 1000000' 'method 4093 250000' 'method 4093 1000000' \
    'definition 4095 250000' 'definition 4095 1000000' 'function 250000 250000' 'function 1000000 1000000' \
    'definition 250000 250000' 'definition 1000000 1000000'; do
    # shellcheck disable=SC2086
    echo "$row $(step made $row) $(step tested $row) $(step numbered $row)" | awk '
        { printf "%-10s %9d %9d %10.1f %6s %12.3f %10s %10.0f %10.0f %10.0f\n", $1, $2, $3, $7 / 1e6, $8, $10 / 1e6, $11, $6 / 1e3, $9 / 1e3, $12 / 1e3 }'
done
