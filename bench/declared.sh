#!/bin/sh
# Times the built program on methods whose lifetimes form a large ring or a complete graph: once with a return that names a
# lifetime, for which one walk over the bounds is made, and once without. The difference is what the walk and its part of the
# page take. Each time is the best of five runs, in milliseconds.
#
#   bench/declared.sh            with out/bridge_tool, which ./bridge builds
#   bench/declared.sh PROGRAM    with another build of the program
set -eu

here=$(CDPATH='' cd -P -- "$(dirname -- "$0")" && pwd -P)
program=${1:-$here/../out/bridge_tool}
scratch=$(mktemp -d)
trap 'rm -rf -- "$scratch"' EXIT

# A method with so many lifetimes, each with a parameter that carries it. In a ring each lifetime has one bound, in a complete
# graph it has one for each other lifetime.
input() {
    awk -v shape="$1" -v count="$2" -v returns="$3" '
    function bounds(at, step,    list, i) {
        if (shape == "none") return ""
        if (shape == "ring") return (at + step + count) % count
        list = ""
        for (i = 0; i < count; i++) if (i != at) list = list (list == "" ? "" : ",") i
        return list
    }
    BEGIN {
        opaque = "{\"named\":{\"segments\":[\"O\"]}}"
        printf "{\"root\":{\"items\":[{\"kind\":\"opaque\",\"name\":\"O\",\"methods\":[{\"name\":\"f\",\"self_type\":{\"segments\":[\"O\"]},\"lifetimes\":["
        for (i = 0; i < count; i++)
            printf "%s{\"name\":\"l%d\",\"longer\":[%s],\"shorter\":[%s]}", i ? "," : "", i, bounds(i, 1), bounds(i, -1)
        printf "],\"params\":["
        for (i = 0; i < count; i++)
            printf "%s{\"name\":\"p%d\",\"ty\":{\"ref\":{\"lifetime\":\"l%d\",\"to\":%s}}}", i ? "," : "", i, i, opaque
        printf "]"
        if (returns) printf ",\"ret\":{\"ref\":{\"lifetime\":\"l0\",\"to\":%s}}", opaque
        printf "}]}]}}\n"
    }'
}

best() {
    least=
    for _ in 1 2 3 4 5; do
        start=$(date +%s%N)
        "$program" check <"$1" >"$scratch/page"
        end=$(date +%s%N)
        took=$(((end - start) / 1000))
        if [ -z "$least" ] || [ "$took" -lt "$least" ]; then least=$took; fi
    done
    printf '%d.%d' $((least / 1000)) $((least % 1000 / 100))
}

printf '%-10s %9s %12s %12s\n' graph lifetimes with without
for graph in "none 1000" "none 4095" "ring 4095" "complete 500" "complete 1000"; do
    # shellcheck disable=SC2086
    set -- $graph
    input "$1" "$2" 1 >"$scratch/with"
    input "$1" "$2" 0 >"$scratch/without"
    printf '%-10s %9s %12s %12s\n' "$1" "$2" "$(best "$scratch/with")" "$(best "$scratch/without")"
done
