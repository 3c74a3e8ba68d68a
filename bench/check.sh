#!/bin/sh
# Times the built program with `check` on large inputs, beside `links` on the same: that reads them, tests no rule and prints a line. The
# difference is what lowering, the rules, borrowing and the page take. Each time is the least of three runs, in milliseconds, and the memory
# the peak of one, in MB.
#
#   bench/check.sh            with out/bridge_tool, which ./bridge builds
#   bench/check.sh PROGRAM    with another build of the program
set -eu

here=$(CDPATH='' cd -P -- "$(dirname -- "$0")" && pwd -P)
program=${1:-$here/../out/bridge_tool}
scratch=$(mktemp -d)
trap 'rm -rf -- "$scratch"' EXIT

# An input of a shape and a size:
#   structs     so many structs, each but the first of eight with the one before it and a reference, and as many functions over them
#   methods     one opaque with so many methods
#   chain       so many functions with 30 lifetimes in a chain, a parameter for each, that return the first
#   doubled     so many structs, each of which holds the one before it twice, and a function over the last
#   ring        so many structs, each of which holds the next in an option, and the last the first: all contain themselves
#   aliases     so many aliases, each for the next, and the last for the first, and a function over one
#   items       so many opaques in one module
#   modules     so many modules in the root, with an opaque each
input() {
    awk -v shape="$1" -v n="$2" '
    function q(s) { return "\"" s "\"" }
    function path(name, lifetimes) {
        return "{\"segments\":[" q(name) "]" (lifetimes == "" ? "" : ",\"lifetimes\":[" lifetimes "]") "}"
    }
    function named(name, lifetimes) { return "{\"named\":" path(name, lifetimes) "}" }
    function reference(lifetime, to) { return "{\"ref\":{\"lifetime\":" q(lifetime) ",\"to\":" to "}}" }
    function option(to) { return "{\"diplomat_option\":" to "}" }
    function part(name, ty) { return "{\"name\":" q(name) ",\"ty\":" ty "}" }
    function opaque(name) { return "{\"kind\":\"opaque\",\"name\":" q(name) "}" }
    function two() { return "\"lifetimes\":[{\"name\":\"a\",\"longer\":[1]},{\"name\":\"b\",\"shorter\":[0]}]" }
    function struct_of(name, fields) {
        return "{\"kind\":\"struct\",\"name\":" q(name) ",\"lifetimes\":[{\"name\":\"a\"}],\"fields\":[" fields "]}"
    }
    function over(name, of) {
        return "{\"kind\":\"function\",\"name\":" q(name) "," two() ",\"params\":[" part("p", named(of, q("a"))) "," part("q", reference("b", named("O"))) "],\"ret\":" reference("a", named("O")) "}"
    }
    function chain(name,    i, s) {
        s = "{\"kind\":\"function\",\"name\":" q(name) ",\"lifetimes\":["
        for (i = 0; i < 30; i++) s = s (i ? "," : "") "{\"name\":\"l" i "\"" (i < 29 ? ",\"longer\":[" (i + 1) "]" : "") (i ? ",\"shorter\":[" (i - 1) "]" : "") "}"
        s = s "],\"params\":["
        for (i = 0; i < 30; i++) s = s (i ? "," : "") part("p" i, reference("l" i, named("O")))
        return s "],\"ret\":" reference("l0", named("O")) "}"
    }
    BEGIN {
        printf "{\"backend\":{\"name\":\"bench\",\"supports\":[\"free_functions\",\"option\"]},\"root\":{"
        if (shape == "modules") {
            printf "\"modules\":["
            for (i = 0; i < n; i++) printf "%s{\"name\":\"m%d\",\"items\":[%s]}", i ? "," : "", i, opaque("O")
            printf "]}}\n"
            exit
        }
        if (shape == "aliases") {
            printf "\"aliases\":["
            for (i = 0; i < n; i++) printf "%s{\"name\":\"a%d\",\"target\":[\"a%d\"]}", i ? "," : "", i, (i + 1) % n
            printf "],"
        }
        printf "\"items\":["
        if (shape == "methods") {
            printf "{\"kind\":\"opaque\",\"name\":\"O\",\"methods\":["
            for (i = 0; i < n; i++)
                printf "%s{\"name\":\"m%d\",\"self_type\":%s,\"self\":{\"reference\":{\"lifetime\":\"a\"},\"path\":%s},%s,\"params\":[%s],\"ret\":%s}", i ? "," : "", i, path("O"), path("O"), two(), part("y", reference("b", named("O"))), reference("a", named("O"))
            printf "]}]}}\n"
            exit
        }
        printf "%s", opaque("O")
        if (shape == "structs") {
            for (i = 0; i < n; i++)
                printf ",%s", struct_of("S" i, part("x", reference("a", named("O"))) (i % 8 ? "," part("s", named("S" (i - 1), q("a"))) : ""))
            for (i = 0; i < n; i++) printf ",%s", over("f" i, "S" i)
        }
        if (shape == "chain") for (i = 0; i < n; i++) printf ",%s", chain("f" i)
        if (shape == "doubled") {
            for (i = 0; i < n; i++) {
                held = i ? named("S" (i - 1), q("a")) : reference("a", named("O"))
                printf ",%s", struct_of("S" i, part("x", held) "," part("y", held))
            }
            printf ",%s", over("f", "S" (n - 1))
        }
        if (shape == "ring") for (i = 0; i < n; i++) printf ",%s", struct_of("S" i, part("s", option(named("S" ((i + 1) % n), q("a")))))
        if (shape == "aliases") printf ",%s", over("f", "a0")
        if (shape == "items") for (i = 1; i < n; i++) printf ",%s", opaque("O" i)
        printf "]}}\n"
    }'
}

# The least time of three runs with a word, and the peak of the last.
timed() {
    least=
    for _ in 1 2 3; do
        start=$(date +%s%N)
        /usr/bin/time -f %M -o "$scratch/peak" "$program" "$1" <"$scratch/input" >"$scratch/page" || true
        end=$(date +%s%N)
        took=$(((end - start) / 1000000))
        if [ -z "$least" ] || [ "$took" -lt "$least" ]; then least=$took; fi
    done
    peak=$(($(tail -n 1 "$scratch/peak") / 1024))
}

printf '%-9s %9s %8s %9s %9s %9s %9s   %s\n' shape size MB links memory check memory answer
for row in "structs 1000" "structs 10000" "structs 80000" "methods 1000" "methods 10000" "chain 1000" "doubled 19" "doubled 20" \
    "ring 10000" "aliases 10000" "items 1000000" "modules 100000"; do
    # shellcheck disable=SC2086
    set -- $row
    input "$1" "$2" >"$scratch/input"
    size=$(($(wc -c <"$scratch/input") / 100000))
    timed links
    read_time=$least read_peak=$peak
    timed check
    printf '%-9s %9s %6s.%s %9s %9s %9s %9s   %s\n' "$1" "$2" $((size / 10)) $((size % 10)) "$read_time" "$read_peak" "$least" "$peak" "$(tail -n 1 "$scratch/page")"
done
