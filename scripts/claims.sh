#!/usr/bin/env bash
# Claims per second of crates/claim_bench beside the same loop in Rust, interleaved, medians of nine runs each.
# Usage: scripts/claims.sh [CLAIM_BENCH]     CLAIM_BENCH: the program; else crates/claim_bench/out/claim_bench, built first if it is not there
set -eu
top=$(cd "$(dirname "$0")/.." && pwd)
ours=${1:-$top/crates/claim_bench/out/claim_bench}
if [ ! -x "$ours" ]; then (cd "$top/crates/claim_bench" && rt run >/dev/null 2>&1); fi
work=$(mktemp -d)
trap 'rm -rf "$work"' EXIT
CARGO_TARGET_DIR=$work cargo build --release --quiet --manifest-path "$top/scripts/claims/Cargo.toml"
theirs=$work/release/claims
count=4000000
middle() { sort -n | sed -n 5p; }
printf '%-8s %-8s %16s %16s %7s\n' workers words "rvld claims/s" "Rust claims/s" ratio
for words in 4000000 1; do
    for workers in 1 2 4; do
        : >"$work/ours"
        : >"$work/theirs"
        for _ in 1 2 3 4 5 6 7 8 9; do
            a=$("$ours" "$workers" "$words" "$count")
            b=$("$theirs" "$workers" "$words" "$count")
            [ "${a##* }" = "${b##* }" ] || { echo "the closed tables differ: $a; $b"; exit 1; }
            echo "$a" | cut -d' ' -f4 >>"$work/ours"
            echo "$b" | cut -d' ' -f4 >>"$work/theirs"
        done
        a=$(middle <"$work/ours")
        b=$(middle <"$work/theirs")
        awk -v k="$workers" -v w="$words" -v n="$count" -v a="$a" -v b="$b" \
            'BEGIN { printf "%-8d %-8d %16.0f %16.0f %7.2f\n", k, w, n * 1e9 / a, n * 1e9 / b, a / b }'
    done
done
