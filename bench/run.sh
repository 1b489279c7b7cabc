#!/bin/sh
# Builds the proved ntt_bench and scheme_bench and the same work in plain scalar Rust, runs them in turns, and prints
# for each work the least of five medians in nanoseconds, and the ratios to plain Rust and to plain Rust whose words
# come from vectors of four blocks, as the proved ones do. A claim of speed is a ratio of one run, and never a time.
set -e
cd "$(dirname "$0")"
work=$(mktemp -d)
trap 'rm -rf "$work"' EXIT
for program in ntt_bench scheme_bench; do
    if ! (cd "../crates/$program" && rt run) >"$work/build.txt" 2>&1; then
        cat "$work/build.txt"
        exit 1
    fi
done
plain() {
    rustc --edition 2024 -O -C target-cpu=x86-64-v2 --check-cfg 'cfg(vectors)' "$@"
}
plain -o "$work/ntt" ntt/plain.rs
plain -o "$work/scheme" scheme/plain.rs
plain --cfg vectors -o "$work/vectors" scheme/plain.rs

# One line a case: work, n, nanoseconds, and what the programs have to agree on.
transforms() {
    "$1" measure | awk '$1 < 2 ^ 55 { print "transform", $2, $3, 0; print "inverse-transform", $2, $4, 0 }'
    "$1" products | awk '{ print "product", $2, $3, $4 }'
}

for turn in 1 2 3 4 5; do
    transforms ../crates/ntt_bench/out/ntt_bench >>"$work/proved.txt"
    transforms "$work/ntt" >>"$work/plain.txt"
    ../crates/scheme_bench/out/scheme_bench measure >>"$work/proved.txt"
    "$work/scheme" measure >>"$work/plain.txt"
    "$work/vectors" measure >>"$work/vectors.txt"
done

awk '
    FNR == 1 { file++ }
    {
        key = $1 " " $2
        if (!((file, key) in least) || $3 < least[file, key]) least[file, key] = $3
        if (!(key in result)) { result[key] = $4; order[++cases] = key }
        if ($4 != result[key]) { print "the results differ at " key; wrong = 1; exit }
    }
    function column(file, key, n) {
        time = least[file, key] / n
        ratio = least[1, key] / least[file, key]
        return sprintf(n > 1 ? "%10.2f" : "%10d", time) (file > 1 ? sprintf("  %5.2f", ratio) : "")
    }
    END {
        if (wrong) exit 1
        printf "%-18s %5s %10s %10s  %5s %10s  %5s\n", "work", "n", "proved", "plain", "ratio", "vectors", "ratio"
        for (i = 1; i <= cases; i++) {
            key = order[i]; split(key, part, " "); n = part[1] ~ /words/ ? part[2] : 1
            if (n > 1) sub(/words/, "word", part[1])
            printf "%-18s %5d %s %s %s\n", part[1], part[2], column(1, key, n), column(2, key, n),
                (3, key) in least ? column(3, key, n) : ""
        }
    }' "$work/proved.txt" "$work/plain.txt" "$work/vectors.txt"
