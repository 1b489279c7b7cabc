#!/bin/sh
# Compares the transforms of ring_ntt, and the products of mod_ring, with the same steps in plain Rust, run
# in turn, and prints the ratios of their times. Build the program first: `rt run` in crates/ntt_bench.
set -e
cd "$(dirname "$0")"
proved=../../crates/ntt_bench/out/ntt_bench
work=$(mktemp -d)
trap 'rm -rf "$work"' EXIT
rustc -O -C target-cpu=x86-64-v2 -o "$work/plain" plain.rs
for turn in 1 2 3 4 5; do
    "$proved" measure >>"$work/proved.txt"
    "$work/plain" >>"$work/plain.txt"
    "$proved" products >>"$work/proved-products.txt"
    "$work/plain" products >>"$work/plain-products.txt"
done
# both programs make the same products: the last of each has the same constant coefficient
awk '
    { key = $1 " " $2 }
    FNR == NR { if (!(key in f) || $3 < f[key]) f[key] = $3; last[key] = $4; next }
    { if (!(key in pf) || $3 < pf[key]) pf[key] = $3
      if ($4 != last[key]) { print "the products differ at " key; wrong = 1; exit }
      if (!(key in seen)) { seen[key] = 1; order[++cases] = key } }
    END {
        if (wrong) exit 1
        printf "%-20s %6s %25s\n", "modulus", "n", "product (ns, plain)"
        for (i = 1; i <= cases; i++) {
            key = order[i]; split(key, part, " ")
            printf "%-20s %6s %9d %7d  %4.2f\n", part[1], part[2], f[key], pf[key], f[key] / pf[key]
        }
    }' "$work/proved-products.txt" "$work/plain-products.txt"
# the least of the five medians of each program, and their ratio
awk '
    { key = $1 " " $2 }
    FNR == NR { if (!(key in f) || $3 < f[key]) f[key] = $3; if (!(key in b) || $4 < b[key]) b[key] = $4; next }
    { if (!(key in pf) || $3 < pf[key]) pf[key] = $3; if (!(key in pb) || $4 < pb[key]) pb[key] = $4
      if (!(key in seen)) { seen[key] = 1; order[++cases] = key } }
    END {
        printf "%-20s %6s %25s %25s\n", "modulus", "n", "forward (ns, plain)", "back (ns, plain)"
        for (i = 1; i <= cases; i++) {
            key = order[i]; split(key, part, " ")
            printf "%-20s %6s %9d %7d  %4.2f   %9d %7d  %4.2f\n", part[1], part[2],
                f[key], pf[key], f[key] / pf[key], b[key], pb[key], b[key] / pb[key]
        }
    }' "$work/proved.txt" "$work/plain.txt"
