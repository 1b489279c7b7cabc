#!/bin/sh
# Builds the proved session_bench, and prints for each call, named with its reply, how many can be made in a second where
# 10, 1,000 and 100,000 instances were issued, and that as a part of how many where there are 10. A claim of speed is
# such a ratio of one run, and never a number of calls.
set -e
cd "$(dirname "$0")/../crates/session_bench"
built=$(mktemp)
trap 'rm -f "$built"' EXIT
if ! rt run >"$built" 2>&1; then
    cat "$built"
    exit 1
fi
out/session_bench measure | awk '
    !($1 in first) { first[$1] = $3 }
    { printf "%-20s %7d %10d  %5.2f\n", $1, $2, $3, $3 / first[$1] }'
