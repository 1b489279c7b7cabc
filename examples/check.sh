#!/bin/sh
# Runs each example NAME.helium of this folder and its subfolders by ./helium, and compares what it writes with NAME.stdout
# and its status with NAME.status (no such file: 0). The words are those of NAME.args, one a line (no such file:
# run --serial). The proved program has to write nothing to standard error.
cd "$(dirname "$0")" || exit 1
program=$(../prove --find) || exit 1
by='the proved program'
[ -x "$program" ] || by='a build whose proofs were not checked on this machine'
room=$(mktemp -d) || exit 1
trap 'rm -rf "$room"' EXIT
trap 'exit 130' INT TERM HUP
passed=0
failed=0

# Says the first line in which what was written, the second file, differs from what was wanted.
first_difference() {
    awk 'BEGIN { wanted = ARGV[1]; written = ARGV[2]
        do { number++; has = (getline want <wanted) > 0; wrote = (getline line <written) > 0
        } while (has && wrote && want "" == line "")
        if (!has && !wrote) print "  they differ only in how a line ends"
        else print "  line " number " is " (wrote ? "`" line "`" : "missing") ", and wanted is " (has ? "`" want "`" : "no such line") }' "$1" "$2"
}

find . -name '*.helium' | LC_ALL=C sort >"$room/scripts"
while IFS= read -r script; do
    name=${script%.helium}
    want=0
    [ ! -f "$name.status" ] || want=$(cat "$name.status")
    set -- run --serial
    if [ -f "$name.args" ]; then
        set --
        while IFS= read -r word; do
            set -- "$@" "$word"
        done <"$name.args"
    fi
    ../helium "$@" <"$script" >"$room/stdout" 2>"$room/stderr"
    got=$?
    [ -x "$program" ] || { cat "$room/stderr" >&2; : >"$room/stderr"; }
    if [ "$got" -eq "$want" ] && cmp -s "$name.stdout" "$room/stdout" && [ ! -s "$room/stderr" ]; then
        passed=$((passed + 1))
        continue
    fi
    failed=$((failed + 1))
    echo "example ${name#./}: status $got, and wanted is $want"
    cmp -s "$name.stdout" "$room/stdout" || first_difference "$name.stdout" "$room/stdout"
    [ ! -s "$room/stderr" ] || echo "  standard error begins with \`$(head -n 1 "$room/stderr")\`"
done <"$room/scripts"
echo "$passed passed, $failed failed, by $by"
[ "$failed" -eq 0 ] && [ "$passed" -gt 0 ]
