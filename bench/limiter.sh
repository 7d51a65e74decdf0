#!/bin/sh
# Counts the instructions of a limiter's calls, by callgrind: so many of them against none.
top=$(cd "$(dirname "$0")/.." && pwd)
program=$top/crates/bench_limiter/out/bench_limiter
count=${1:-100000}

[ -x "$program" ] || (cd "$top/crates/bench_limiter" && rt run) || exit 1

# The instructions of one run of this call, so often.
instructions() {
    valgrind --tool=callgrind --callgrind-out-file=/dev/null "$program" "$1" "$count" 2>&1 |
        sed -n 's/.*Collected : *\([0-9]*\).*/\1/p'
}

none=$(instructions none)
echo "| call | instructions a call |"
echo "|---|---|"
for call in acquire update; do
    echo "| $call | $((($(instructions "$call") - none) / count)) |"
done
