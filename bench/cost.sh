#!/bin/sh
# Counts the instructions of a call of the engine, by callgrind: a run of 10 delays against one of
# 1000. Each delay is a turn of 23 calls. What the script and the program's rows cost is left out: it
# is the same with fuel 0, where nothing is asked.
top=$(cd "$(dirname "$0")/.." && pwd)
program=$top/crates/golden_engine/out/golden_engine

[ -x "$program" ] || (cd "$top/crates/golden_engine" && rt run) || exit 1

# The instructions of one run with these words.
instructions() {
    valgrind --tool=callgrind --callgrind-out-file=/dev/null "$program" "$1" "$2" 2>&1 |
        sed -n 's/.*Collected : *\([0-9]*\).*/\1/p'
}

echo "| delays | calls | instructions | a call |"
echo "|---|---|---|---|"
for delays in 10 1000; do
    calls=$((34 + 23 * delays))
    spent=$(($(instructions "$delays" "$calls") - $(instructions "$delays" 0)))
    echo "| $delays | $calls | $spent | $((spent / calls)) |"
done
