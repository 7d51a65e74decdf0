#!/bin/sh
# Steps at one bucket: in a cell, behind a lock, and of one caller with a bucket of its own.
#
# The first table counts instructions by callgrind, with one caller, so nobody waits. The second
# counts steps a second with 1, 2 and 4 callers in threads, by the clock on the wall, the best of
# five runs each: other work on the machine changes it.
top=$(cd "$(dirname "$0")/.." && pwd)
program=$top/crates/bench_quota/out/bench_quota
rounds=${1:-1000000}

[ -x "$program" ] || (cd "$top/crates/bench_quota" && rt run) || exit 1

# The instructions of one caller with this form and so many rounds.
instructions() {
    valgrind --tool=callgrind --callgrind-out-file=/dev/null "$program" "$1" 1 "$2" 2>&1 |
        sed -n 's/.*Collected : *\([0-9]*\).*/\1/p'
}

# The nanoseconds of the best of five runs with these words.
best() {
    least=
    for _ in 1 2 3 4 5; do
        begun=$(date +%s%N)
        "$program" "$1" "$2" "$3" >/dev/null || exit 1
        spent=$(($(date +%s%N) - begun))
        [ -z "$least" ] || [ "$spent" -lt "$least" ] && least=$spent
    done
    echo "$least"
}

# A ratio of thousandths, with a point.
pointed() {
    echo "$(($1 / 1000)).$(printf %03d $(($1 % 1000)))"
}

counted=10000
echo "| bucket | instructions a step | to plain |"
echo "|---|---|---|"
for form in plain cell shared; do
    spent=$(($(instructions $form $counted) - $(instructions $form 0)))
    [ $form = plain ] && least=$spent
    echo "| $form | $((spent / counted / 2)) | $(pointed $((spent * 1000 / least))) |"
done

plain=$(best plain 1 "$rounds")
echo
echo "| bucket | callers | steps a second | to plain |"
echo "|---|---|---|---|"
echo "| plain | 1 | $((rounds * 2 * 1000000000 / plain)) | 1.000 |"
for form in cell shared; do
    for callers in 1 2 4; do
        spent=$(best $form $callers $((rounds / callers)))
        speed=$((rounds * 2 * 1000000000 / spent))
        echo "| $form | $callers | $speed | $(pointed $((plain * 1000 / spent))) |"
    done
done
