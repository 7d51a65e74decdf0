#!/bin/sh
# Counts the instructions of the program, by callgrind: a call of a long run against one of a short
# run, also where a hook of each attempt merges a layer, and a byte of a long script that is read
# against one of a short script. The last cost of a call leaves out what a run of no calls takes.
top=$(cd "$(dirname "$0")/.." && pwd)
program=$top/crates/smithy_replay/out/smithy_replay
scripts=$(mktemp -d)
trap 'rm -rf "$scripts"' EXIT

[ -x "$program" ] || (cd "$top/crates/smithy_replay" && rt run -- --version </dev/null >/dev/null) || exit 1

# A script of so many calls whose service never has an output: each attempt is followed by a delay.
# The second word is the answer of a hook of each attempt, or nothing.
retries() {
    awk -v fuel="$1" -v hook="$2" 'BEGIN {
        printf "{\"fuel\":%d,\"input\":[1,\"x\"],\"output_kind\":1,\"error_kind\":2,\"answers\":[", fuel
        printf "[\"Configure Client\",[\"Layer\",[]]],[\"Configure Operation\",[\"Layer\",[]]],[\"Configure Final\",[\"Layer\",[]]],"
        printf "[\"Serialize\",[\"Request\",[\"GET\",\"/\",[],\"x\"]]],[\"Initial\",\"Go\"]"
        for (i = 0; i * 23 < fuel; i++) {
            printf "%s", hook
            printf ",[\"Choose\",[\"Chosen\",\"noAuth\",[\"\",null],null,[],null]],[\"Endpoint\",[\"Endpoint\",[\"http://h\",[],null]]]"
            printf ",[\"Apply\",[\"Request\",[\"GET\",\"http://h/\",[],\"x\"]]],[\"Sign\",[\"Request\",[\"GET\",\"http://h/\",[],\"x\"]]]"
            printf ",[\"Transmit\",[\"Response\",[503,[],\"\"]]],[\"Stream\",\"NotStreaming\"],[\"Body\",[\"Read\",\"\"]]"
            printf ",[\"Deserialize\",[\"Outcome\",[\"Failed\",[\"Connector\",\"Io\",\"x\"]]]],[\"Decide\",[\"Delay\",1]],[\"Start Retry\",\"Started\"]"
        }
        print "]}"
    }'
}

# A script of about so many bytes, with answers that nothing asks for.
unasked() {
    awk -v size="$1" 'BEGIN {
        printf "{\"fuel\":0,\"input\":[1,\"x\"],\"output_kind\":1,\"error_kind\":2,\"answers\":[[\"Initial\",\"Go\"]"
        for (length_ = 90; length_ + 30 < size; length_ += 26) printf ",[\"Stream\",\"NotStreaming\"]"
        print "]}"
    }'
}

# The instructions of the program over this script.
instructions() {
    valgrind --tool=callgrind --callgrind-out-file=/dev/null "$program" replay <"$1" 2>&1 >/dev/null |
        sed -n 's/.*Collected : *\([0-9]*\).*/\1/p'
}

# The greatest memory of the program over this script, in MB.
memory() {
    /usr/bin/time -f %M "$program" replay <"$1" 2>&1 >/dev/null | tail -1 | awk '{ print int($1 / 1024) }'
}

for hook in '' ',["Hook read_before_attempt",["Hook",null,[["capture",1]],null]]'; do
    echo "| calls | script, bytes | instructions | a call | without the start | memory, MB |"
    echo "|---|---|---|---|---|---|"
    retries 0 "$hook" >"$scripts/none.json"
    none=$(instructions "$scripts/none.json")
    for fuel in 1000 20000 100000; do
        retries "$fuel" "$hook" >"$scripts/run.json"
        spent=$(instructions "$scripts/run.json")
        costs="$((spent / fuel)) | $(((spent - none) / fuel)) | $(memory "$scripts/run.json")"
        echo "| $fuel | $(wc -c <"$scripts/run.json") | $spent | $costs |"
    done
    echo
done
echo "| script, bytes | instructions | a byte | memory, MB |"
echo "|---|---|---|---|"
for size in 1048576 16777216; do
    unasked "$size" >"$scripts/read.json"
    bytes=$(wc -c <"$scripts/read.json")
    spent=$(instructions "$scripts/read.json")
    echo "| $bytes | $spent | $((spent / bytes)) | $(memory "$scripts/read.json") |"
done
