#!/bin/sh
# Counts the instructions of `check` by callgrind: a byte and a line of a long print against those of
# a short print. Each is the print of a whole run of retries, and `check` must say so.
top=$(cd "$(dirname "$0")/.." && pwd)
program=$top/crates/smithy_replay/out/smithy_replay
room=$(mktemp -d)
trap 'rm -rf "$room"' EXIT

[ -x "$program" ] || (cd "$top/crates/smithy_replay" && rt run) || exit 1

# A script of so many attempts, each of which fails, with a delay behind each but the last, and with
# so many bytes in each body.
retries() {
    awk -v attempts="$1" -v length_of_body="$2" 'BEGIN {
        for (i = 0; i < length_of_body; i++) body = body "x"
        printf "{\"fuel\":100000,\"input\":[1,\"x\"],\"output_kind\":1,\"error_kind\":2,\"answers\":["
        printf "[\"Configure Client\",[\"Layer\",[]]],[\"Configure Operation\",[\"Layer\",[]]],[\"Configure Final\",[\"Layer\",[]]],"
        printf "[\"Serialize\",[\"Request\",[\"GET\",\"/\",[],\"x\"]]],[\"Initial\",\"Go\"]"
        for (i = 1; i <= attempts; i++) {
            printf ",[\"Choose\",[\"Chosen\",\"noAuth\",[\"\",null],null,[],null]],[\"Endpoint\",[\"Endpoint\",[\"http://h\",[],null]]]"
            printf ",[\"Apply\",[\"Request\",[\"GET\",\"http://h/\",[],\"x\"]]],[\"Sign\",[\"Request\",[\"GET\",\"http://h/\",[],\"x\"]]]"
            printf ",[\"Transmit\",[\"Response\",[503,[],\"%s\"]]],[\"Stream\",\"NotStreaming\"],[\"Body\",[\"Read\",\"%s\"]]", body, body
            printf ",[\"Deserialize\",[\"Outcome\",[\"Failed\",[\"Connector\",\"Io\",\"x\"]]]]"
            if (i < attempts) printf ",[\"Decide\",[\"Delay\",1]],[\"Start Retry\",\"Started\"]"
        }
        print ",[\"Decide\",\"No\"]]}"
    }'
}

# The instructions of the program over this print.
instructions() {
    valgrind --tool=callgrind --callgrind-out-file=/dev/null "$program" check <"$1" 2>&1 >/dev/null |
        sed -n 's/.*Collected : *\([0-9]*\).*/\1/p'
}

# The greatest memory of the program over this print, in MB.
memory() {
    /usr/bin/time -f %M "$program" check <"$1" 2>&1 >/dev/null | tail -1 | awk '{ print int($1 / 1024) }'
}

echo "| calls | print, bytes | instructions | a byte | a line | memory, MB |"
echo "|---|---|---|---|---|---|"
for row in "10 0" "850 0" "4300 0" "4300 1300"; do
    retries ${row} >"$room/run.json"
    "$program" replay <"$room/run.json" >"$room/print.txt"
    [ "$("$program" check <"$room/print.txt")" = '["yes"]' ] || exit 1
    lines=$(wc -l <"$room/print.txt")
    bytes=$(wc -c <"$room/print.txt")
    spent=$(instructions "$room/print.txt")
    costs="$((spent / bytes)) | $((spent / lines)) | $(memory "$room/print.txt")"
    echo "| $((lines - 2)) | $bytes | $spent | $costs |"
done
