#!/bin/sh
# Counts the instructions of `client` and `make` an invocation, and those of a script that is read and
# whose responses nothing asks for, a byte. The program must be proved and built (./smithy_replay --prove).
cd -- "$(dirname -- "$0")/.." || exit 1
program=crates/smithy_replay/out/smithy_replay
room=$(mktemp -d) || exit 1
trap 'rm -rf -- "$room"' EXIT
client='{"service":"s","operation":"o","bucket":0,"retry":["Standard",3,1000000000,20000000000,"ReconnectOnTransientError",true,null],"timeouts":[null,null,null,null],"url":"http://localhost:1","prefix":null,"sleep":true,"time":true,"poisoning":false,"enforce":false,"v2":true,"stall":null,"classifiers":[],"auth":"none"}'

# instructions of a run of the program with these words over this input
count() {
    input=$1
    shift
    valgrind --tool=callgrind --callgrind-out-file=/dev/null "$program" "$@" <"$input" 2>&1 >/dev/null |
        sed -n 's/.*Collected : \([0-9]*\).*/\1/p'
}

# a script of so many invocations of so much fuel, with so many responses each
script() {
    awk -v count="$1" -v fuel="$2" -v responses="$3" -v client="$client" 'BEGIN {
        printf "{\"buckets\":[[500,5,5,10,0,0]],\"start\":0,\"words\":[],\"clients\":[%s],\"invocations\":[", client
        for (i = 0; i < count; i++) {
            printf "%s{\"client\":0,\"input\":[1,\"hi\"],\"fuel\":%d,\"stop\":\"None\",\"responses\":[", i ? "," : "", fuel
            for (j = 0; j < responses; j++) printf "%s[0,200,[],[[0,\"ok\"]],false,null]", j ? "," : ""
            printf "]}"
        }
        printf "]}"
    }'
}

script 0 0 0 >"$room/none.json"
none=$(count "$room/none.json" client)
for row in "10 10" "10000 10" "10 50" "1000 50"; do
    number=${row% *}
    fuel=${row#* }
    script "$number" "$fuel" 1 >"$room/client.json"
    all=$(count "$room/client.json" client)
    echo "client, $number invocations of fuel $fuel: $(((all - none) / number)) instructions an invocation"
done
for number in 10 1000; do
    all=$(count /dev/null make "$number" 7)
    start=$(count /dev/null make 0 7)
    echo "make $number 7: $(((all - start) / number)) instructions an invocation"
done
script 1 0 30000 >"$room/read.json"
all=$(count "$room/read.json" client)
bytes=$(wc -c <"$room/read.json")
echo "client, a script of $bytes bytes that is read: $((all / bytes)) instructions a byte"
