#!/bin/sh
# Takes the figures of the program's commands and of the engine alone, one script after the other,
# which takes some minutes: `cost.sh`, `replay.sh`, `compare.py`, `client.sh`, `check.sh`, `serve.py`
# and `hosts.py`. The program and `golden_engine` must be proved and built (./smithy_replay --prove,
# and `rt run` in crates/golden_engine), so that nothing is proved meanwhile. What fails is named at
# the end.
top=$(cd "$(dirname "$0")/.." && pwd)
program=$top/crates/smithy_replay/out/smithy_replay
engine=$top/crates/golden_engine/out/golden_engine

for built in "$program" "$engine"; do
    [ -x "$built" ] || { echo "figures: not built: $built" >&2; exit 1; }
done
failed=
for script in cost.sh replay.sh "compare.py $program" client.sh check.sh "serve.py $program" hosts.py; do
    printf '\n## %s\n\n' "${script%% *}"
    # shellcheck disable=SC2086 # a script and its words
    "$top/bench/"$script || failed="$failed ${script%% *}"
done
[ -z "$failed" ] || { echo "figures: these failed:$failed" >&2; exit 1; }
