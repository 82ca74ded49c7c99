#!/usr/bin/env bash
# Measures the gate from nothing on what is committed: bash bench/gate/run.sh [FOLDER]
# It clones HEAD, runs 'rt ci --anew' there with nothing else to do, and writes the minutes of processor per crate and kind, and the longest chains.
set -euo pipefail
here=$(cd "$(dirname "$0")" && pwd)
top=$(cd "$here/../.." && pwd)
work=${1:-$(mktemp -d)}
git clone -q "$top" "$work/gate"
python3 "$here/gate_times.py" "$work/minutes.txt" "$work/ended" &
sampler=$!
status=0
(cd "$work/gate" && rt ci --anew) >"$work/gate.log" 2>&1 </dev/null || status=$?
touch "$work/ended"
wait "$sampler"
tail -n 1 "$work/gate.log"
cat "$work/minutes.txt"
python3 "$here/chains.py" "$work/gate/crates.txt" "$work/minutes.txt"
exit "$status"
