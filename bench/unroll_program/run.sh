#!/usr/bin/env bash
# Prints the size of the formula of a guarded program, and the memory that unrolling takes: bash bench/unroll_program/run.sh [--small | FILE.gp [TURNS]]
# Without words: the usual application of two arrivals at 40 turns. The memory is the greatest of the whole run of the program, which rt try watches with
# a sanitizer; so it is more than the program's own. --small: the usual application at 2 turns.
set -euo pipefail
here=$(cd "$(dirname "$0")" && pwd)
file=$here/usual_application.gp
turns=40
if [ "${1:-}" = --small ]; then
    turns=2
elif [ $# -gt 0 ]; then
    file=$(realpath "$1")
    turns=${2:-40}
fi
OSCHK_BENCH=${OSCHK_BENCH:-$(mktemp -d)}
export OSCHK_BENCH
python3 "$here/program_words.py" "$file" "$OSCHK_BENCH/program"
python3 - "$here/../program.sh" "$OSCHK_BENCH/program" "$turns" <<'PYTHON'
import glob
import re
import subprocess
import sys
import time

script, path, turns = sys.argv[1:]
libraries = "chk_base guard_prog clause_form bit_circuit turn_unroll"
words = ["bash", script, "unroll_program", libraries, "program_words.txt", "program_words", "--", path, turns]
run = subprocess.Popen(words, stdout=subprocess.PIPE, text=True)
most = 0
while run.poll() is None:
    for name in glob.glob("/proc/[0-9]*/cmdline"):
        try:
            named = open(name, "rb").read().split(b"\0")
            if path.encode() in named and any(word.endswith(b"/program") and word != path.encode() for word in named):
                most = max(most, int(re.search(r"VmHWM:\s*(\d+)", open(name.replace("cmdline", "status")).read())[1]))
        except (OSError, TypeError):
            pass
    time.sleep(0.05)
told = run.stdout.read()
print(told.strip())
clauses = re.search(r"(\d+) clauses", told)
if not clauses:
    sys.exit(1)
if most:
    print(f"at most {most // 1024} MB, {most * 1024 / int(clauses[1]):.0f} bytes a clause")
PYTHON
