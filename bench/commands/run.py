#!/usr/bin/env python3
"""Measures the commands of the program: run.py [--small] [--program PROGRAM] [--keep FOLDER]

One table comes out: the command, what it read, what it told, its processor time and its greatest memory, one line a run. `--small` takes small texts,
and says at the end how many runs answered as they should. The program is ./oschk at the top, unless another build of it is named.
"""
import argparse
import os
import pathlib
import subprocess
import sys
import tempfile

import texts

TOP = pathlib.Path(__file__).resolve().parents[2]
# What each run must answer where it is fixed: the status, by the text's name.
WANTED = {"refused_calls": 3, "function_chain": 3, "too_deep": 3, "unclosed": 3}


def measured(program, words, folder):
    """The status of a run, what it printed first, its processor seconds and its greatest memory in MB."""
    run = subprocess.Popen([program, *words], cwd=folder, stdout=subprocess.PIPE, stderr=subprocess.DEVNULL)
    told = run.stdout.read().decode("utf-8", "replace").splitlines()
    _, status, used = os.wait4(run.pid, 0)
    lines = [line for line in told if line.startswith(("refused", "verdict", "points", "good", "bad", "done", "fails", "not permitted", "lines"))]
    return os.waitstatus_to_exitcode(status), ", ".join(lines)[:60], used.ru_utime + used.ru_stime, used.ru_maxrss / 1000


def runs(folder, is_small):
    """The runs: what is shown of them, their words, and the statuses that they may end with."""

    def put(name, text):
        (folder / name).write_text(text, encoding="utf-8")

    size = 8192 if is_small else texts.SIZE
    put("app.oil", texts.OIL)
    put("empty.c", "")
    for name, text in texts.oil_texts(size):
        put(f"{name}.oil", text)
        yield f"show {name}.oil", ["show", f"{name}.oil", "empty.c"], {3}
    for group in (texts.token_texts, texts.nested_texts, texts.named_texts):
        for name, text in group(size):
            put(f"{name}.c", text)
            yield f"show {name}.c", ["show", "app.oil", f"{name}.c"], {3} if group is not texts.named_texts else {0, 3}
    for name, text in texts.lowered_texts(256 if is_small else 2048):
        put(f"{name}.c", text)
        yield f"show {name}.c", ["show", "app.oil", f"{name}.c"], {3} if name in WANTED else {0}
    put("arriving.oil", texts.ARRIVING_OIL)
    put("arriving.c", texts.ARRIVING_C)
    put("arriving.schedule", texts.schedule(400 if is_small else 58252))
    yield "replay arriving.schedule", ["replay", "arriving.oil", "arriving.c", "arriving.schedule"], {0}
    for name, bytes_of, steps in [("long", 100_000_000, 3000), ("short_clauses", 20_000_000, 800_000)]:
        put(f"{name}.cert", texts.certificate(bytes_of // (1000 if is_small else 1), steps // (100 if is_small else 1)))
        yield f"check {name}.cert", ["check", f"{name}.cert"], {0}
    first = TOP / "examples" / "first"
    turns = 8 if is_small else 512
    yield f"run first, {turns} turns", ["run", str(first / "app.oil"), str(first / "app.c"), f"--turns={turns}", "--arrivals=0", "--cert=first.cert"], {0}
    yield "check first.cert", ["check", "first.cert"], {0}
    for number in range(2 if is_small else 8):
        yield f"make {number}", ["make", str(number), "--turns=40", "--arrivals=0", "--cert=made.cert"], {0, 1, 2}


def main():
    words = argparse.ArgumentParser()
    words.add_argument("--small", action="store_true")
    words.add_argument("--program", default=str(TOP / "oschk"))
    words.add_argument("--keep", default=None)
    given = words.parse_args()
    folder = pathlib.Path(given.keep or tempfile.mkdtemp(prefix="oschk-bench-"))
    folder.mkdir(parents=True, exist_ok=True)
    passed = failed = 0
    print("| Command | It told | Status | Seconds | MB |\n|---|---|---|---|---|")
    for shown, run_words, wanted in runs(folder, given.small):
        status, told, seconds, memory = measured(given.program, run_words, folder)
        is_well = status in wanted
        passed, failed = passed + is_well, failed + (not is_well)
        print(f"| `{shown}` | {told} | {status}{'' if is_well else ' (wanted ' + ' or '.join(map(str, sorted(wanted))) + ')'} | {seconds:.2f} | {memory:.0f} |", flush=True)
    print(f"{passed} passed, {failed} failed")
    return 1 if failed else 0


if __name__ == "__main__":
    sys.exit(main())
