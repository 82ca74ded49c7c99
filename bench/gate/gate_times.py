#!/usr/bin/env python3
"""Samples the prover's processes while a gate runs, and writes the processor minutes per crate and kind: gate_times.py OUT [UNTIL]

OUT is written every minute and at the end; the end is when the file UNTIL exists. The kinds: `library` (a crate that is proved and built), `program`
(a crate with a main), `tests` (a crate with its tests), `edits` (the seed of a crate's edits and the edits themselves).
"""
import collections
import os
import sys
import time

TICK = os.sysconf("SC_CLK_TCK")


def kind_of(words, folder):
    """What the process does, told from its words and from the folder that it works in."""
    if "--test" in words:
        return "tests"
    if words[1] == "check":
        return "edits"
    return "library" if any(word.endswith("/src/lib.rt") or word == "src/lib.rt" for word in words) else "program"


def sample(seen):
    for process in filter(str.isdigit, os.listdir("/proc")):
        try:
            words = [word.decode("utf-8", "replace") for word in open(f"/proc/{process}/cmdline", "rb").read().split(b"\0")]
            if not words[0].endswith("/rattle") or len(words) < 2:
                continue
            stat = open(f"/proc/{process}/stat").read().rsplit(") ", 1)[1].split()
            folder = os.readlink(f"/proc/{process}/cwd")
        except (OSError, IndexError):
            continue
        crate = words[words.index("--crate-name") + 1] if "--crate-name" in words else words[1]
        seen[process, stat[19]] = (crate, kind_of(words, folder), (int(stat[11]) + int(stat[12])) / TICK / 60)


def write(out, seen):
    kinds, crates = collections.Counter(), collections.defaultdict(collections.Counter)
    for crate, kind, minutes in seen.values():
        kinds[kind] += minutes
        crates[crate][kind] += minutes
    with open(out, "w", encoding="utf-8") as file:
        file.write(f"minutes of processor in all {sum(kinds.values()):.1f}: " + ", ".join(f"{kind} {kinds[kind]:.1f}" for kind in sorted(kinds)) + "\n")
        for crate in sorted(crates, key=lambda it: -sum(crates[it].values())):
            file.write(f"{crate:20} {sum(crates[crate].values()):6.1f}  " + ", ".join(f"{kind} {crates[crate][kind]:.1f}" for kind in sorted(crates[crate])) + "\n")


def main(out, until=None):
    seen, turns = {}, 0
    while not (until and os.path.exists(until)):
        sample(seen)
        turns += 1
        if turns % 60 == 0:
            write(out, seen)
        time.sleep(1)
    sample(seen)
    write(out, seen)


if __name__ == "__main__":
    main(*sys.argv[1:])
