#!/usr/bin/env python3
"""Runs the small bench of the commands without proof: small.py FOLDER

The texts and words become a table of cases for the program `worked_cases`, which runs the commands over files in memory; rt try builds it once, proves
nothing, and tests each access to memory, so no time counts. What is looked at is the status of each command.
"""
import pathlib
import subprocess
import sys

import run
import texts


def lines_of(text):
    """A text as the table spells it: whole lines behind a bar, and what has no line feed behind a plus sign."""
    *whole, rest = text.split("\n")
    return [f"|{line}" for line in whole] + ([f"+{rest}"] if rest else [])


def main(folder):
    folder = pathlib.Path(folder)
    folder.mkdir(parents=True, exist_ok=True)
    table, wanted = [], []
    for shown, words, statuses in run.runs(folder, is_small=True):
        if any("\r" in word or " " in word or word.startswith("/") for word in words):
            continue
        table.append(f"case {shown}")
        for name in words[1:]:
            if (folder / name).is_file():
                table += [f"text {name}", *lines_of((folder / name).read_text(encoding="utf-8")), f"file {name} {name}"]
        table.append("last_line " + " ".join(words))
        wanted.append((shown, statuses))
    command = ["rt", "try", "--steps", "1000000000000", "--seconds", "3000"]
    tried = subprocess.run(command, cwd=run.TOP / "crates" / "worked_cases", input="\n".join(table) + "\n", capture_output=True, text=True)
    told = [int(line.split()[1]) for line in tried.stdout.splitlines() if line.startswith("status ")]
    failed = max(0, len(wanted) - len(told))
    for (shown, statuses), status in zip(wanted, told):
        if status not in statuses:
            failed += 1
            print(f"{shown}: status {status}")
    print(tried.stdout[-2000:] + tried.stderr[-2000:] if failed else "", end="")
    print(f"{len(wanted) - failed} commands answered as they should, {failed} did not")
    return 1 if failed or not wanted else 0


if __name__ == "__main__":
    sys.exit(main(*sys.argv[1:]))
