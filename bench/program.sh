#!/usr/bin/env bash
# Builds a program of the bench in a copy of the crates and runs it: bash bench/program.sh [--proved] NAME "LIBRARIES" [FILE AS_NAME].. -- WORDS
# The program is bench/NAME/NAME.txt. Each FILE becomes the module AS_NAME of it. Without --proved it is tried by 'rt try', which proves nothing and
# tests each access to memory, so that its times count for nothing; with it every crate below is proved first. The folder that it works in is printed
# on standard error.
set -euo pipefail
bench=$(cd "$(dirname "$0")" && pwd)
top=$(cd "$bench/.." && pwd)
way=try
if [ "$1" = --proved ]; then
    way=run
    shift
fi
name=$1
libraries=$2
shift 2
work=${OSCHK_BENCH:-$(mktemp -d)}
mkdir -p "$work/crates/$name/src"
tar -C "$top" -c --exclude=out crates | tar -C "$work" -x
cp "$top/crates.txt" "$top/HANDLES" "$work"
echo "$name: $libraries" >>"$work/crates.txt"
cp "$bench/$name/$name.txt" "$work/crates/$name/src/main.rt"
while [ "$1" != -- ]; do
    cp "$bench/$name/$1" "$work/crates/$name/src/$2.rt"
    shift 2
done
shift
echo "bench: $name in $work" >&2
cd "$work/crates/$name"
if [ "$way" = try ]; then
    exec rt try --steps 1000000000000 --seconds 3000 -- "$@"
fi
exec rt run -- "$@"
