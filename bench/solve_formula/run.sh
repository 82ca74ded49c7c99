#!/usr/bin/env bash
# Times the solver on a formula in the DIMACS form: bash bench/solve_formula/run.sh [--small | FILE.cnf [LINES]]
# The figure is the processor time of the whole run of the proved program, with reading. --small: five pigeons in four holes, not proved.
set -euo pipefail
here=$(cd "$(dirname "$0")" && pwd)
libraries="chk_base clause_form clause_solver proof_check"
OSCHK_BENCH=${OSCHK_BENCH:-$(mktemp -d)}
export OSCHK_BENCH
if [ "${1:-}" = --small ]; then
    python3 "$here/pigeons.py" 4 >"$OSCHK_BENCH/formula.cnf"
    python3 "$here/certificate_of.py" "$OSCHK_BENCH/formula.cnf" "$OSCHK_BENCH/formula.cert"
    bash "$here/../program.sh" solve_formula "$libraries" -- "$OSCHK_BENCH/formula.cert" 1000 | tee "$OSCHK_BENCH/told"
    grep '^refuted, ' "$OSCHK_BENCH/told"
    exit
fi
python3 "$here/certificate_of.py" "$1" "$OSCHK_BENCH/formula.cert"
bash "$here/../program.sh" --proved solve_formula "$libraries" -- "$OSCHK_BENCH/formula.cert" 0
time "$OSCHK_BENCH/crates/solve_formula/out/solve_formula" "$OSCHK_BENCH/formula.cert" "${2:-1000000}"
