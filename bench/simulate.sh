#!/bin/sh
# Times `simulate` beside a plain C engine over flat tables (engine.c, built by cc -O2), side by side in one run, and prints tables
# of medians of 15 runs with peak memory, and the deliveries a second. Both have to write the same lines. It makes its own inputs,
# and writes nothing but its tables.
#
# Usage: bench/simulate.sh [PROGRAM]
#
# PROGRAM is by default what the launcher at the top built.
. "$(dirname -- "$0")/needs.sh"
needs simulate python3 cc /usr/bin/time
program "$@"
exec python3 "$top/bench/simulate.py" "$program"
