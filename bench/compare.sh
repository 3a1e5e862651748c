#!/bin/sh
# Times `compile` beside ABC and Yosys (Debian's packages berkeley-abc, yosys and time), side by side in one run, and prints
# tables of medians of 15 runs with peak memory. It makes its own inputs, and writes nothing but its tables.
#
# Usage: bench/compare.sh [PROGRAM]
#
# PROGRAM is by default what the launcher at the top built.
. "$(dirname -- "$0")/needs.sh"
needs compare python3 berkeley-abc /usr/bin/time
program "$@"
exec python3 "$top/bench/compare.py" "$program" "$(command -v berkeley-abc)"
