#!/bin/sh
# Times `compile` of BLIF beside ABC (Debian's packages berkeley-abc, yosys and time), side by side in one run, and prints tables
# of medians of 15 runs with peak memory: on a multiplier that ABC wrote, and on a design that Yosys wrote. It makes its own
# inputs, and writes nothing but its tables.
#
# Usage: bench/blif.sh [PROGRAM]
#
# PROGRAM is by default what the launcher at the top built.
. "$(dirname -- "$0")/needs.sh"
needs blif python3 berkeley-abc /usr/bin/time
program "$@"
exec python3 "$top/bench/blif.py" "$program" "$(command -v berkeley-abc)"
