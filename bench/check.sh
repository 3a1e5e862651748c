#!/bin/sh
# Times `check` beside a plain C program that reads the same numbers (numbers.c, built by cc -O2), side by side in one run,
# and prints tables of medians of 15 runs with peak memory. It makes its own inputs, and writes nothing but its tables.
#
# Usage: bench/check.sh [PROGRAM]
#
# PROGRAM is by default what the launcher at the top built.
. "$(dirname -- "$0")/needs.sh"
needs check python3 cc /usr/bin/time
program "$@"
exec python3 "$top/bench/check.py" "$program"
