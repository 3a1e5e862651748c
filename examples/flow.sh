#!/bin/sh
# From Verilog to netlists: Yosys (Debian's package yosys) writes each design as AIGER and as BLIF, and the program compiles them.
#
# Usage: examples/flow.sh [--program FILE] [--unset 0|1] [--into FOLDER] [FILE.v ..]
#
# FILE.v has a module of its own name, which is the top one; by default it is every .v file beside this script. The program
# is by default what the launcher at the top built. FOLDER, by default out/ beside this script, gets NAME.aig, NAME.blif,
# NAME.xsfq and NAME.blif.xsfq. With --unset a flip-flop without a first bit starts with that bit; without it such a design is
# refused. One line tells of each file. The exit status is 0 where all were compiled, or where Yosys is missing, which is
# told; 1 where one was not; 2 where the words are wrong.
set -u
unset CDPATH
here=$(cd -- "$(dirname -- "$0")" && pwd) || exit 2
program=$here/../crates/xsfq/out/xsfq
into=$here/out
unset_bits=""

usage() {
    echo "usage: examples/flow.sh [--program FILE] [--unset 0|1] [--into FOLDER] [FILE.v ..]" >&2
    exit 2
}

while [ $# -gt 0 ]; do
    case $1 in
    --program | --into | --unset) [ $# -ge 2 ] || usage ;;
    -*) usage ;;
    *) break ;;
    esac
    case $1,$2 in
    --program,*) program=$2 ;;
    --into,*) into=$2 ;;
    --unset,0) unset_bits="setundef -init -zero;" ;;
    --unset,1) unset_bits="setundef -init -one;" ;;
    *) usage ;;
    esac
    shift 2
done
[ $# -gt 0 ] || set -- "$here"/*.v

if ! command -v yosys >/dev/null; then
    echo "flow: skipped, yosys is not installed"
    exit 0
fi
if [ ! -x "$program" ]; then
    echo "flow: no program at $program; run ./xsfq once, which builds it" >&2
    exit 2
fi
mkdir -p -- "$into" || exit 2

# synthesize FILE NAME: writes NAME.aig and NAME.blif. Each pass stands in docs/USING.md with the refusal that it removes.
synthesize() {
    yosys -q -p "read_verilog \"$1\"; hierarchy -check -top $2; proc; flatten; check -assert; synth -top $2; async2sync;
        dfflegalize -cell \$_DFF_P_ 01 -cell \$_DFF_N_ 01; $unset_bits setundef -zero; abc -g AND; opt_clean -purge;
        write_aiger -symbols \"$into/$2.aig\"; write_blif \"$into/$2.blif\""
}

# clocks FILE.blif: what is wrong with the clock, or nothing. AIGER has no clock, and would give all latches one in silence.
clocks() {
    awk 'function wrong(what) { print what; done = 1; exit }
        $1 == ".inputs" { for (k = 2; k <= NF; k++) ports[$k] = 1 }
        $1 == ".names" || $1 == ".outputs" { for (k = 2; k < NF + ($1 == ".outputs"); k++) data[$k] = 1 }
        $1 == ".latch" { data[$2] = 1 }
        $1 == ".latch" && NF < 5 { wrong("a latch without a clock: " $3) }
        $1 == ".latch" && !($5 in ports) { wrong("a clock that is no input: " $5) }
        $1 == ".latch" && seen != "" && seen != $4 " " $5 { wrong("two clocks: " seen " and " $4 " " $5) }
        $1 == ".latch" { seen = $4 " " $5; clock = $5 }
        END { if (!done && clock in data) print "a clock that is read as data: " clock }' "$1"
}

# compile NAME FILE TO: compiles FILE and tells what came of it.
compile() {
    "$program" compile <"$2" >"$3" 2>"$into/notes"
    status=$?
    if [ "$status" -ne 0 ]; then
        echo "$1: $(basename -- "$2") is refused with code $status: $(cat -- "$into/notes")"
        rm -f -- "$3" "$into/notes"
        return 1
    fi
    awk -v name="$1" -v from="$(basename -- "$2")" '{ count[$1]++; if ($1 == "droc" && $2 == "b") latches++ }
        END { printf "%s: from %s %d latches, %d la, %d fa, %d splitters, %d drocs\n",
            name, from, latches, count["la"], count["fa"], count["split"], count["droc"] }' "$3"
    rm -f -- "$into/notes"
}

# flow FILE: the whole way of one design.
flow() {
    name=$(basename -- "$1" .v)
    if ! synthesize "$1" "$name" >"$into/log" 2>&1; then
        echo "$name: Yosys refuses it: $(grep -E '^Warning|ERROR' "$into/log" | tail -n 2 | tr '\n' ' ')"
        return 1
    fi
    wrong=$(clocks "$into/$name.blif")
    if [ -n "$wrong" ]; then
        echo "$name: $wrong"
        return 1
    fi
    compile "$name" "$into/$name.aig" "$into/$name.xsfq" || return 1
    compile "$name" "$into/$name.blif" "$into/$name.blif.xsfq"
}

passed=0
failed=0
for design; do
    if flow "$design"; then
        passed=$((passed + 1))
    else
        failed=$((failed + 1))
    fi
done
rm -f -- "$into/log"
echo "flow: $passed compiled, $failed failed"
[ "$failed" -eq 0 ]
