# Read in by the scripts beside it. It sets `top`, the top of the repository.
unset CDPATH
top=$(cd -- "$(dirname -- "$0")/.." && pwd) || exit 1

# needs NAME COMMAND ..: where a command is missing, tells so and ends the script NAME.
needs() {
    name=$1
    shift
    for needed; do
        if ! command -v "$needed" >/dev/null; then
            echo "$name: skipped, $needed is not installed"
            exit 0
        fi
    done
}

# program [FILE]: sets `program`, which is FILE or what the launcher builds.
program() {
    program=${1-}
    if [ -z "$program" ]; then
        program=$top/crates/xsfq/out/xsfq
        "$top/xsfq" compile <"$top/examples/inverter.aag" >/dev/null || exit 1
    fi
}
