#!/usr/bin/env bash
# The proved space, the plain reference and the tuned peers on the same trays; no part of the test.
#   host/bench.sh [--markdown] [RUNS]   ns a frame, of so many runs (7) of each of four programs, whose code lies behind
#                                       0, 16, 32 and 48 bytes: elsewhere in memory a loop is faster or slower
#   host/bench.sh [--markdown] count    instructions a frame, by valgrind
#   host/bench.sh [--markdown] order [RUNS]   ns a call of the search for an order, as the first
set -euo pipefail
cd "$(dirname "$0")/.."
. host/build.sh

usage() {
    sed -n '3,6s/^# *//p' host/bench.sh
    exit 2
}

what=times runs='' form=() verb=()
for word in "$@"; do
    case $word in
        --markdown) form=("$word") ;;
        count) what=$word ;;
        order) verb=("$word") ;;
        *[!0-9]* | 0) usage ;;
        *) runs=$word ;;
    esac
done
[ "$what" = times ] || [ -z "$runs${verb[*]}" ] || usage
runs=${runs:-7}

build_behind() { # PADDING: the program with so many bytes before its code
    CARGO_TARGET_DIR=$out/behind-$1 BENCH_PADDING=$1 build_rust harness --bin bench
    programs+=("$out/behind-$1/release/bench")
}

places() { # PROGRAM: where the functions lie that are timed
    nm "$1" | awk '$3 == "space_run_tray" || $3 == "space_find_order" || $3 ~ /tuned.*run_tray/ { print $1 }' | sort
}

lies_behind() { # PADDING: in the last program they all lie so much further than in the first
    local first last functions=0
    while read -r first last; do
        [ $((16#$last - 16#$first)) -eq "$1" ] || return 1
        functions=$((functions + 1))
    done < <(paste <(places "${programs[0]}") <(places "${programs[-1]}"))
    [ $functions -gt 1 ]
}

find_archive
programs=()
build_behind 0
if [ "$what" = count ]; then
    exec "${programs[0]}" "${form[@]}" count
fi
for padding in 16 32 48; do
    build_behind $padding
    lies_behind $padding || { echo "the code does not lie $padding bytes further in ${programs[-1]}"; exit 1; }
done
echo "$(grep -m 1 'model name' /proc/cpuinfo | sed 's/.*: //'), $(nproc) processors; $(rustc --version)"
"${programs[0]}" "${verb[@]}" "${form[@]}" "$runs" "${programs[@]}"
