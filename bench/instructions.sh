#!/bin/sh
# How many instructions of the processor a statement takes, counted by valgrind's callgrind, so whatever else the machine does: of
# two runs of a program of bench/programs with limits of 200,000 and 400,000 steps, the instructions that the second executes more.
# At most 85 are wanted of sums, and 130 of arrays.
. "$(dirname "$0")/common.sh"
wants "$eft"
command -v valgrind >/dev/null || { echo "bench/instructions.sh: there is no valgrind" >&2; exit 2; }

counted() { # STEPS PROGRAM
    valgrind --tool=callgrind --callgrind-out-file=/dev/null "$eft" run --steps "$1" ratfor "$here/bench/programs/$2.r" 2>&1 \
        </dev/null | sed -n 's/.*Collected : //p'
}
for row in "sums 85" "arrays 130" "shuffle any" "calls any" "copies any"; do
    set -- $row
    few=$(counted 200000 "$1")
    many=$(counted 400000 "$1")
    awk -v what="$1" -v few="$few" -v many="$many" -v wanted="$2" 'BEGIN {
        each = (many - few) / 200000
        asked = wanted == "any" ? "" : " (at most " wanted " wanted)"
        printf "%s: %.1f instructions a statement%s\n", what, each, asked
        exit wanted != "any" && each > wanted
    }' || status=1
done
exit $status
