#!/bin/sh
# How fast texts become decks, and decks are read: `eft cards ratfor`, and `eft deck --steps 1` on the deck that it writes, over a
# large text and one of a tenth, each of many units. `lines` are short assignments, 23,000 lines in 450 units; `programs` are as many
# units and lines of three of the examples, as people write them; `formats` are FORMATs whose quoted texts are one token each, with
# 4 MiB.
# Wanted are at most eleven times the time for ten times the text, both without an empty run, and at most 40 times the text as memory,
# without that of an empty run. f2c and ftnchek are compared with where they are there; f2c takes no more than 400 names of units
# unless it is told so.
. "$(dirname "$0")/common.sh"
wants "$eft"
rounds=20

# A main and so many subroutines, each of 51 lines, of which 47 are assignments.
lines() { # UNITS
    awk -v n="$1" 'BEGIN {
        print "k = 0\nend"
        for (i = 1; i <= n; i++) {
            printf "subroutine s%d(n)\nk = n\n", i
            for (j = 1; j <= 47; j++) print "k = k + 1 - n"
            print "return\nend"
        }
    }'
}

# A main and so many subroutines of 107 FORMATs, each of which takes twenty cards.
formats() { # UNITS
    awk -v n="$1" 'BEGIN {
        for (i = 1; i <= 255; i++) text = text "x"
        text = "\047" text "\047"
        print "k = 0\nend"
        for (i = 1; i <= n; i++) {
            printf "subroutine s%d\n", i
            for (j = 1; j <= 107; j++) printf "%d format(%s,%s,%s,%s,%s)\n", j, text, text, text, text, text
            print "return\nend"
        }
    }'
}

# The processor's time of ten runs of a command in milliseconds. Its output is left in $work/out.
processor_time() { # COMMAND...
    (
        for _ in 1 2 3 4 5 6 7 8 9 10; do "$@" </dev/null >"$work/out" 2>"$work/err"; done
        times
    ) | tail -n 1 | awk '{ for (i = 1; i <= 2; i++) { split($i, part, /[ms]/); sum += part[1] * 60 + part[2] } printf "%.0f\n", sum * 1000 }'
}

# The least address space with which a command ends well, in KiB.
memory() { # COMMAND...
    low=0
    high=4194304
    while [ $((high - low)) -gt 64 ]; do
        middle=$(((low + high) / 2))
        if (ulimit -v "$middle" && "$@" </dev/null >/dev/null 2>&1) 2>/dev/null; then high=$middle; else low=$middle; fi
    done
    echo "$high"
}

# Tells the processor's time of a command beside that of another program where this is there, of that of five turns which has the
# middle ratio. A deck that the other program refuses would tell nothing.
beside() { # PROGRAM WORDS WHAT COMMAND...
    program=$1
    words=$2
    what=$3
    shift 3
    if ! command -v "$program" >/dev/null; then
        echo "$what: $program is not installed here"
        return
    fi
    sh -c "$program $words" >/dev/null 2>"$work/err" || { echo "bench/cards.sh: $program refuses its text: $(tail -n 1 "$work/err")" >&2; exit 1; }
    for _ in 1 2 3 4 5; do
        own=$(processor_time "$@")
        echo "$own $(processor_time sh -c "$program $words")"
    done | awk '{ print $1 / $2, $1, $2 }' | sort -n | sed -n 3p |
        awk -v what="$what" -v program="$program" '{ printf "%s: %d ms of the processor in ten runs, and %s %d ms: %.2f times\n", what, $2, program, $3, $1 }'
}

printf 'end\n' >"$work/empty.r"
"$eft" cards ratfor "$work/empty.r" >"$work/empty.f"
empty_cards=$(command_time /dev/null "$eft" cards ratfor "$work/empty.r")
empty_deck=$(command_time /dev/null "$eft" deck --steps 1 "$work/empty.f")
empty_memory=$(memory "$eft" cards ratfor "$work/empty.r")
rounds=1

# The times of a command over the large text and the small one, each without an empty run, of that of fifteen turns which has the
# middle ratio: the speed of a machine that is shared changes all the time.
turns() { # EMPTY ENDING COMMAND...
    empty=$1 ending=$2
    shift 2
    for _ in $(seq 15); do
        large=$(($(command_time /dev/null "$@" "$work/large.$ending") - empty))
        echo "$large $(($(command_time /dev/null "$@" "$work/small.$ending") - empty))"
    done | awk '{ print $1 / $2, $1, $2 }' | sort -n | sed -n 8p | cut -d " " -f 2-
}

measured() { # SHAPE LARGE SMALL
    shape=$1
    $shape "$2" >"$work/large.r"
    $shape "$3" >"$work/small.r"
    for size in large small; do
        "$eft" cards ratfor "$work/$size.r" >"$work/$size.f" || { echo "bench/cards.sh: $size units of $shape have no deck" >&2; exit 1; }
    done
    pair=$(turns "$empty_cards" r "$eft" cards ratfor)
    large=${pair% *} small=${pair#* }
    compare "cards of $2 units of $shape and $3" "$large" "$small" 11
    echo "cards of $2 units of $shape: $(($(wc -l <"$work/large.r") * 1000000000 / large)) lines a second"
    pair=$(turns "$empty_deck" f "$eft" deck --steps 1)
    large=${pair% *} small=${pair#* }
    compare "the deck of $2 units of $shape and $3" "$large" "$small" 11
    echo "the deck of $2 units of $shape: $(($(wc -l <"$work/large.f") * 1000000000 / large)) cards a second"
    bytes=$(wc -c <"$work/large.r")
    awk -v what="$2 units of $shape" -v took="$(($(memory "$eft" cards ratfor "$work/large.r") - empty_memory))" -v bytes="$bytes" 'BEGIN {
        printf "cards of %s: %d KiB of memory for %d of text, %.1f times (at most 40 wanted)\n", what, took, bytes / 1024, took * 1024 / bytes
        exit took * 1024 > 40 * bytes
    }' || status=1
    beside f2c "-Nx1000 <$work/large.f" "cards of $2 units of $shape" "$eft" cards ratfor "$work/large.r"
    beside ftnchek "$work/large.f" "the deck of $2 units of $shape" "$eft" deck --steps 1 "$work/large.f"
}

measured lines 450 45
measured programs 450 45
measured formats 30 3
exit $status
