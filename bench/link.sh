#!/bin/sh
# How fast whole programs are linked: `eft cards ratfor` on a program of 400 units, each of which calls the one behind it and shares a
# block of COMMON with all, and on one of 40; and on a unit whose arrays of 30,000 places are equivalenced in 300 groups, and of 3,000
# in 30. Wanted are at most twelve times the time for ten times as much, both without as many empty runs. Small texts are done many
# times over, since a run of one takes hardly longer than an empty one.
. "$(dirname "$0")/common.sh"
wants "$eft"
rounds=15

# A program of a main and so many subroutines less one.
chain() { # UNITS
    awk -v n="$1" 'BEGIN {
        print "common /shared/ k(100), l"
        print "call u2(1)"
        print "end"
        for (i = 2; i <= n; i++) {
            printf "subroutine u%d(n)\ncommon /shared/ k(100), l\ninteger m(10)\n", i
            for (j = 1; j <= 20; j++) printf "k(%d) = l + n * %d\nm(1) = k(%d)\n", j, j, j
            if (i < n) printf "call u%d(m(1))\n", i + 1
            print "return\nend"
        }
    }'
}

# A main with two arrays of half so many places each, equivalenced in groups that agree, a hundred places from group to group.
overlaid() { # PLACES
    awk -v n="$1" 'BEGIN {
        half = n / 2
        printf "integer a(%d), b(%d)\n", half, half
        for (i = 1; i < half; i += 50) printf "equivalence (a(%d), b(%d))\n", i, i + 1
        print "a(1) = 1\nend"
    }'
}

printf 'end\n' >"$work/empty.r"

# The time of so many decks of a text one after the other, in nanoseconds.
decks_time() { # TIMES TEXT
    command_time /dev/null sh -c 'for _ in $(seq "$1"); do "$2" cards ratfor "$3"; done' sh "$1" "$eft" "$2"
}

# The same of a program of such a shape, without as many empty runs.
link_time() { # TIMES SHAPE SIZE
    "$2" "$3" >"$work/text.r"
    "$eft" cards ratfor "$work/text.r" >/dev/null || { echo "bench/link.sh: $3 of $2 have no deck" >&2; exit 1; }
    echo $(($(decks_time "$1" "$work/text.r") - $(decks_time "$1" "$work/empty.r")))
}

measured() { # WHAT SHAPE LARGE SMALL TIMES
    large=$(link_time "$5" "$2" "$3") || exit 1
    small=$(link_time "$5" "$2" "$4") || exit 1
    compare "$3 $1 and $4, $5 decks" "$large" "$small" 12
}

measured "units" chain 400 40 4
measured "equivalenced places" overlaid 30000 3000 40
exit $status
