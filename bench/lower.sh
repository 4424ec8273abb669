#!/bin/sh
# How fast trees of Ratfor become units of FORTRAN, and how fast units are checked: a unit of nearly 20,000 tokens, the most that
# one may have, beside one of a tenth. Each time is a layer's own: that of the layers before it is taken off. All are measured in
# fifteen turns, and the turn with the middle ratio counts, since the speed of a machine that is shared changes all the time.
. "$(dirname "$0")/common.sh"
wants "$layers"

# A main unit of so many groups of 20 statements, in which all of Ratfor's forms come in turn.
unit() { # GROUPS
    awk -v n="$1" 'BEGIN {
        for (i = 1; i <= n; i++) {
            print "k = k + 1"
            print "if (k < 5) k = k + 1"
            print "if (k < 5) k = k + 1"; print "else k = k + 1"
            print "while (k < 5) k = k + 1"
            print "for (k = k + 1; k < 5; k = k + 1) if (k < 5) next"
            print "do k = 1, 9"; print "k = k + 1"
            print "repeat k = k + 1"; print "until (k < 5)"
            print "switch (k) {"; print "case 1, 2: k = k + 1"; print "default: k = k + 1"; print "}"
            printf "goto %d\n%d continue\n", i, i
        }
        print "end"
    }'
}
unit 145 >"$work/large"
unit 14 >"$work/small"

for turn in $(seq "$turns"); do
    for layer in gather parse compile check; do
        layer_time "$layer" ratfor "$work/large" 5 >"$work/$layer.large.$turn"
        layer_time "$layer" ratfor "$work/small" 50 >"$work/$layer.small.$turn"
    done
done

# What a layer takes over a unit in a turn, without what the layer before it takes there.
own_time() { # LAYER BEFORE UNIT TURN
    echo $(($(cat "$work/$1.$3.$4") - $(cat "$work/$2.$3.$4")))
}

# Tells a layer's own time over the large unit beside that over the small one.
grows() { # WHAT LAYER BEFORE
    for turn in $(seq "$turns"); do
        echo "$(own_time "$2" "$3" large "$turn") $(own_time "$2" "$3" small "$turn")"
    done >"$work/$2"
    compare_turns "$1 2,900 statements and 280" 12 <"$work/$2"
}

grows lowering compile parse
grows checking check compile
for turn in $(seq "$turns"); do
    echo "$(cat "$work/compile.large.$turn") $(cat "$work/gather.large.$turn")"
done >"$work/front"
compare_turns "the whole front, and gathering alone" 2 <"$work/front"
exit $status
