#!/bin/sh
# How fast the tokens of a text become its tree: whether ten times the text takes at most twelve times as long, and how many times as
# long as gathering alone it takes. `sums` and `blocks` have 200,000 tokens, and `programs` are 23,000 lines as people write them, with
# 188,000. All are measured in fifteen turns, and the turn with the middle ratio counts. A text of EFL has a fault behind its parse,
# so there the built program's own time is taken.
. "$(dirname "$0")/common.sh"
wants "$layers"
wants "$eft"

# Units of fewer than 20,000 tokens, the most that a unit may have.
sums() { # UNITS of 3,330 assignments of 6 tokens, and `end`
    for _ in $(seq "$1"); do
        yes 'total = total + 1' | head -n 3330
        echo end
    done
}

blocks() { # UNITS of 768 conditions of 26 tokens, and `end`
    for _ in $(seq "$1"); do
        yes 'if (k > f(i, 2) * 3) { k = -k; call s(k) }' | head -n 768
        echo end
    done
}

efl_sums() { # PROCEDURES of the same assignments
    for _ in $(seq "$1"); do
        echo procedure
        yes 'total = total + 1' | head -n 3330
        echo end
    done
}

efl_blocks() { # PROCEDURES of 768 conditions of 25 tokens
    for _ in $(seq "$1"); do
        echo procedure
        yes 'if (k > f(i, 2) * 3) { k = -k; s(k) }' | head -n 768
        echo end
    done
}

ratfor_time() { # FILE
    layer_time parse ratfor "$1" 5
}

efl_time() { # FILE
    command_time /dev/null "$eft" run efl "$1"
}

measured() { # LANGUAGE SHAPE LARGE SMALL
    $2 "$3" >"$work/$2.large"
    $2 "$4" >"$work/$2.small"
    for turn in $(seq "$turns"); do
        large=$($1_time "$work/$2.large")
        echo "$large $($1_time "$work/$2.small")" >>"$work/$2.grown"
        echo "$large $(layer_time gather "$1" "$work/$2.large" 5)" >>"$work/$2.gathered"
    done
    compare_turns "$3 units of $2 and $4" 12 <"$work/$2.grown"
    compare_turns "$3 units of $2, and gathering them" 2.5 <"$work/$2.gathered"
}

measured ratfor sums 10 1
measured ratfor blocks 10 1
measured ratfor programs 450 45
measured efl efl_sums 10 1
measured efl efl_blocks 10 1
exit $status
