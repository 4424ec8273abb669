#!/bin/sh
# How fast EFL texts are checked, and how fast they become decks.
# Checked: `eft run efl` on a text of 20,000 tokens, and on one of 2,000, each of which all checks accept, and which has forms that are
# not built: once with nearly all in one procedure, which may have no more, and once in procedures of about 200 tokens, each of which
# calls the next. Compiled: `eft cards efl` on a main over scalars of 20,000 tokens, and on one of 2,000, and beside it `eft cards ratfor`
# on the same statements.
# Wanted are at most twelve times the time for ten times as much, both without as many runs of an empty procedure. A text is run many
# times over, since a run of a small one takes hardly longer than an empty one.
. "$(dirname "$0")/common.sh"
wants "$eft"
rounds=9
times=20

# What a group of 195 tokens declares, and its statements. A # is the number of the group.
cat >"$work/declared" <<'TEXT'
integer a#(10), k#
struct s# { integer b; logical c(3) } x#(4)
initial a# = (3 $ 0, 1), x#(2).b = 5
TEXT
cat >"$work/stated" <<'TEXT'
for (k# = 1, k# <= 10, ++k#) a#(k#) = f(k# + 1)
if (x#(1).c(2) && k# > 3)
	p(x#(1), a#)
else
	write( , k#:i(5), 'text')
	{
	integer m; logical l
	m = a#(1) -> s#.b
	switch (m) {
		case 1, 2: l = true
		default: l = m < 3
		}
	while (l) {
		l &= ~l
		break
		}
	}
do k# = 1, 10 a#(k#) += k#
repeat k# -= 1
until (k# < 0)
TEXT

# The procedures that the groups call.
called() {
    cat <<'TEXT'
integer procedure f(n)
return(n)
end
procedure p(x, a)
struct t { integer b; logical c(3) }
t x
integer a(10)
a(1) = x.b
end
TEXT
}

# What is in a file so many times, with the number in it.
groups() { # FILE COUNT
    for number in $(seq "$2"); do sed "s/#/$number/g" "$1"; done
}

# A main that returns at once, with so many groups.
one() { # GROUPS
    echo procedure
    groups "$work/declared" "$1"
    echo return
    groups "$work/stated" "$1"
    echo end
    called
}

# A main that returns at once, and so many procedures of a group each, of which the last calls no further.
many() { # PROCEDURES
    printf 'procedure\nreturn\nq1(1)\nend\n'
    for number in $(seq "$1"); do
        echo "procedure q$number(n)"
        sed 's/#//g' "$work/declared" "$work/stated"
        if [ "$number" -lt "$1" ]; then echo "q$((number + 1))(n)"; fi
        echo end
    done
    called
}

printf 'procedure\nend\n' >"$work/empty.r"

# The time of so many runs of a text one after the other, in nanoseconds.
runs_time() { # TEXT
    command_time /dev/null sh -c 'for _ in $(seq "$1"); do "$2" run efl "$3"; done' sh "$times" "$eft" "$1"
}

# The same of a text of such a shape, without as many empty runs. The text must have no fault but that it is not built yet.
check_time() { # SHAPE SIZE
    "$1" "$2" >"$work/text.r"
    "$eft" run efl "$work/text.r" >/dev/null 2>"$work/said"
    if grep -v '^fault 31 ' "$work/said" >&2; then
        echo "bench/efl.sh: $2 of $1 are not accepted" >&2
        exit 1
    fi
    echo $(($(runs_time "$work/text.r") - $(runs_time "$work/empty.r")))
}

measured() { # WHAT SHAPE LARGE SMALL
    large=$(check_time "$2" "$3") || exit 1
    small=$(check_time "$2" "$4") || exit 1
    compare "$3 $1 and $4, $times runs" "$large" "$small" 12
}

measured "groups in one procedure" one 100 10
measured "procedures" many 100 10

# 93 tokens of statements over scalars that are the same in both languages, in 16 lines.
cat >"$work/both" <<'TEXT'
for (k# = 1; k# <= 10; k# = k# + 1)
	n# = n# + k#
if (n# > 3) {
	m# = n#*2 - k#
	k# = m#/3
	}
else
	n# = 0
while (n# > 0) {
	n# = n# - 7
	if (n# == 4)
		break
	}
repeat
	m# = m# - 1
until (m# < 0)
TEXT

# So many groups of them in each language.
compiled_efl() { # GROUPS
    echo procedure
    groups "$work/both" "$1"
    echo end
}

compiled_ratfor() { # GROUPS
    groups "$work/both" "$1"
    printf 'stop\nend\n'
}

# The time of so many decks of a text one after the other, in nanoseconds.
decks_time() { # LANGUAGE TEXT
    command_time /dev/null sh -c 'for _ in $(seq "$1"); do "$2" cards "$3" "$4" || echo refused >&2; done' sh "$times" "$eft" "$1" "$2"
}

# The same of so many groups, without as many empty ones. The text must have a deck.
compile_time() { # LANGUAGE GROUPS
    "compiled_$1" "$2" >"$work/text.r"
    if ! "$eft" cards "$1" "$work/text.r" >"$work/deck" 2>"$work/said"; then
        cat "$work/said" >&2
        echo "bench/efl.sh: $2 groups have no deck" >&2
        exit 1
    fi
    "compiled_$1" 0 >"$work/none.r"
    echo $(($(decks_time "$1" "$work/text.r") - $(decks_time "$1" "$work/none.r")))
}

large=$(compile_time efl 210) || exit 1
small=$(compile_time efl 21) || exit 1
compare "decks of 210 groups and of 21, $times runs" "$large" "$small" 12
ratfor=$(compile_time ratfor 210) || exit 1
awk -v lines=$((210 * 16 * times)) -v efl="$large" -v ratfor="$ratfor" 'BEGIN {
    printf "decks: %.0f lines a second of EFL, and %.0f of Ratfor, %.1f times the time\n", lines / efl * 1e9, lines / ratfor * 1e9, efl / ratfor
}'
exit $status
