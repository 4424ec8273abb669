# What the scripts of this folder share: the programs, a folder for texts, the least time of a layer, how figures are told, and a text.
# Each script reads it by `. "$(dirname "$0")/common.sh"`, and ends with `exit $status`.
here=$(CDPATH= cd -- "$(dirname -- "$0")/.." && pwd) || exit 1
eft=$here/crates/eft/out/eft
layers=$here/crates/bench/out/bench
status=0
rounds=3
turns=15
work=$(mktemp -d) || exit 1
trap 'rm -rf "$work"' EXIT

# Ends the script unless the program is built; `./eft` builds eft, and `rt run` in crates/bench the layers.
wants() { # PROGRAM
    [ -x "$1" ] || { echo "$0: $1 is not built" >&2; exit 2; }
}

# What a layer does with a text, in nanoseconds: the least of so many rounds, all that comes before the layer with it.
layer_time() { # LAYER LANGUAGE FILE ROUNDS
    "$layers" "$1" "$2" "$3" "$4" | sed -n 's/ ns$//p'
}

# The least time of $rounds runs of a command over an input, in nanoseconds. What it writes is left in $work/out.
command_time() { # INPUT COMMAND...
    input=$1
    shift
    for _ in $(seq "$rounds"); do
        from=$(date +%s%N)
        "$@" <"$input" 2>"$work/err" | cat >"$work/out"
        echo $(($(date +%s%N) - from))
    done | sort -n | head -n 1
}

# Tells how many times as long one took as another, and whether that is at most what is wanted; `any` wants nothing.
compare() { # WHAT TOOK BESIDE WANTED
    awk -v what="$1" -v took="$2" -v beside="$3" -v wanted="$4" 'BEGIN {
        asked = wanted == "any" ? "" : " (at most " wanted " wanted)"
        printf "%s: %.2f ms beside %.2f ms, %.1f times%s\n", what, took / 1e6, beside / 1e6, took / beside, asked
        exit wanted != "any" && took > wanted * beside
    }' || status=1
}

# Tells the same of the turn with the middle ratio, of a line of both times for each turn: the speed of a machine that is shared changes
# all the time.
compare_turns() { # WHAT WANTED
    pair=$(awk '{ print $1 / $2, $1, $2 }' | sort -n | sed -n "$(((turns + 1) / 2))p" | cut -d " " -f 2-)
    compare "$1" "${pair% *}" "${pair#* }" "$2"
}

# A main and so many subroutines, each the body of one of three examples in turn.
programs() { # UNITS
    awk -v n="$1" '
        FNR == 1 { files++ }
        { body[files] = body[files] $0 "\n" }
        END {
            print "k = 0\nend"
            for (i = 1; i <= n; i++) printf "subroutine s%d\n%s", i, body[(i - 1) % files + 1]
        }' "$here/examples/queens.r" "$here/examples/life.r" "$here/examples/calend.r"
}
