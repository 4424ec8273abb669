#!/bin/sh
# How fast programs run. Three runs go on to a limit of 5,000,000 statements: how many begin in a second, an empty run taken off (at
# least 1,000,000 are wanted). The programs of bench/programs end, and run beside the same in Python, Lua and Forth, of which those
# are taken that are there: sums, nested DO loops over an array, an array shuffled by a congruential function, calls, and characters
# copied. Each is to write the same records, and in less time than Python. A run of 200,000,000 statements is to take no more memory
# than one of 2,000,000.
. "$(dirname "$0")/common.sh"
wants "$eft"
steps=5000000
programs=$here/bench/programs

printf 'end\n' >"$work/empty.r"
cat >"$work/endless.r" <<'TEXT'
k = 0
while (0 == 0) {
	k = k + 1
	if (k > 1000) k = 0
	}
end
TEXT
cat >"$work/choices.r" <<'TEXT'
k = 0
repeat {
	k = k + 1
	switch (k) {
		case 1, 2: m = 1
		case 3: m = 2
		default: k = 0
		}
	}
end
TEXT
cat >"$work/loops.r" <<'TEXT'
repeat {
	do i = 1, 100
		do j = 1, 100
			m = i * j
	}
end
TEXT

empty=$(command_time /dev/null "$eft" run ratfor "$work/empty.r")
if [ "$(cat "$work/err")" != "" ]; then
    echo "bench/run.sh: an empty program does not run" >&2
    exit 1
fi
for text in endless choices loops; do
    took=$(command_time /dev/null "$eft" run --steps "$steps" ratfor "$work/$text.r")
    rate=$((steps * 1000000000 / (took - empty)))
    echo "$text: $rate statements a second"
    if [ "$rate" -lt 1000000 ]; then
        echo "$text: fewer than 1,000,000 statements a second" >&2
        status=1
    fi
done

# Runs the same program in another language, and tells how many times its time a run took; at most so many are wanted, or any.
beside() { # WHAT TOOK WANTED COMMAND...
    what=$1 took=$2 wanted=$3
    shift 3
    command -v "$1" >/dev/null || { echo "$what: there is no $1 to compare with"; return; }
    other=$(command_time /dev/null "$@")
    cmp -s "$work/out" "$work/shown" || { echo "bench/run.sh: $what: other records" >&2; exit 1; }
    compare "$what, and $1" "$took" "$other" "$wanted"
}
for name in sums arrays shuffle calls copies; do
    took=$(command_time /dev/null "$eft" run --steps 1000000000 ratfor "$programs/$name.r")
    cp "$work/out" "$work/shown"
    beside "$name" "$took" 1 python3 "$programs/$name.py"
    beside "$name" "$took" any lua5.4 "$programs/$name.lua"
    beside "$name" "$took" any gforth "$programs/$name.fs"
done

# The most memory that a run takes, in units of 1,024 bytes.
memory() { # STEPS
    python3 -c 'import resource, subprocess, sys
subprocess.run(sys.argv[1:], stderr=subprocess.DEVNULL)
print(resource.getrusage(resource.RUSAGE_CHILDREN).ru_maxrss)' "$eft" run --steps "$1" ratfor "$work/endless.r"
}
command -v python3 >/dev/null || { echo "bench/run.sh: there is no python3 to measure memory with"; exit $status; }
short=$(memory 2000000)
long=$(memory 200000000)
echo "memory of 2,000,000 statements: $short KiB; of 200,000,000: $long KiB"
# (the system's own counting differs by some pages from run to run)
if [ "$long" -gt $((short + 256)) ]; then
    echo "bench/run.sh: the memory of a run grows" >&2
    status=1
fi
exit $status
