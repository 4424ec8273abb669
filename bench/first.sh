#!/bin/sh
# What a run costs at least: an empty program, the ratio of a text of 64 KiB to one of 8 KiB without that, and whether the larger
# one runs in 64 MiB of memory.
. "$(dirname "$0")/common.sh"
wants "$eft"

# A text of at most so many bytes, which reads and sets two variables line by line.
text() { # BYTES
    awk -v bytes="$1" 'BEGIN {
        print "k = 0"; print "n = 3"
        for (used = 12 + 31; used + 40 <= bytes; used += 40) print "k = k + 1 - n + n # and a comment to 40"
        print "write(6,9) k"; print "9 format(i11)"; print "end"
    }'
}
text 65536 >"$work/large.r"
text 8192 >"$work/small.r"
printf 'end\n' >"$work/empty.r"

empty=$(command_time /dev/null "$eft" run ratfor "$work/empty.r")
large=$(command_time /dev/null "$eft" run ratfor "$work/large.r")
small=$(command_time /dev/null "$eft" run ratfor "$work/small.r")
awk -v e="$empty" -v l="$large" 'BEGIN { printf "an empty run: %.2f ms; 64 KiB: %.2f ms\n", e / 1e6, l / 1e6 }'
compare "64 KiB and 8 KiB, without the empty run" $((large - empty)) $((small - empty)) 12
if (ulimit -v 65536 && "$eft" run ratfor "$work/large.r" >/dev/null); then
    echo "64 KiB runs in 64 MiB"
else
    echo "64 KiB does not run in 64 MiB"
    status=1
fi
exit $status
