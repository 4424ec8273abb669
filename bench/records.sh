#!/bin/sh
# How fast records are read and written: copying 16 MB of records of 80 characters beside `cat` through a pipe (wanted: at
# most ten times as long), the same beside a tenth of it (at most twelve times), and a million small records beside awk's printing
# of them (at most four times). The programs take turns, fifteen each, and the least time of each counts, since the speed of a machine
# that is shared changes from one second to the next.
. "$(dirname "$0")/common.sh"
wants "$eft"
records=207000
numbers=1000000

cat >"$work/copy.r" <<'TEXT'
integer line(80)
repeat {
	read(5,9) line
	if (line(1) == 36) break
	write(6,9) line
	}
9 format(80a1)
end
TEXT
cat >"$work/numbers.r" <<TEXT
do i = 1, $numbers
	write(6,9) i
9 format(i7)
end
TEXT
lines() { # COUNT
    awk -v n="$1" 'BEGIN { for (i = 1; i <= n; i++) printf "%080d\n", i * 7919; print "$" }'
}
lines "$records" >"$work/large"
lines $((records / 10)) >"$work/small"

# The least of the times in a file.
least() { # FILE
    sort -n "$work/$1" | head -n 1
}

rounds=1
for _ in $(seq 15); do
    command_time "$work/large" cat >>"$work/plain"
    command_time "$work/small" "$eft" run --steps 1000000000 ratfor "$work/copy.r" >>"$work/smaller"
    command_time "$work/large" "$eft" run --steps 1000000000 ratfor "$work/copy.r" >>"$work/copied"
done
sed '$d' "$work/large" | cmp -s - "$work/out" || { echo "bench/records.sh: copy.r does not copy" >&2; exit 1; }
plain=$(least plain) copied=$(least copied) smaller=$(least smaller)
compare "copying 16 MB, and cat" "$copied" "$plain" 10
compare "copying 16 MB, and a tenth of it" "$copied" "$smaller" 12
rounds=3
printed=$(command_time /dev/null awk -v n="$numbers" 'BEGIN { for (i = 1; i <= n; i++) printf "%7d\n", i }')
cp "$work/out" "$work/wanted"
written=$(command_time /dev/null "$eft" run --steps 1000000000 ratfor "$work/numbers.r")
cmp -s "$work/wanted" "$work/out" || { echo "bench/records.sh: numbers.r does not write the numbers" >&2; exit 1; }
compare "a million numbers, and awk" "$written" "$printed" 4
exit $status
