# A walk by labels: 1 to 3, then out of two loops at once, and the first of two labels.
procedure
k = 0
again: write( , ++k:i(2))
if (k < 3) goto again
repeat
    while (k > 0)
        if (--k == 1) break 2
switch (k) {
    case 1: goto first
    case 2: goto second
}
first: write( , k:i(2))
second: k = -k
write( , k:i(2))
end
