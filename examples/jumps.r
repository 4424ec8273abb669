# A walk by labels: 1 to 3, then out of two loops at once, and the first of two labels.
k = 0
10 k = k + 1
write(6,9) k
if (k < 3)
    goto 10
repeat
    while (k > 0) {
        k = k - 1
        if (k == 1)
            break 2
    }
goto (20,30), k
20 write(6,9) k
30 k = -k
write(6,9) k
9 format(i2)
end
