# Run lengths: each line becomes its characters, each with how often it stands in a row. Ends at a line that begins with a
# dollar sign. Blanks behind the last other character are left out.
define(width, 60)
define(blank, 32)
define(dollar, 36)
integer line(width), from(width), count(width), total, runs
total = 0
repeat {
    read(5,8) line
    if (line(1) == dollar) break
    for (last = width; last > 1; last = last - 1)
        if (line(last) != blank) break
    runs = 0
    for (i = 1; i <= last; i = j) {
        for (j = i + 1; j <= last; j = j + 1)
            if (line(j) != line(i)) break
        runs = runs + 1
        from(runs) = line(i)
        count(runs) = j - i
    }
    total = total + runs
    write(6,9) (from(i), count(i), i = 1, runs)
}
write(6,7) total
7 format(i5, ' runs')
8 format(60a1)
9 format(12(1x, a1, i3))
stop
end
