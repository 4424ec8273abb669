# Sorts lines of at most 30 characters by their characters' codes, the shorter one first where one begins another. The last
# line begins with a dollar sign. Lines that are equal keep their order.
define(most, 50)
define(width, 30)
define(dollar, 36)
integer text(width,most), line(width), order(most)
n = 0
repeat {
    read(5,9) line
    if (line(1) == dollar) break
    n = n + 1
    do i = 1, width
        text(i,n) = line(i)
    order(n) = n
}
# each line goes forward until the one before it is not greater
for (k = 2; k <= n; k = k + 1) {
    new = order(k)
    for (j = k; j > 1; j = j - 1) {
        lower = order(j-1)
        for (i = 1; i < width; i = i + 1)
            if (text(i,new) != text(i,lower)) break
        if (text(i,new) >= text(i,lower)) break
        order(j) = lower
    }
    order(j) = new
}
for (k = 1; k <= n; k = k + 1) {
    j = order(k)
    write(6,9) (text(i,j), i = 1, width)
}
9 format(30a1)
stop
end
