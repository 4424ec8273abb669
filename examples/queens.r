# Eight queens: the first way to place them so that none attacks another, by the row of the queen in each column,
# and then the number of all ways.
define(size, 8)
integer row(size), count, col
logical taken(size), up(15), down(15)
do i = 1, size
    taken(i) = .false.
do i = 1, 15 {
    up(i) = .false.
    down(i) = .false.
}
count = 0
col = 1
row(1) = 0
while (col > 0) {
    # Take back the queen of this column, and look for the next row that is free.
    k = row(col)
    if (k > 0) {
        taken(k) = .false.
        i = col + k - 1
        up(i) = .false.
        i = col - k + size
        down(i) = .false.
    }
    repeat {
        k = k + 1
        if (k > size) break
        m = col + k - 1
        n = col - k + size
    } until (!(taken(k) | up(m) | down(n)))
    row(col) = k
    if (k > size) {
        col = col - 1
        next
    }
    taken(k) = .true.
    up(m) = .true.
    down(n) = .true.
    if (col < size) {
        col = col + 1
        row(col) = 0
        next
    }
    count = count + 1
    if (count == 1)
        do i = 1, size
            write(6,9) row(i)
}
write(6,9) count
9 format(i4)
stop
end
