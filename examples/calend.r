# Calendars: for each month and year that is read, up to a month of zero, its weeks from Monday to Sunday.
integer day(37), year, first, days
repeat {
    read(5,7) month, year
    if (month == 0) break
    # the weekday of the month's first day, Monday is 1
    m = month
    k = year
    if (m < 3) {
        m = m + 12
        k = k - 1
    }
    first = mod(1 + 13*(m + 1)/5 + k + k/4 - k/100 + k/400 + 5, 7) + 1
    switch (month) {
        case 2:
            days = 28
            if (mod(year, 4) == 0 & mod(year, 100) != 0 | mod(year, 400) == 0) days = 29
        case 4, 6, 9, 11: days = 30
        default: days = 31
    }
    write(6,8) month, year
    do i = 1, days
        day(i) = i
    k = 8 - first
    switch (first) {
        case 1: write(6,1) (day(i), i = 1, k)
        case 2: write(6,2) (day(i), i = 1, k)
        case 3: write(6,3) (day(i), i = 1, k)
        case 4: write(6,4) (day(i), i = 1, k)
        case 5: write(6,5) (day(i), i = 1, k)
        case 6: write(6,6) (day(i), i = 1, k)
        default: write(6,9) (day(i), i = 1, k)
    }
    k = k + 1
    write(6,1) (day(i), i = k, days)
}
1 format(7i3)
2 format(3x, 6i3)
3 format(6x, 5i3)
4 format(9x, 4i3)
5 format(12x, 3i3)
6 format(15x, 2i3)
7 format(i2, i5)
8 format(/6x, i2, ' / ', i4/' Mo Tu We Th Fr Sa Su')
9 format(18x, i3)
stop
end
