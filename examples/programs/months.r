# the days of a year by a table that BLOCK DATA fills
integer year, month, day, days(12), names(3,12), n, total
common /months/ days, names
repeat {
    read(5,1) year, month, day
    if (year == 0)
        break
    n = total(year, month) + day
    write(6,2) (names(i,month), i = 1, 3), day, year, n
    }
1 format(i4, 2i3)
2 format(3a1, i3, ',', i5, ' is day', i4)
stop
end

# the days of the months before this one
integer function total(year, month)
integer year, month, days(12), names(3,12), last
logical leap
common /months/ days, names
total = 0
last = month - 1
for (i = 1; i <= last; i = i + 1)
    total = total + days(i)
if (month > 2 & leap(year))
    total = total + 1
return
end

logical function leap(year)
integer year
leap = mod(year, 4) == 0 & mod(year, 100) != 0 | mod(year, 400) == 0
return
end

block data
integer days(12), names(3,12)
common /months/ days, names
data days(1), days(2), days(3), days(4), days(5), days(6)/31, 28, 31, 30, 31, 30/
data days(7), days(8), days(9), days(10), days(11), days(12)/2*31, 30, 31, 30, 31/
data names(1,1), names(2,1), names(3,1), names(1,2), names(2,2), names(3,2), names(1,3), names(2,3), names(3,3)/'J',
    'a', 'n', 'F', 'e', 'b', 'M', 'a', 'r'/
data names(1,4), names(2,4), names(3,4), names(1,5), names(2,5), names(3,5), names(1,6), names(2,6), names(3,6)/'A',
    'p', 'r', 'M', 'a', 'y', 'J', 'u', 'n'/
data names(1,7), names(2,7), names(3,7), names(1,8), names(2,8), names(3,8), names(1,9), names(2,9), names(3,9)/'J',
    'u', 'l', 'A', 'u', 'g', 'S', 'e', 'p'/
data names(1,10), names(2,10), names(3,10), names(1,11), names(2,11), names(3,11), names(1,12), names(2,12), names(3,12)/'O',
    'c', 't', 'N', 'o', 'v', 'D', 'e', 'c'/
end
