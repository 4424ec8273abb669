# how often two dice show each sum, by a linear congruential function
integer sums(12), throw, total
do i = 1, 12
    sums(i) = 0
for (n = 1; n <= 600; n = n + 1) {
    total = throw(6) + throw(6)
    sums(total) = sums(total) + 1
    }
do i = 2, 12
    call bar(i, sums(i))
stop
end

# a number from 1 to `sides`; the seed keeps its value from call to call
integer function throw(sides)
integer sides, seed
data seed/1234/
seed = mod(seed*421 + 1663, 7875)
return (mod(seed/13, sides) + 1)
end

subroutine bar(i, n)
integer star, stars
data star/'*'/
stars = (n + 4)/5
if (stars == 0)
    stars = 1
write(6,1) i, n, (star, k = 1, stars)
1 format(i3, i5, 1x, 30a1)
return
end
