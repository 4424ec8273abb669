# The whole square roots of 10, 100, .. 100000000, by halving an interval.
define LARGEST 46340
procedure
for (n = 10, n <= 100000000, n *= 10)
    write( , square_root(n):i(6))
end

integer procedure square_root(n)
integer low, high, middle
low = 0
high = LARGEST
while (low < high) {
    middle = (low + high + 1)/2
    if (middle**2 <= n) low = middle
    else high = middle - 1
}
return(low)
end
