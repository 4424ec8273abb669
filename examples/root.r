# The whole square roots of 10, 100, .. 100000000, by halving an interval.
define(LARGEST, 46340)
for (n = 10; n <= 100000000; n = n*10) {
    low = 0
    ihigh = LARGEST
    while (low < ihigh) {
        mid = (low + ihigh + 1)/2
        if (mid*mid <= n)
            low = mid
        else
            ihigh = mid - 1
    }
    write(6,9) low
}
9 format(i6)
stop
end
