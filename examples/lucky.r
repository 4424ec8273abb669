# The lucky numbers up to 100. Of all numbers each second one is struck out, of those left each third, then each seventh, and
# so on: the next step is the next number that is left.
define(limit, 100)
# one number more, which is never struck out
logical struck(101)
do i = 1, limit
    struck(i) = mod(i, 2) == 0
struck(101) = .false.
k = 1
repeat {
    repeat
        k = k + 1
    until (!struck(k))
    if (k > limit) break
    n = 0
    do i = 1, limit
        if (!struck(i)) {
            n = n + 1
            struck(i) = mod(n, k) == 0
        }
}
do i = 1, limit
    if (!struck(i)) write(6,9) i
9 format(i4)
stop
end
