# Josephus: 41 stand in a circle, and every third who is still there steps out; who steps out last.
define(men, 41)
define(step, 3)
logical out(men)
do i = 1, men
    out(i) = .false.
i = 0
for (left = men; left > 0; left = left - 1) {
    for (k = step; k > 0; k = k - 1)
        repeat {
            i = mod(i, men) + 1
        } until (!out(i))
    out(i) = .true.
    if (left <= 4)
        write(6,9) i
}
9 format(i4)
stop
end
