# The numbers below 500 that are the sum of their smaller divisors.
do n = 2, 499 {
    isum = 1
    for (i = 2; i*i <= n; i = i + 1) {
        if ((n/i)*i != n)
            next
        isum = isum + i
        if (i*i != n)
            isum = isum + n/i
    }
    if (isum == n)
        write(6,9) n
}
9 format(i4)
stop
end
