# A histogram of numbers: reads how many there are, then eight a record, and draws a bar for each ten from 0 to 99.
define(star, 42)
integer number(200), tens(10), bar(60)
do i = 1, 60
    bar(i) = star
do i = 1, 10
    tens(i) = 0
read(5,7) n, (number(i), i = 1, n)
do i = 1, n {
    k = number(i)/10 + 1
    if (k < 1 | k > 10) next
    tens(k) = tens(k) + 1
}
do k = 1, 10 {
    low = 10*k - 10
    m = min0(tens(k), 60)
    switch (m) {
        case 0: write(6,8) low, tens(k)
        default: write(6,8) low, tens(k), (bar(i), i = 1, m)
    }
}
7 format(i5/(8i4))
8 format(i4, i5, 2x, 60a1)
stop
end
