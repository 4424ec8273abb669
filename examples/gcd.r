# The greatest common divisor of 1071 and 462, with the remainders on the way (Euclid).
m = 1071
n = 462
while (n != 0) {
    k = m - (m/n)*n
    m = n
    n = k
    write(6,9) n
}
write(6,9) m
9 format(i5)
stop
end
