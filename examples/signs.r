# The six intrinsic functions, over the numbers from -3 to 3.
for (k = -3; k <= 3; k = k + 1) {
    write(6,9) k
    n = iabs(k)
    write(6,9) n
    n = mod(k, 2)
    write(6,9) n
    n = isign(5, k)
    write(6,9) n
    n = idim(k, 1)
    write(6,9) n
    n = max0(k, -1, 2*k)
    write(6,9) n
    n = min0(k, -1)
    write(6,9) n
}
9 format(i4)
stop
end
