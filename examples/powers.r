# The powers of two, until one is above the greatest integer: that is a trap.
k = 1
repeat {
    write(6,9) k
    k = 2*k
}
9 format(i11)
end
