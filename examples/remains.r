# How often each remainder by 4 comes among the squares of 1 to 20.
n0 = 0
n1 = 0
n2 = 0
n3 = 0
do i = 1, 20 {
    k = i**2
    switch (k - (k/4)*4) {
        case 0: n0 = n0 + 1
        case 1: n1 = n1 + 1
        case 2: n2 = n2 + 1
        default: n3 = n3 + 1
    }
}
write(6,9) n0
write(6,9) n1
write(6,9) n2
write(6,9) n3
9 format(i3)
stop
end
