# How often each remainder by 4 comes among the squares of 1 to 20.
procedure
n0 = n1 = n2 = n3 = 0
do i = 1, 20
    switch (mod(i**2, 4)) {
        case 0: ++n0
        case 1: ++n1
        case 2: ++n2
        default: ++n3
    }
write( , n0:i(3))
write( , n1:i(3))
write( , n2:i(3))
write( , n3:i(3))
end
