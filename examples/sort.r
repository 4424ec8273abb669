# Sorts twelve numbers in place, by exchanges of neighbours, until a pass makes none.
define(size, 12)
integer data1(size)
logical moved
k = 7
do i = 1, size {
    k = mod(k*37 + 11, 101)
    data1(i) = k
}
repeat {
    moved = .false.
    do i = 2, size
        if (data1(i-1) > data1(i)) {
            k = data1(i)
            data1(i) = data1(i-1)
            data1(i-1) = k
            moved = .true.
        }
} until (!moved)
do i = 1, size
    write(6,9) data1(i)
9 format(i4)
stop
end
