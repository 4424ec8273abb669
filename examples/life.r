# Conway's life on a torus: how many cells live in each of ten generations that a glider and a blinker grow into.
define(size, 12)
logical cell(size,size), born(size,size)
integer before(size), after(size)
do i = 1, size {
    before(i) = i - 1
    after(i) = i + 1
    do j = 1, size
        cell(i,j) = .false.
}
before(1) = size
after(size) = 1
# a glider
cell(1,2) = .true.
cell(2,3) = .true.
cell(3,1) = .true.
cell(3,2) = .true.
cell(3,3) = .true.
# a blinker in its way
cell(7,6) = .true.
cell(7,7) = .true.
cell(7,8) = .true.
do k = 1, 24 {
    n = 0
    do i = 1, size
        do j = 1, size
            if (cell(i,j)) n = n + 1
    write(6,9) n
    do i = 1, size
        do j = 1, size {
            ia = before(i)
            ib = after(i)
            ja = before(j)
            jb = after(j)
            n = 0
            if (cell(ia,ja)) n = n + 1
            if (cell(ia,j)) n = n + 1
            if (cell(ia,jb)) n = n + 1
            if (cell(i,ja)) n = n + 1
            if (cell(i,jb)) n = n + 1
            if (cell(ib,ja)) n = n + 1
            if (cell(ib,j)) n = n + 1
            if (cell(ib,jb)) n = n + 1
            born(i,j) = n == 3 | n == 2 & cell(i,j)
        }
    do i = 1, size
        do j = 1, size
            cell(i,j) = born(i,j)
}
9 format(i4)
stop
end
