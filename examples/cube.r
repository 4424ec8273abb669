# A cube of three dimensions: its sums along one side, which FORTRAN keeps with the first subscript fastest.
integer cube(2,3,4), sum(3,4)
do i = 1, 2
    do j = 1, 3
        do k = 1, 4
            cube(i,j,k) = 100*i + 10*j + k
do j = 1, 3
    do k = 1, 4 {
        sum(j,k) = 0
        do i = 1, 2
            sum(j,k) = sum(j,k) + cube(i,j,k)
        write(6,9) sum(j,k)
    }
9 format(i5)
stop
end
