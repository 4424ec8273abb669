# The product of two matrices of three rows and columns.
integer left(3,3), right(3,3), prod(3,3)
do i = 1, 3
    do j = 1, 3 {
        left(i,j) = i + 2*j
        right(i,j) = i*j - 3
        prod(i,j) = 0
    }
do i = 1, 3
    do j = 1, 3
        do k = 1, 3
            prod(i,j) = prod(i,j) + left(i,k)*right(k,j)
do i = 1, 3
    do j = 1, 3
        write(6,9) prod(i,j)
9 format(i5)
stop
end
