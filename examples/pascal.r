# Pascal's triangle to the row of 8: each inner number is the sum of the two above it.
define(rows, 8)
integer tri(rows,rows)
do i = 1, rows {
    tri(i,1) = 1
    tri(i,i) = 1
    for (j = 2; j < i; j = j + 1)
        tri(i,j) = tri(i-1,j-1) + tri(i-1,j)
}
do i = 1, rows
    do j = 1, i
        write(6,9) tri(i,j)
9 format(i4)
stop
end
