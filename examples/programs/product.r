# a product of matrices of any sizes: their dimensions are dummies too
integer a(2,3), b(3,4), c(2,4)
data a(1,1), a(2,1), a(1,2), a(2,2), a(1,3), a(2,3)/1, 2, 3, 4, 5, 6/
do i = 1, 3
    do j = 1, 4
        b(i,j) = i - j
call times(a, b, c, 2, 3, 4)
call show(a, 2, 3)
call show(b, 3, 4)
call show(c, 2, 4)
stop
end

subroutine times(a, b, c, l, m, n)
integer l, m, n, a(l,m), b(m,n), c(l,n)
do i = 1, l
    do j = 1, n {
        c(i,j) = 0
        do k = 1, m
            c(i,j) = c(i,j) + a(i,k)*b(k,j)
        }
return
end

subroutine show(a, m, n)
integer m, n, a(m,n)
write(6,1) m, n
do i = 1, m
    write(6,2) (a(i,j), j = 1, n)
1 format(i2, ' by', i2)
2 format(10i5)
return
end
