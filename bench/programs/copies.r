# characters copied from one array to another
integer a(80), b(80)
do i = 1, 80
	a(i) = 31 + i
do k = 1, 20000
	do i = 1, 80
		b(i) = a(i)
write(6,9) b
9 format(80a1)
end
