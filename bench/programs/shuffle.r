# an array shuffled by a congruential function
integer a(1000)
do i = 1, 1000
	a(i) = i
k = 1
do j = 1, 500
	do i = 1, 1000 {
		k = mod(k * 171 + 11213, 53125)
		n = mod(k, 1000) + 1
		m = a(i)
		a(i) = a(n)
		a(n) = m
		}
write(6,9) a(1), a(1000)
9 format(2i10)
end
