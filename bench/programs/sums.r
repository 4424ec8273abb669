# sums with a test
k = 0
do i = 1, 2000000 {
	k = k + 1
	if (k > 1000) k = 0
	}
write(6,9) k
9 format(i10)
end
