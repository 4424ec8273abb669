# nested DO loops over an array
integer a(100,100)
do k = 1, 100
	do j = 1, 100
		do i = 1, 100
			a(i,j) = i * j + k
write(6,9) a(99,98)
9 format(i10)
end
