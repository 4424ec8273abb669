# calls of a function
integer next1
k = 0
do i = 1, 1000000
	k = next1(k)
write(6,9) k
9 format(i10)
end
integer function next1(k)
return (k + 1)
end
