# The numbers of Fibonacci up to a thousand.
i = 0
j = 1
repeat {
	write(6,9) i
	k = i + j
	i = j
	j = k
	} until (i > 1000)
9 format(i11)
stop
end
