# The numbers of Fibonacci up to a thousand.
procedure
i = 0
j = 1
repeat {
    write( , i:i(11))
    j += i
    i = j - i
} until (i > 1000)
end
