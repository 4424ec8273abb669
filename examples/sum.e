procedure
k = 2 + 3
l = k - 10
m = k + l + 100
write( , k:i(11))
write( , l:i(11))
write( , m:i(11))
end
