k = 2 + 3
l = k - 10
m = k + l + 100
write(6,9) k
write(6,9) l
write(6,9) m
9 format(i11)
stop
end
