k = 2 + 3
write(6,9) k
9 format(i11)
stop
end
