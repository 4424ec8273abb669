# The right triangles with whole sides up to 20: each side is a record of its own.
for (i = 1; i <= 20; i = i + 1)
    for (j = i; j <= 20; j = j + 1)
        for (k = j; k <= 20; k = k + 1) {
            if (i*i + j*j < k*k)
                next 2
            if (i*i + j*j == k*k) {
                write(6,9) i
                write(6,9) j
                write(6,9) k
            }
        }
9 format(i3)
stop
end
