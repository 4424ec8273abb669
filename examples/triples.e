# The right triangles with whole sides up to 20: each side is a record of its own.
procedure
do i = 1, 20
    do j = i, 20
        do k = j, 20 {
            if (i**2 + j**2 < k**2) next 2
            if (i**2 + j**2 == k**2) {
                side(i)
                side(j)
                side(k)
            }
        }
end

procedure side(length)
integer length
write( , length:i(3))
end
