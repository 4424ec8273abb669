# Factorials, as far as the integers of the profile go.
n = 1
do i = 1, 12 {
    n = n*i
    write(6,9) n
}
9 format(i11)
stop
end
