# A table: reads cities with their temperatures in four seasons, three cities a record, and writes them in two columns of a
# repeated group, with the mean and whether it freezes there.
define(most, 30)
integer name(8,most), warm(4,most), mean(most)
logical freeze(most)
read(5,6) n
read(5,7) ((name(i,k), i = 1, 8), (warm(i,k), i = 1, 4), k = 1, n)
do k = 1, n {
    mean(k) = 0
    freeze(k) = .false.
    do i = 1, 4 {
        mean(k) = mean(k) + warm(i,k)
        if (warm(i,k) < 0) freeze(k) = .true.
    }
    mean(k) = mean(k)/4
}
write(6,8)
write(6,9) ((name(i,k), i = 1, 8), mean(k), freeze(k), k = 1, n)
6 format(i3)
7 format(3(8a1, 4i3, 1x))
8 format(2('city      mean  freezes ')/2('-----------------------  '))
9 format(2(8a1, i6, l9, 2x))
stop
end
