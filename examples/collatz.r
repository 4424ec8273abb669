# How many steps 27 takes to 1 by halving and by 3n+1, and the greatest number on the way.
n = 27
nsteps = 0
most = n
while (n != 1) {
    if ((n/2)*2 == n)
        n = n/2
    else
        n = 3*n + 1
    if (n > most)
        most = n
    nsteps = nsteps + 1
}
write(6,9) nsteps
write(6,9) most
9 format(i6)
stop
end
