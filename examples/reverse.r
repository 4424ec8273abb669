# The digits of a number, summed and turned round.
n = 90517
isum = 0
nback = 0
while (n > 0) {
    k = n - (n/10)*10
    isum = isum + k
    nback = nback*10 + k
    n = n/10
}
write(6,9) isum
write(6,9) nback
9 format(i6)
stop
end
