# What FORTRAN's six intrinsic functions give, over the numbers from -3 to 3, by EFL's five.
procedure
for (k = -3, k <= 3, ++k) {
    write( , k:i(4))
    write( , abs(k):i(4))
    write( , mod(k, 2):i(4))
    write( , sign(5, k):i(4))
    write( , max(k - 1, 0):i(4))
    write( , max(k, -1, 2*k):i(4))
    write( , min(k, -1):i(4))
}
end
